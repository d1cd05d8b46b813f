def total(put, get, n, term):
    s = 0
    put(1)
    while get() <= n:
        s = s + term()
        put(get() + 1)
    return s


def main():
    n, s, k = int(input()), 0, 0

    def put(to):
        nonlocal k
        k = to

    for i in range(1, n + 1):
        s = (s + total(put, lambda: k, 100, lambda: k * i)) % 1000003
    print(s)


main()
