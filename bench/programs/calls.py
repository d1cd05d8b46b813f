def fib(n):
    return n if n < 2 else fib(n - 1) + fib(n - 2)


def main():
    n, s = int(input()), 0
    for _ in range(n):
        s = (s + fib(15)) % 1000003
    print(s)


main()
