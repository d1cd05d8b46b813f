def main():
    n, s = int(input()), 0
    for i in range(1, n + 1):
        j = i % 10
        while j > 0:
            j = j - 1
        s = (s + i) % 1000003
    print(s)


main()
