def main():
    n, s = int(input()), 0
    a = [[i + j for j in range(1, 21)] for i in range(1, 21)]
    b = [[i - j for j in range(1, 21)] for i in range(1, 21)]
    c = [[0] * 20 for i in range(20)]
    for time in range(1, n + 1):
        for i in range(20):
            for j in range(20):
                c[i][j] = 0
                for k in range(20):
                    c[i][j] = c[i][j] + a[i][k] * b[k][j]
        total = s + c[time % 20][6]
        s = total % 1000003 if total >= 0 else -(-total % 1000003)
    print(s)


main()
