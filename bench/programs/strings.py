def main():
    n, s, equal = int(input()), "ABLE WAS I ERE I", 0
    t = [" "] * 16
    for _ in range(n):
        for i in range(16):
            t[15 - i] = s[i]
        whole = "".join(t)
        if s == whole:
            equal = equal + 1
        s = whole
        t[:] = "A STRING        "
    print(equal + ord(s[0]))


main()
