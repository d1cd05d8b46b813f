class Node:
    __slots__ = ("key", "next")

    def __init__(self, key, behind):
        self.key = key
        self.next = behind


def main():
    n, s, items = int(input()), 0, None
    for i in range(1, 1001):
        items = Node(i, items)
    for _ in range(n):
        p = items
        while p is not None:
            s = (s + p.key) % 1000003
            p.key = s
            p = p.next
    print(s)


main()
