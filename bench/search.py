PRIME = 40009


def root(square):
    for i in range(1, (PRIME - 1) // 2 + 1):
        if i * i % PRIME == square:
            return i
    return 0


def main():
    print("", sum(root((i * 997 % PRIME) * (i * 997 % PRIME) % PRIME) for i in range(1, 201)))


main()
