def main():
    old = [i * 7919 % 10007 for i in range(10002)]
    new = [0] * 10002
    for step in range(100):
        for i in range(10000):
            new[i + 1] = (old[i] + old[i + 1] + old[i + 2]) // 3
        old = new[:]
    print("", sum(old))


main()
