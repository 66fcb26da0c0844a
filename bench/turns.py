def main():
    s = t = 0
    for i in range(1, 1001):
        for j in range(1, 1001):
            s = (s * 3 + j) % 1009
            if j % 2 == 0:
                t = t + 1
    print("", s, t)


main()
