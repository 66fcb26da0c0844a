import sys


def main():
    sum = 0
    for line in sys.stdin:
        sum = (sum + int(line)) % 1000003
    print("", sum)


main()
