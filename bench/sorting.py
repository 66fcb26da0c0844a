SIZE = 64


def sort(row):
    for k in range(1, SIZE):
        item, place = row[k], k
        while place > 0 and row[place - 1] > item:
            row[place] = row[place - 1]
            place = place - 1
        row[place] = item


def main():
    check = 0
    for round in range(1, 11):
        a = [[(i * 7919 + k * k * 104729 + round) % 1009 for k in range(1, SIZE + 1)] for i in range(1, SIZE + 1)]
        for row in a:
            sort(row)
        for row in a:
            for number in row:
                check = (check * 31 + number) % 1000003
    print("", check)


main()
