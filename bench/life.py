SIZE = 64


def neighbours(before, row, column):
    above, here, below = before[row - 1], before[row], before[row + 1]
    return (
        above[column - 1] + above[column] + above[column + 1]
        + here[column - 1] + here[column + 1]
        + below[column - 1] + below[column] + below[column + 1]
    )


def main():
    now = [[0] * (SIZE + 2) for _ in range(SIZE + 2)]
    for i in range(1, SIZE + 1):
        for j in range(1, SIZE + 1):
            now[i][j] = (i * 7 + j * 13 + i * j) % 5 % 2
    for generation in range(50):
        before = [row[:] for row in now]
        for i in range(1, SIZE + 1):
            for j in range(1, SIZE + 1):
                count = neighbours(before, i, j)
                now[i][j] = before[i][j] if count == 2 else 1 if count == 3 else 0
        print("", sum(map(sum, now)))


main()
