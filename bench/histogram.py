def main():
    data = [(i % 1009) * (i % 1013) % 64 for i in range(1, 200001)]
    counts = [0] * 64
    for round in range(5):
        for value in data:
            counts[value] = counts[value] + 1
    for count in counts:
        print("", count)


main()
