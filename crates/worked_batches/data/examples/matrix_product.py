"""The product of two dense matrices, row after row."""
left = [[1, 2, 3, 4], [0, 1, 0, 2], [5, 0, 0, 1]]
right = [[1, 0], [2, 1], [3, -2], [4, 2]]
product = [[sum(a * b for a, b in zip(row, column)) for column in zip(*right)] for row in left]
print(f"INT ({' '.join(str(entry) for row in product for entry in row)})")
