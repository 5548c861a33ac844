"""The product of two matrices. Both are read in their places."""


def main(a: list[list[int]], b: list[list[int]]) -> list[list[int]]:
    return [[sum([x * b[k][j] for k, x in enumerate(row)]) for j in range(len(b[0]))] for row in a]
