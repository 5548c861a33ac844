"""In how many ways n queens can stand: all boards with as many rows are carried on by one call."""


def free(board: list[int], column: int) -> bool:
    row = len(board)
    return all([c != column and row - r != abs(column - c) for r, c in enumerate(board)])


def ways(board: list[int], n: int) -> int:
    if len(board) == n:
        return 1
    return sum([ways(board + [column], n) for column in range(n) if free(board, column)])


def main(n: int) -> int:
    nobody: list[int] = []
    return ways(nobody, n)
