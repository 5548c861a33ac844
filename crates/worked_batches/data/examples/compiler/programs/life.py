"""The game of life: so many turns of a grid, which has nothing around it."""


def alive(grid: list[list[int]], i: int, j: int) -> int:
    if i < 0 or j < 0 or i >= len(grid) or j >= len(grid[0]):
        return 0
    return grid[i][j]


def turn(grid: list[list[int]]) -> list[list[int]]:
    around = [[sum([alive(grid, i + di, j + dj) for di in range(-1, 2) for dj in range(-1, 2)]) - cell
               for j, cell in enumerate(row)] for i, row in enumerate(grid)]
    return [[1 if n == 3 or (n == 2 and cell == 1) else 0 for n, cell in zip(counts, row)]
            for counts, row in zip(around, grid)]


def turns(grid: list[list[int]], n: int) -> list[list[int]]:
    return grid if n == 0 else turns(turn(grid), n - 1)


def main(grid: list[list[int]], n: int) -> list[list[int]]:
    return turns(grid, n)
