"""Sheets of formulas, and of each sheet the results above 0: the functions of the source in docs/COMPILING.md."""
from math import prod

op = [1, 0, 2, 0, 1, 0, 0, 0, 2, 0, 0, 2, 1]
number = [0, 7, 0, 3, 0, 2, -5, 8, 0, 6, -1, 0, 0]
children = [[1, 2], [], [3, 4], [], [5, 6, 7], [], [], [], [9, 10], [], [], [], []]
sheets = [[0, 8], [], [11, 4, 12, 2]]


def value(node):
    return number[node] if op[node] == 0 else folded(node)


def folded(node):
    parts = [value(child) for child in children[node]]
    return sum(parts) if op[node] == 1 else prod(parts)


results = [[result for result in map(value, sheet) if result > 0] for sheet in sheets]
print(f"INT ({' '.join(str(result) for sheet in results for result in sheet)})")
print(f"SEGDES ({' '.join(str(len(sheet)) for sheet in results)})")
