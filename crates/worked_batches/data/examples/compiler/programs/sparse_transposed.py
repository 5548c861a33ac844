"""A sparse matrix transposed: its entries are sorted by place and row, and cut where another place begins."""


def sort(v: list[tuple[int, int, int]], most: int) -> list[tuple[int, int, int]]:
    """By the first part, then by the second; both are from 0 to most."""
    if len(v) < 2:
        return v
    a, b, _ = v[len(v) // 2]
    key = a * most + b
    equal = [(i, j, x) for i, j, x in v if i * most + j == key]
    ways = [[(i, j, x) for i, j, x in v if i * most + j < key], [(i, j, x) for i, j, x in v if i * most + j > key]]
    parts = [sort(part, most) for part in ways]
    return parts[0] + equal + parts[1]


def main(rows: list[list[tuple[int, int]]], width: int) -> list[list[tuple[int, int]]]:
    entries = [(place, i, number) for i, row in enumerate(rows) for place, number in row]
    ordered = sort(entries, len(rows) + 1)
    counts = [sum([place == column for place, _, _ in ordered]) for column in range(width)]
    return partition([(i, number) for _, i, number in ordered], counts)
