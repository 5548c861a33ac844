"""A sparse matrix times a vector. A row has the places and the numbers that aren't 0."""


def main(rows: list[list[tuple[int, int]]], v: list[int]) -> list[int]:
    return [sum([number * v[place] for place, number in row]) for row in rows]
