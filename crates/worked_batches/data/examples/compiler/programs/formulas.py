"""Sheets of formulas, and of each sheet the results above 0. A node is a number, or a sum or a product of others."""


def value(op: list[int], number: list[int], children: list[list[int]], node: int) -> int:
    return number[node] if op[node] == 0 else folded(op, number, children, node)


def folded(op: list[int], number: list[int], children: list[list[int]], node: int) -> int:
    parts = [value(op, number, children, child) for child in children[node]]
    return sum(parts) if op[node] == 1 else prod(parts)


def main(op: list[int], number: list[int], children: list[list[int]], sheets: list[list[int]]) -> list[list[int]]:
    results = [[value(op, number, children, root) for root in sheet] for sheet in sheets]
    return [[result for result in some if result > 0] for some in results]
