"""Which points are inside a polygon: a ray to the right crosses its edges an odd number of times."""


def crosses(x: int, y: int, edge: tuple[int, int, int, int]) -> bool:
    ax, ay, bx, by = edge
    up = (bx - ax) * (y - ay) - (by - ay) * (x - ax)
    return (ay > y) != (by > y) and ((up > 0) if by > ay else (up < 0))


def main(corners: list[tuple[int, int]], points: list[tuple[int, int]]) -> list[bool]:
    n = len(corners)
    ends = [(corners[i], corners[(i + 1) % n]) for i in range(n)]
    edges = [(ax, ay, bx, by) for (ax, ay), (bx, by) in ends]
    return [sum([crosses(x, y, edge) for edge in edges]) % 2 == 1 for x, y in points]
