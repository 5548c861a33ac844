"""The corners of the convex hull of points, by quickhull: all sides of a depth are refined by one call."""


def cross(o: tuple[int, int], a: tuple[int, int], b: tuple[int, int]) -> int:
    ox, oy = o
    ax, ay = a
    bx, by = b
    return (ax - ox) * (by - oy) - (ay - oy) * (bx - ox)


def side(a: tuple[int, int], b: tuple[int, int], points: list[tuple[int, int]]) -> list[tuple[int, int]]:
    """The corners from a to b, without b; the points are those on the left."""
    if len(points) == 0:
        return [a]
    distances = [cross(a, b, p) for p in points]
    most = max(distances)
    farthest = min([i for i, d in enumerate(distances) if d == most])
    far = points[farthest]
    ends = [(a, far), (far, b)]
    halves = [side(c, d, [p for p in points if cross(c, d, p) > 0]) for c, d in ends]
    return halves[0] + halves[1]


def main(points: list[tuple[int, int]]) -> list[tuple[int, int]]:
    left = min([x for x, y in points])
    low = min([y for x, y in points if x == left])
    right = max([x for x, y in points])
    high = max([y for x, y in points if x == right])
    a, b = (left, low), (right, high)
    sides = [side(c, d, [p for p in points if cross(c, d, p) > 0]) for c, d in [(a, b), (b, a)]]
    return flatten(sides)
