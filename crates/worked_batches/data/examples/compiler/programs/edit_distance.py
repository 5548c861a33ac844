"""How many letters must change between two texts, a diagonal of the table at a time."""


def diagonals(v: list[int], w: list[int], before: list[int], last: list[int], d: int) -> int:
    """The cells (i, d - i) of a diagonal from those of the last two; i is from 0 to len(v)."""
    n, m = len(v), len(w)
    own = [cell(v, w, before, last, i, d - i) if i <= d and d - i <= m else 0 for i in range(n + 1)]
    return own[n] if d == n + m else diagonals(v, w, last, own, d + 1)


def cell(v: list[int], w: list[int], before: list[int], last: list[int], i: int, j: int) -> int:
    if i == 0 or j == 0:
        return i + j
    changed = before[i - 1] + (0 if v[i - 1] == w[j - 1] else 1)
    return min(changed, min(last[i - 1], last[i]) + 1)


def main(v: list[int], w: list[int]) -> int:
    none = [0 for _ in range(len(v) + 1)]
    return diagonals(v, w, none, none, 0)
