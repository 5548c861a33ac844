"""The product of two big numbers, which are lists of digits to the base 10,000, the lowest first, by Karatsuba."""


def least(v: list[int], w: list[int]) -> list[int]:
    """The product without carries, digit by digit."""
    n, m = len(v), len(w)
    return [sum([v[k] * w[i - k] for k in range(max(0, i - m + 1), min(n, i + 1))]) for i in range(n + m - 1)] + [0]


def sums(v: list[int], w: list[int]) -> list[int]:
    return [x + y for x, y in zip(v, w)]


def shifted(v: list[int], by: int, size: int) -> list[int]:
    return [v[i - by] if i >= by and i - by < len(v) else 0 for i in range(size)]


def product(v: list[int], w: list[int]) -> list[int]:
    """Of two numbers with as many digits, a power of 2."""
    n = len(v)
    if n <= 8:
        return least(v, w)
    h = n // 2
    low, high = [v[i] for i in range(h)], [v[i] for i in range(h, n)]
    low2, high2 = [w[i] for i in range(h)], [w[i] for i in range(h, n)]
    three = [product(a, b) for a, b in [(low, low2), (high, high2), (sums(low, high), sums(low2, high2))]]
    between = [c - a - b for a, b, c in zip(three[0], three[1], three[2])]
    parts = [shifted(three[0], 0, 2 * n), shifted(between, h, 2 * n), shifted(three[1], n, 2 * n)]
    return [parts[0][i] + parts[1][i] + parts[2][i] for i in range(2 * n)]


def carried(v: list[int]) -> list[int]:
    """Carries are handed on until all digits are below the base."""
    if all([x < 10000 for x in v]):
        return v
    return carried([x % 10000 + (v[i - 1] // 10000 if i > 0 else 0) for i, x in enumerate(v)])


def main(v: list[int], w: list[int]) -> list[int]:
    return carried(product(v, w))
