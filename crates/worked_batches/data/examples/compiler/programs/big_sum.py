"""The sum of two big numbers, lists of digits to the base 2^32, the lowest first. A carry goes on as far as digits are
full: it comes from the nearest lower digit that isn't."""


def main(v: list[int], w: list[int]) -> list[int]:
    sums = [x + y for x, y in zip(v, w)]
    full = 4294967295
    last = accumulate_most([i * 2 + (1 if x > full else 0) if x != full else -1 for i, x in enumerate(sums)])
    carries = [0] + [place % 2 if place >= 0 else 0 for place in last]
    return [(x + carry) % 4294967296 for x, carry in zip(sums + [0], carries)]


def accumulate_most(v: list[int]) -> list[int]:
    """The greatest up to each, from those of pairs."""
    if len(v) < 2:
        return v
    n = len(v)
    pairs = accumulate_most([max(v[2 * i], v[2 * i + 1]) for i in range(n // 2)])
    return [v[0] if i == 0 else pairs[i // 2] if i % 2 == 1 else max(pairs[i // 2 - 1], v[i]) for i in range(n)]
