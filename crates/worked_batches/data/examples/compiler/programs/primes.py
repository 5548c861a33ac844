"""The primes below n, from those below its root."""


def below(n: int) -> list[int]:
    if n <= 2:
        return [x for x in range(0)]
    some = below(root(n, 1))
    multiples = [p * k for p in some for k in range(2, (n + p - 1) // p)]
    return [i for i, flag in enumerate(without(n, multiples)) if flag and i >= 2]


def root(n: int, r: int) -> int:
    """The least number from r on whose square isn't below n."""
    return r if r * r >= n else root(n, r + 1)


def without(n: int, v: list[int]) -> list[bool]:
    """Which numbers below n aren't in the list: it is sorted, so that each is taken once."""
    ordered = sort(v)
    once = [ordered[i] for i in range(len(ordered)) if i == 0 or ordered[i] != ordered[i - 1]]
    return put([True for _ in range(n)], [(x, False) for x in once])


def sort(v: list[int]) -> list[int]:
    if len(v) < 2:
        return v
    pivot = v[len(v) // 2]
    equal = [x for x in v if x == pivot]
    parts = [sort(part) for part in [[x for x in v if x < pivot], [x for x in v if x > pivot]]]
    return parts[0] + equal + parts[1]


def main(n: int) -> list[int]:
    return below(n)
