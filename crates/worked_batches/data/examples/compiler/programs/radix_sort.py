"""Sorts numbers from 0 on, bit by bit from the lowest: one DPERMUTE a bit."""


def by_bit(v: list[int], bit: int) -> list[int]:
    ones = [(x >> bit) & 1 for x in v]
    before = accumulate(ones)
    zeros = len(v) - sum(ones)
    return put(v, [(zeros + n - 1 if one == 1 else i - n, x) for i, (x, one, n) in enumerate(zip(v, ones, before))])


def sort(v: list[int], bit: int, most: int) -> list[int]:
    return v if most >> bit == 0 else sort(by_bit(v, bit % 63), bit + 1, most)


def main(v: list[int]) -> list[int]:
    return sort(v, 0, max(v))
