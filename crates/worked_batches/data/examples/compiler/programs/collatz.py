"""How many turns numbers take to 1. The number of turns isn't known, so a loop takes at most 2^k and then 2^k more."""


def loop(x: int, turns: int, k: int) -> tuple[int, int]:
    if x == 1:
        return x, turns
    if k == 0:
        return (x // 2 if x % 2 == 0 else 3 * x + 1), turns + 1
    y, more = loop(x, turns, k - 1)
    return loop(y, more, k - 1)


def main(v: list[int]) -> list[int]:
    return [turns for _, turns in [loop(x, 0, 20) for x in v]]
