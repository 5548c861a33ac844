"""The bracket that closes each bracket of a text, or -1: brackets of a depth are matched in their order."""


def main(text: list[int]) -> list[int]:
    steps = [1 if c == 40 else -1 if c == 41 else 0 for c in text]
    depths = accumulate(steps)
    inner = [d if step == 1 else d + 1 if step == -1 else 0 for d, step in zip(depths, steps)]
    most = max(inner)
    places = [[i for i, d in enumerate(inner) if d == depth + 1] for depth in range(max(most, 0))]
    pairs = [(level[k], level[k + 1]) for level in places for k in range(len(level)) if k % 2 == 0]
    return put([-1 for _ in text], pairs)
