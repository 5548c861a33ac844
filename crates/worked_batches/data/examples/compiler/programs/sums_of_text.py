"""The values of formulas, as `12+3*45-6`: texts of numbers and signs, where `*` binds more than `+` and `-`."""


def number(text: list[int]) -> int:
    """From the digits of its halves."""
    if len(text) < 2:
        return text[0] - 48
    half = len(text) // 2
    parts = [number(part) for part in [[text[i] for i in range(half)], [text[i] for i in range(half, len(text))]]]
    return parts[0] * power(10, len(text) - half) + parts[1]


def power(x: int, n: int) -> int:
    return 1 if n == 0 else x * power(x, n - 1)


def pieces(text: list[int], flags: list[bool]) -> list[list[int]]:
    """The text between the flags."""
    cuts = [i for i, flag in enumerate(flags) if flag]
    starts = [0] + [i + 1 for i in cuts]
    return [[text[i] for i in range(start, end)] for start, end in zip(starts, cuts + [len(text)])]


def term(text: list[int]) -> int:
    return prod([number(it) for it in pieces(text, [c == 42 for c in text])])


def value(text: list[int]) -> int:
    terms = pieces(text, [c == 43 or c == 45 for c in text])
    signs = [1] + [1 if c == 43 else -1 for c in text if c == 43 or c == 45]
    return sum([sign * term(it) for sign, it in zip(signs, terms)])


def main(texts: list[list[int]]) -> list[int]:
    return [value(text) for text in texts]
