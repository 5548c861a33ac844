"""The instructions on two elements at a place: what they give, and how `worked_texts` prints them."""
from collections.abc import Callable
from typing import NamedTuple

LEAST, GREATEST = -(2**63), 2**63 - 1


class Pairwise(NamedTuple):
    """An instruction on two elements: its name in the sources, and its result."""

    name: str
    result: Callable[[int, int], int]


def wrap(number: int) -> int:
    return (number - LEAST) % 2**64 + LEAST


def quotient(a: int, b: int) -> int:
    return abs(a) // abs(b) * (1 if (a < 0) == (b < 0) else -1)


ARITHMETIC = {
    "+": Pairwise("Add", lambda a, b: wrap(a + b)),
    "-": Pairwise("Subtract", lambda a, b: wrap(a - b)),
    "*": Pairwise("Multiply", lambda a, b: wrap(a * b)),
    "/": Pairwise("Divide", lambda a, b: wrap(quotient(a, b))),
    "%": Pairwise("Remainder", lambda a, b: a - b * quotient(a, b)),
    "LSHIFT": Pairwise("ShiftLeft", lambda a, b: wrap(a * 2**b)),
    "RSHIFT": Pairwise("ShiftRight", lambda a, b: a // 2**b),
}

COMPARISONS = {
    "<": Pairwise("Less", lambda a, b: int(a < b)),
    "<=": Pairwise("LessOrEqual", lambda a, b: int(a <= b)),
    ">": Pairwise("Greater", lambda a, b: int(a > b)),
    ">=": Pairwise("GreaterOrEqual", lambda a, b: int(a >= b)),
    "=": Pairwise("Equal", lambda a, b: int(a == b)),
    "!=": Pairwise("NotEqual", lambda a, b: int(a != b)),
}

LOGIC = {
    "AND": Pairwise("And", lambda a, b: a & b),
    "OR": Pairwise("Or", lambda a, b: a | b),
    "XOR": Pairwise("Xor", lambda a, b: a ^ b),
}
