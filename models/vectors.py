"""The meaning of the vector and segment instructions."""
from collections.abc import Callable, Iterable
from functools import reduce

from elements import ARITHMETIC, COMPARISONS, GREATEST, LEAST, LOGIC, wrap
from instructions import BOOL, ELEMENTWISE, INT

# A vector is the list of its numbers; a flag is 0 or 1, and a descriptor the lengths of its segments.
Vector = list[int]
GREATEST_TOTAL = 4_294_967_295
# `worked_vectors` makes no more words of results.
MOST_WORDS = 1_048_576

LENGTHS_DIFFER, SEGMENT_TOTAL, SEGMENT_COUNT = "F1 LENGTHS_DIFFER", "F2 SEGMENT_TOTAL", "F3 SEGMENT_COUNT"
ZERO_DIVISOR, BAD_SHIFT, BAD_INDEX = "F4 ZERO_DIVISOR", "F5 BAD_SHIFT", "F6 BAD_INDEX"
INDEX_TWICE, BAD_LENGTH = "F7 INDEX_TWICE", "F8 BAD_LENGTH"


class NoResult(Exception):
    """An instruction has a fault, or a result that is too long to be made."""


PAIRWISE = {**ARITHMETIC, **COMPARISONS, **LOGIC}
# The others also go by the kind that is written after the word.
OTHERS: dict[str, Callable[..., int]] = {
    "NOT": lambda k, a: 1 - a if k == BOOL else -1 - a,
    "SELECT": lambda k, flag, a, b: a if flag else b,
    "I_TO_B": lambda k, a: int(a != 0),
    "B_TO_I": lambda k, a: a,
}

FOLDS: dict[str, tuple[int | None, Callable[[int, int], int]]] = {
    "+": (0, lambda a, b: wrap(a + b)),
    "*": (1, lambda a, b: wrap(a * b)),
    "MAX": (LEAST, max),
    "MIN": (GREATEST, min),
    "AND": (None, LOGIC["AND"].result),
    "OR": (0, LOGIC["OR"].result),
    "XOR": (0, LOGIC["XOR"].result),
}


def elementwise(word: str, k: str, operands: list[Vector]) -> Vector:
    if len({len(operand) for operand in operands}) > 1:
        raise NoResult(LENGTHS_DIFFER)
    if word in ("/", "%") and 0 in operands[1]:
        raise NoResult(ZERO_DIVISOR)
    if word in ("LSHIFT", "RSHIFT") and any(not 0 <= shift <= 63 for shift in operands[1]):
        raise NoResult(BAD_SHIFT)
    if word in PAIRWISE:
        return [PAIRWISE[word].result(*elements) for elements in zip(*operands)]
    return [OTHERS[word](k, *elements) for elements in zip(*operands)]


def check(descriptor: Vector, each: Iterable[Vector] = (), whole: Iterable[Vector] = ()) -> None:
    if any(len(vector) != len(descriptor) for vector in each):
        raise NoResult(SEGMENT_COUNT)
    if any(len(vector) != sum(descriptor) for vector in whole):
        raise NoResult(SEGMENT_TOTAL)


def check_two(source: Vector, target: Vector, of_source: Iterable[Vector], of_target: Iterable[Vector]) -> None:
    if len(source) != len(target):
        raise NoResult(SEGMENT_COUNT)
    check(source, whole=of_source)
    check(target, whole=of_target)


def check_room(words: int) -> None:
    if words > MOST_WORDS:
        raise NoResult(f"needs {words} words")


def segments(descriptor: Vector, vector: Vector) -> list[Vector]:
    """The vector cut into segments of these lengths."""
    ends = [sum(descriptor[: place + 1]) for place in range(len(descriptor))]
    return [vector[end - length : end] for length, end in zip(descriptor, ends)]


def joined(lists: Iterable[Vector]) -> Vector:
    return [element for one in lists for element in one]


def fold(name: str, k: str | None, elements: Vector) -> int:
    identity, combine = FOLDS[name]
    if identity is None:
        identity = 1 if k == BOOL else -1
    return reduce(combine, elements, identity)


def check_indices(indices: list[Vector], lengths: Vector) -> None:
    """Each segment's indices lie in a segment of that length."""
    if any(not 0 <= index < length for some, length in zip(indices, lengths) for index in some):
        raise NoResult(BAD_INDEX)


def scattered(values: list[Vector], indices: list[Vector], into: list[Vector]) -> Vector:
    """Each value at its index, and what is there already at the others."""
    if any(len(set(some)) < len(some) for some in indices):
        raise NoResult(INDEX_TWICE)
    for moving, some, there in zip(values, indices, into):
        for value, index in zip(moving, some):
            there[index] = value
    return joined(into)


def permuted(values: Vector, indices: Vector, s: Vector) -> Vector:
    check(s, whole=(values, indices))
    cut = segments(s, indices)
    check_indices(cut, s)
    return scattered(segments(s, values), cut, [[0] * length for length in s])


def gathered(values: Vector, indices: Vector, s: Vector, r: Vector) -> Vector:
    check_two(s, r, (values,), (indices,))
    cut = segments(r, indices)
    check_indices(cut, s)
    return joined([there[index] for index in some] for there, some in zip(segments(s, values), cut))


def permuted_over(values: Vector, indices: Vector, default: Vector, s: Vector, r: Vector) -> Vector:
    check_two(s, r, (values, indices), (default,))
    cut = segments(s, indices)
    check_indices(cut, r)
    return scattered(segments(s, values), cut, [list(there) for there in segments(r, default)])


def extracted(values: Vector, indices: Vector, s: Vector) -> Vector:
    check(s, (indices,), (values,))
    check_indices([[index] for index in indices], s)
    return [there[index] for there, index in zip(segments(s, values), indices)]


def replaced(values: Vector, indices: Vector, new: Vector, s: Vector) -> Vector:
    check(s, (indices, new), (values,))
    check_indices([[index] for index in indices], s)
    return scattered([[value] for value in new], [[index] for index in indices],
                     [list(there) for there in segments(s, values)])


def distributed(values: Vector, s: Vector) -> Vector:
    check(s, (values,))
    check_room(sum(s))
    return joined([value] * length for value, length in zip(values, s))


def indexed(starts: Vector, strides: Vector, s: Vector) -> Vector:
    check(s, (starts, strides))
    check_room(sum(s))
    return joined([wrap(start + i * stride) for i in range(length)]
                  for start, stride, length in zip(starts, strides, s))


def packed(values: Vector, flags: Vector, s: Vector) -> tuple[Vector, Vector]:
    check(s, whole=(values, flags))
    return [value for value, flag in zip(values, flags) if flag], [sum(some) for some in segments(s, flags)]


def descriptor_of(lengths: Vector) -> Vector:
    if any(length < 0 for length in lengths) or sum(lengths) > GREATEST_TOTAL:
        raise NoResult(BAD_LENGTH)
    return lengths


SEGMENTED: dict[str, Callable[..., Vector]] = {"PERMUTE": permuted, "BPERMUTE": gathered, "DPERMUTE": permuted_over,
                                               "EXTRACT": extracted, "REPLACE": replaced,
             "DIST": distributed, "INDEX": indexed, "MAKE_SEGDES": descriptor_of, "LENGTHS": list}


def results(word: str, k: str | None, operands: list[Vector]) -> list[Vector]:
    """The results of an instruction over lists of numbers, or NoResult."""
    if word in ELEMENTWISE:
        return [elementwise(word, k or INT, operands)]
    if word == "PACK":
        return list(packed(*operands))
    if word in SEGMENTED:
        return [SEGMENTED[word](*operands)]
    values, s = operands
    check(s, whole=(values,))
    name, _, end = word.rpartition("_")
    if end == "REDUCE":
        return [[fold(name, k, segment) for segment in segments(s, values)]]
    return [[fold(name, k, segment[:place]) for segment in segments(s, values) for place in range(len(segment))]]
