"""Sorts numbers: both parts of all lists of a depth are sorted by one call."""


def sort(v: list[int]) -> list[int]:
    if len(v) < 2:
        return v
    pivot = v[len(v) // 2]
    equal = [x for x in v if x == pivot]
    parts = [sort(part) for part in [[x for x in v if x < pivot], [x for x in v if x > pivot]]]
    return parts[0] + equal + parts[1]


def main(v: list[int]) -> list[int]:
    return sort(v)
