"""How often each number occurs: the numbers are sorted, and runs of equal ones begin where a number differs."""


def sort(v: list[int]) -> list[int]:
    if len(v) < 2:
        return v
    pivot = v[len(v) // 2]
    equal = [x for x in v if x == pivot]
    parts = [sort(part) for part in [[x for x in v if x < pivot], [x for x in v if x > pivot]]]
    return parts[0] + equal + parts[1]


def main(v: list[int]) -> list[tuple[int, int]]:
    sorted_numbers = sort(v)
    starts = [i for i in range(len(v)) if i == 0 or sorted_numbers[i] != sorted_numbers[i - 1]]
    ends = [starts[k + 1] if k + 1 < len(starts) else len(v) for k in range(len(starts))]
    return [(sorted_numbers[start], end - start) for start, end in zip(starts, ends)]
