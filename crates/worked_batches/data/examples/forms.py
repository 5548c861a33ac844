"""What each form of forms.vcode gives, for the data there: nested lists in place of descriptors."""


def flat(lists):
    return [element for one in lists for element in one]


def show(elements, *lengths, kind="INT"):
    print(f"{kind} ({' '.join('FT'[it] if kind == 'BOOL' else str(it) for it in elements)})")
    for some in lengths:
        print(f"SEGDES ({' '.join(map(str, some))})")


def show_nested(lists):
    show(flat(lists), map(len, lists))


rows = [[[1, 2], [3], [4]], [[5, 6]]]
pairs = list(zip([7, -7, 7, -7, 6], [2, 2, -2, -2, -3]))
# written_over
show([x + x if flag else ~x for x, flag in zip([1, 2, 3, 4, 5], [True, False, False, True, True])])
# read_in_branch
lists, flags, indices = [[10, 11], [20], [30, 31, 32], [40]], [True, False, True, False], iter([1, 2])
show([v[next(indices)] for v, flag in zip(lists, flags) if flag])
# kept_sequences
kept = [[[1, 2], [3]], [[5, 6]]]
show(flat(flat(kept)), map(len, flat(kept)), map(len, kept))
# two_levels
print(f"SEGDES ({' '.join(str(len(flat(row))) for row in rows)})")
# pair, and range_of
show_nested([[1, 10], [2, 20], [3, 30]])
show_nested([list(range(a, b)) for a, b in [(1, 4), (5, 5), (0, 2)]])
# cell
show([row[i][j] for row, i, j in zip(rows, [0, 0], [1, 0])])
# floor_quotient, floor_rest and greater
show([a // b for a, b in pairs])
show([a % b for a, b in pairs])
show([max(a, b) for a, b in zip([1, 5, 3], [4, 2, 3])])
# inclusive_sums
show(flat([sum(v[: i + 1]) for i in range(len(v))] for v in [[3, 1], [], [4, 1, 5]]))
# equal_flags
show([f == g for f, g in zip([True, True, False, False], [True, False, True, False])], kind="BOOL")
# by_bit
show(flat(sorted(v, key=lambda x: x & bit) for v, bit in zip([[5, 2, 7, 4], [1, 3, 6]], [1, 2])))
# distinct
show_nested([sorted(set(v)) for v in [[1, 1, 4, 9, 9], [], [2, 2]]])
# until_done counts down
show([0])
