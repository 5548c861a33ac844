"""What each idiom of docs/COMPILING.md gives, for the data of idioms.vcode: nested lists in place of descriptors."""


def flat(lists):
    return [element for one in lists for element in one]


def show(elements, *lengths):
    print(f"INT ({' '.join(map(str, elements))})")
    for some in lengths:
        print(f"SEGDES ({' '.join(map(str, some))})")


def show_nested(lists):
    show(flat(lists), map(len, lists))


# constant
show([7] * 4)
# total
print(f"SEGDES ({sum([2, 0, 3])})")
# into_loop, and sequence_into_loop
show(flat([x] * turns for x, turns in zip([5, 6, 7], [2, 0, 3])))
show_nested(flat([x] * turns for x, turns in zip([[1, 2, 3], [4, 5]], [2, 1])))
# element_of_outer
show(flat([v[i] for i in indices] for v, indices in zip([[10, 11, 12], [20]], [[2, 0, 1], [0]])))
# filter, and filter_nested
show_nested([[1, 3], [5]])
kept = [[[1, 2], [3]], [[5, 6]]]
show(flat(flat(kept)), map(len, flat(kept)), map(len, kept))
# conditional
show([x + x if flag else ~x for x, flag in zip([1, 2, 3, 4, 5], [True, False, False, True, True])])
# append
show_nested([a + b for a, b in zip([[1, 2], []], [[3], [4, 5]])])
# element_of_nested
show_nested([v[i] for v, i in zip([[[1, 2], [], [3, 4]], [[5, 6], [7]]], [2, 0])])
# checked leaves no results: it faults. long_constant
show([1, 2, 3] + [4, 5])
# reversed
show_nested([v[::-1] for v in [[1, 2, 3], [], [4, 5]]])
# repeated
show([sum(1 for _ in range(5000))])
# merged
first, second = iter([[1, 2], []]), iter([[3], [4, 5]])
show_nested([next(first if flag else second) for flag in [True, False, False, True]])
