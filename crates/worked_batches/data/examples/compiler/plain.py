"""The programs once more in plain Python, which knows nothing of the compiler, with data for each.

`PLAIN[name]` computes what `main` of programs/NAME.py gives, and `DATA[name]` makes its arguments: small ones for 1."""
from __future__ import annotations

import math
import random
from collections import Counter, deque
from collections.abc import Callable
from typing import Any

Graph = list[list[int]]
Point = tuple[int, int]
Row = list[tuple[int, int]]
PLAIN: dict[str, Callable[..., Any]] = {}
DATA: dict[str, Callable[[random.Random, int], tuple[Any, ...]]] = {}
Made = Callable[[random.Random, int], tuple[Any, ...]]


def beside(name: str, data: Made) -> Callable[[Callable[..., Any]], Callable[..., Any]]:
    def taken(plain: Callable[..., Any]) -> Callable[..., Any]:
        PLAIN[name], DATA[name] = plain, data
        return plain
    return taken


def numbers(chance: random.Random, size: int, most: int = 1000) -> list[int]:
    return [chance.randrange(most) for _ in range(size)]


def text(chance: random.Random, size: int, letters: str) -> list[int]:
    return [ord(chance.choice(letters)) for _ in range(size)]


def graph(chance: random.Random, size: int) -> Graph:
    edges: Graph = [[] for _ in range(size)]
    for _ in range(size):
        a, b = chance.randrange(size), chance.randrange(size)
        edges[a].append(b)
        edges[b].append(a)
    return edges


def tree(chance: random.Random, size: int) -> Graph:
    children: Graph = [[] for _ in range(size)]
    for node in range(1, size):
        children[chance.randrange(max(0, node - 5), node)].append(node)
    return children


def points(chance: random.Random, size: int) -> list[Point]:
    return [(chance.randrange(1000), chance.randrange(1000)) for _ in range(size)]


def sparse(chance: random.Random, size: int, width: int) -> list[Row]:
    return [[(place, chance.randrange(-9, 10)) for place in sorted(chance.sample(range(width), min(3, width)))]
            for _ in range(size)]


@beside("quicksort", lambda chance, size: (numbers(chance, 12 * size),))
@beside("radix_sort", lambda chance, size: (numbers(chance, 12 * size),))
def ordered(v: list[int]) -> list[int]:
    return sorted(v)


@beside("histogram", lambda chance, size: (numbers(chance, 15 * size, 6 * size),))
def histogram(v: list[int]) -> list[tuple[int, int]]:
    return sorted(Counter(v).items())


@beside("breadth_first", lambda chance, size: (graph(chance, 10 * size),))
def breadth_first(edges: Graph) -> list[int]:
    steps, waiting = [0] + [-1] * (len(edges) - 1), deque([0])
    while waiting:
        node = waiting.popleft()
        for other in edges[node]:
            if steps[other] < 0:
                steps[other] = steps[node] + 1
                waiting.append(other)
    return steps


@beside("components", lambda chance, size: (graph(chance, 10 * size),))
def components(edges: Graph) -> list[int]:
    label = [-1] * len(edges)
    for node in range(len(edges)):
        waiting = [node] if label[node] < 0 else []
        while waiting:
            other = waiting.pop()
            if label[other] < 0:
                label[other] = node
                waiting += edges[other]
    return label


def left_turn(o: Point, a: Point, b: Point) -> bool:
    return (a[0] - o[0]) * (b[1] - o[1]) > (a[1] - o[1]) * (b[0] - o[0])


@beside("convex_hull", lambda chance, size: (points(chance, 12 * size),))
def convex_hull(given: list[Point]) -> list[Point]:
    """Clockwise from the leftmost point, the lowest of these: a chain along the points in order, and one back."""
    found: list[Point] = []
    for row in (sorted(set(given)), sorted(set(given), reverse=True)):
        chain: list[Point] = []
        for point in row:
            while len(chain) > 1 and not left_turn(point, chain[-1], chain[-2]):
                chain.pop()
            chain.append(point)
        found += chain[:-1]
    return found


@beside("inside", lambda chance, size: (points(chance, 5), points(chance, 10 * size)))
def inside(corners: list[Point], given: list[Point]) -> list[bool]:
    def is_in(x: int, y: int) -> bool:
        odd = False
        for (ax, ay), (bx, by) in zip(corners, corners[1:] + corners[:1]):
            if (ay > y) != (by > y):
                (lx, ly), (hx, hy) = sorted([(ax, ay), (bx, by)], key=lambda it: it[1])
                odd ^= (hx - lx) * (y - ly) > (hy - ly) * (x - lx)
        return odd
    return [is_in(x, y) for x, y in given]


@beside("words", lambda chance, size: (text(chance, 30 * size, "abc  ") + [97],))
def words(given: list[int]) -> tuple[list[list[int]], int]:
    found = "".join(map(chr, given)).split()
    return [[ord(it) for it in reversed(word)] for word in found], max(map(len, found))


@beside("search", lambda chance, size: (text(chance, 30 * size, "ab"), [text(chance, 1 + k, "ab") for k in range(3)]))
def search(given: list[int], patterns: list[list[int]]) -> list[list[int]]:
    return [[i for i in range(len(given) - len(p) + 1) if given[i : i + len(p)] == p] for p in patterns]


@beside("sparse_product", lambda chance, size: (sparse(chance, 8 * size, 10), numbers(chance, 10)))
def sparse_product(rows: list[Row], v: list[int]) -> list[int]:
    found = []
    for row in rows:
        found.append(0)
        for place, number in row:
            found[-1] += number * v[place]
    return found


@beside("sparse_transposed", lambda chance, size: (sparse(chance, 8 * size, 10), 10))
def sparse_transposed(rows: list[Row], width: int) -> list[Row]:
    found: list[Row] = [[] for _ in range(width)]
    for i, row in enumerate(rows):
        for place, number in row:
            found[place].append((i, number))
    return found


def matrix(chance: random.Random, rows: int, columns: int) -> list[list[int]]:
    return [numbers(chance, columns) for _ in range(rows)]


@beside("matrix_product", lambda chance, size: (matrix(chance, 3 * size, 4), matrix(chance, 4, 5)))
def matrix_product(a: list[list[int]], b: list[list[int]]) -> list[list[int]]:
    return [[sum(x * y for x, y in zip(row, column)) for column in zip(*b)] for row in a]


@beside("life", lambda chance, size: ([[chance.randrange(2) for _ in range(7)] for _ in range(5 * size)], 3))
def life(grid: list[list[int]], n: int) -> list[list[int]]:
    cells = {(i, j) for i, row in enumerate(grid) for j, cell in enumerate(row) if cell}
    for _ in range(n):
        around = Counter((i + a, j + b) for i, j in cells for a in (-1, 0, 1) for b in (-1, 0, 1) if a or b)
        cells = {(i, j) for (i, j), count in around.items() if (count == 3 or (count == 2 and (i, j) in cells))
                 and i in range(len(grid)) and j in range(len(grid[0]))}
    return [[int((i, j) in cells) for j in range(len(grid[0]))] for i in range(len(grid))]


def formula(chance: random.Random) -> list[int]:
    first, *others = chance.randrange(999), *((chance.choice("+-*"), chance.randrange(99)) for _ in range(4))
    return [ord(it) for it in str(first) + "".join(f"{sign}{number}" for sign, number in others)]


@beside("sums_of_text", lambda chance, size: ([formula(chance) for _ in range(3 * size)],))
def sums_of_text(texts: list[list[int]]) -> list[int]:
    return [eval("".join(map(chr, it))) for it in texts]


def bracketed(chance: random.Random, size: int) -> list[int]:
    found, depth = [], 0
    for _ in range(size):
        letter = chance.choice("((x))" if depth else "(x")
        depth += {"(": 1, ")": -1}.get(letter, 0)
        found.append(letter)
    return [ord(it) for it in found + [")"] * depth]


@beside("brackets", lambda chance, size: (bracketed(chance, 20 * size),))
def brackets(given: list[int]) -> list[int]:
    found, waiting = [-1] * len(given), []
    for place, code in enumerate(given):
        if chr(code) == "(":
            waiting.append(place)
        elif chr(code) == ")":
            found[waiting.pop()] = place
    return found


def joined(v: list[int], base: int) -> int:
    return sum(digit * base**place for place, digit in enumerate(v))


def digits(number: int, base: int, size: int) -> list[int]:
    return [number // base**place % base for place in range(size)]


@beside("big_product", lambda chance, size: (numbers(chance, 16 * size, 10_000), numbers(chance, 16 * size, 10_000)))
def big_product(v: list[int], w: list[int]) -> list[int]:
    return digits(joined(v, 10_000) * joined(w, 10_000), 10_000, len(v) + len(w))


def full_digits(chance: random.Random, size: int) -> list[int]:
    return [chance.choice([0, 2**32 - 1, chance.randrange(2**32)]) for _ in range(size)]


@beside("big_sum", lambda chance, size: (full_digits(chance, 12 * size), full_digits(chance, 12 * size)))
def big_sum(v: list[int], w: list[int]) -> list[int]:
    return digits(joined(v, 2**32) + joined(w, 2**32), 2**32, len(v) + 1)


@beside("primes", lambda chance, size: (60 * size,))
def primes(n: int) -> list[int]:
    return [i for i in range(2, n) if all(i % k for k in range(2, i))]


@beside("queens", lambda chance, size: (4 + size,))
def queens(n: int) -> int:
    def is_free(board: list[int], column: int) -> bool:
        row = len(board)
        return all(column != other and row - r != abs(column - other) for r, other in enumerate(board))

    boards: list[list[int]] = [[]]
    for _ in range(n):
        boards = [[*board, column] for board in boards for column in range(n) if is_free(board, column)]
    return len(boards)


@beside("collatz", lambda chance, size: ([1 + it for it in numbers(chance, 10 * size)],))
def collatz(v: list[int]) -> list[int]:
    def turns(x: int) -> int:
        return 0 if x == 1 else 1 + turns(3 * x + 1 if x % 2 else x // 2)
    return [turns(x) for x in v]


@beside("tree_sizes", lambda chance, size: (tree(chance, 12 * size),))
def tree_sizes(children: Graph) -> list[int]:
    sizes = [1] * len(children)
    for node in reversed(range(len(children))):
        sizes[node] += sum(sizes[child] for child in children[node])
    return sizes


def formulas_data(chance: random.Random, size: int) -> tuple[Any, ...]:
    children = tree(chance, 10 * size)
    op = [chance.choice([1, 2]) if it else 0 for it in children]
    return op, numbers(chance, len(op), 9), children, [[chance.randrange(len(op)) for _ in range(k)] for k in (2, 0, 3)]


@beside("formulas", formulas_data)
def formulas(op: list[int], number: list[int], children: Graph, sheets: Graph) -> Graph:
    values = list(number)
    for node in reversed(range(len(op))):
        parts = [values[child] for child in children[node]]
        if parts:
            values[node] = sum(parts) if op[node] == 1 else math.prod(parts)
    return [[values[node] for node in sheet if values[node] > 0] for sheet in sheets]


@beside("edit_distance", lambda chance, size: (text(chance, 8 * size, "abc"), text(chance, 7 * size, "abc")))
def edit_distance(v: list[int], w: list[int]) -> int:
    row = list(range(len(w) + 1))
    for i, a in enumerate(v):
        above, row = row, [i + 1]
        for j, b in enumerate(w):
            row.append(min(row[j] + 1, above[j + 1] + 1, above[j] + (a != b)))
    return row[-1]
