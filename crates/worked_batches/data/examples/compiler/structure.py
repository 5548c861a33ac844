"""Steps, which name their operands and results in place of a stack; and the operations that move the values of n
iterations: each takes items from places, or puts items to places, by recursion over their trees.

A `Level` is a place in the nest of loops. The top has one iteration. The iterations of a comprehension's body are the
elements of the list; those of a conditional's branch are the ones that take it; and the body of a function that is
called from a loop is a level too.
"""
from __future__ import annotations

from collections import ChainMap
from collections.abc import Callable
from dataclasses import dataclass
from functools import partial
from itertools import accumulate
from typing import Any

from source import List, Tree, Type, leaves, mapped


@dataclass(eq=False)
class Vector:
    kind: str


Vectors = tuple[Vector, ...]
Values = Tree[Vector]
# Where items are put: their places, and the descriptor of the items. The places count within its segments.
Spot = tuple[Vector, Vector]
# A list of a constant has at most so many elements.
MOST_CONSTANT = 65_536
# The kinds of the results that an instruction doesn't name.
KINDS_LEFT = dict.fromkeys(("<", "<=", ">", ">=", "=", "!=", "I_TO_B"), "BOOL")
KINDS_LEFT |= {"B_TO_I": "INT", "INDEX": "INT", "LENGTHS": "INT", "MAKE_SEGDES": "SEGDES"}
INVERSE = {"MAKE_SEGDES": "LENGTHS", "LENGTHS": "MAKE_SEGDES"}


@dataclass
class Step:
    line: int
    code: str
    operands: Vectors
    results: Vectors
    # It may fault, or it calls, so it is executed even if nothing uses its results.
    must_run: bool
    # The parts of an IF: their steps and results, which have equal kinds.
    parts: tuple[tuple[list[Step], Vectors], ...] = ()


@dataclass(eq=False)
class Level:
    depth: int
    # P, one segment of all iterations; S, which has a segment for each iteration of the outer level, with those that
    # belong to it; and of a branch the places of its iterations among those of the outer level.
    whole: Vector
    segments: Vector
    outer: Level | None = None
    places: Vector | None = None


# Values of each iteration of a level.
Value = tuple[Values, Level]


def kinds_of(tree: Values) -> Type:
    return mapped(lambda vector: str(vector.kind), tree)


class Structure:
    """The steps of a function, as they are added."""

    def __init__(self) -> None:
        self.line, self.steps = 0, list[Step]()
        # The results of the steps that needn't be repeated here.
        self.known: ChainMap[tuple[str, Vectors], Vectors] = ChainMap()
        self.one = self.step("MAKE_SEGDES", self.step("CONST INT 1"))
        self.top = Level(0, self.one, self.one)

    def results(self, code: str, *operands: Vector, must_run: bool = False) -> Vectors:
        """The results of a step, which is added if it isn't known."""
        if (code, operands) not in self.known:
            word, *more = code.split(maxsplit=2)
            kinds = [more[0], "SEGDES"] if word == "PACK" else [KINDS_LEFT.get(word) or more[0]]
            self.known[code, operands] = found = tuple(map(Vector, kinds))
            self.steps.append(Step(self.line, code, operands, found, must_run))
            if word in INVERSE:
                self.known[INVERSE[word], found] = operands
        return self.known[code, operands]

    def step(self, code: str, *operands: Vector, must_run: bool = False) -> Vector:
        return self.results(code, *operands, must_run=must_run)[0]

    def call(self, name: str, operands: Vectors, result: Type) -> Values:
        """Calls a function. What was known before is forgotten, so that it isn't kept on the stack in the call."""
        found, self.known = mapped(Vector, result), ChainMap()
        self.steps.append(Step(self.line, f"CALL {name}", operands, leaves(found), True))
        return found

    def choice(self, flag: Vector, *ways: Callable[[], Values]) -> Values:
        """Executes one of two ways, by a single flag."""
        parts, steps, known = [], self.steps, self.known
        for way in ways:
            self.steps, self.known = [], known.new_child()
            here, tree = self.known, way()
            parts.append((self.steps, leaves(tree)))
            known = known if self.known is here else ChainMap()
        found, must_run = mapped(Vector, kinds_of(tree)), any(it.must_run for inner, _ in parts for it in inner)
        self.steps, self.known = [*steps, Step(self.line, "IF", (flag,), leaves(found), must_run, tuple(parts))], known
        return found

    # Numbers, descriptors and constants. A whole is one segment.

    def fill(self, whole: Vector, number: int = 0, kind: str = "INT") -> Vector:
        """A constant, once for each item of a whole."""
        constant = self.constant(kind, [number])
        return constant if whole is self.one else self.step(f"DIST {kind}", constant, whole)

    def runs(self, starts: Vector, segments: Vector, whole: Vector, stride: int = 1) -> Vector:
        """The numbers from each start on, as many as each segment has. The whole has an item for each segment."""
        return self.step("INDEX", starts, self.fill(whole, stride), segments)

    def index(self, whole: Vector, start: int = 0, stride: int = 1) -> Vector:
        """The numbers from the start on, one for each item of a whole."""
        return self.runs(self.fill(self.one, start), whole, self.one, stride)

    def total(self, inner: Vector, outer: Vector) -> Vector:
        """A descriptor over two levels: the elements of all inner segments that belong to each outer one."""
        if outer is self.one:
            return inner
        return self.step("MAKE_SEGDES", self.step("+_REDUCE INT", self.step("LENGTHS", inner), outer))

    def between(self, outer: Level, inner: Level) -> Vector:
        """The iterations of the inner level that belong to each one of the outer level."""
        if outer is self.top or not inner.outer:
            return inner.whole
        return inner.segments if inner.outer is outer else self.total(inner.segments, self.between(outer, inner.outer))

    def constant(self, kind: str, numbers: list[Any]) -> Vector:
        if kind == "SEGDES":
            return self.step("MAKE_SEGDES", self.constant("INT", numbers))
        if len(numbers) > MOST_CONSTANT:
            pieces = [numbers[start : start + MOST_CONSTANT] for start in range(0, len(numbers), MOST_CONSTANT)]
            lists = [List(self.constant(kind, piece), self.constant("SEGDES", [len(piece)])) for piece in pieces]
            return leaves(self.appended(lists, self.top))[0]
        words = " ".join("FT"[it] if kind == "BOOL" else str(ord(it) if isinstance(it, str) else it) for it in numbers)
        return self.step(f"CONST {kind} {words if len(numbers) == 1 else f'({words})'}")

    def taken(self, code: str, *operands: Vector, must_run: bool = False) -> Callable[[Vector], Vector]:
        return lambda it: self.step(f"{code} {it.kind}", it, *operands, must_run=must_run)

    def items(self, tree: Values, move: Callable[[Vector], Vector], source: Vector, target: Vector) -> Values:
        """Moves values. `move` takes a vector of words from the source to the target, which are one segment of all
        values before and after. Of lists it takes the lengths and starts; then the elements are taken."""
        match tree:
            case tuple(parts):
                return tuple(self.items(part, move, source, target) for part in parts)
            case List(elements, segments):
                lengths = self.step("LENGTHS", segments)
                taken, starts = move(lengths), move(self.step("+_SCAN INT", lengths, source))
                found = self.step("MAKE_SEGDES", taken)
                places = self.runs(starts, found, target)
                before, after = self.total(segments, source), self.total(found, target)
                inner = self.taken("BPERMUTE", places, before, after)
                return List(self.items(elements, inner, before, after), found)
            case Vector():
                return move(tree)

    def into(self, value: Value, level: Level) -> Values:
        """Values of an outer level, once for each iteration of an inner one."""
        tree, own = value
        if own is level:
            return tree
        source, move = self.one, self.taken("DIST", level.whole)
        if own is not self.top and level.outer:
            tree, source, move = self.into(value, level.outer), level.outer.whole, self.taken("DIST", level.segments)
            if level.places:
                move = self.taken("BPERMUTE", level.places, source, level.whole)
        return self.items(tree, move, source, level.whole)

    def element(self, of: List[Vector], at: Level, place: Vector, level: Level) -> Values:
        """An element of the lists of a level, at this or an inner level. A list of an outer level isn't copied."""
        move = self.taken("EXTRACT", place, of.segments, must_run=True)
        if at is not level:
            move = self.taken("BPERMUTE", place, of.segments, self.between(at, level), must_run=True)
        return self.items(of.elements, move, self.total(of.segments, at.whole), level.whole)

    def merged(self, trees: Any, spots: list[Spot], target: Vector, whole: Vector, under: Any = None) -> Values:
        """Puts values together, over those of the tree `under` or zeros. The whole has an item for each segment of the
        target. Of lists it puts the lengths together; these say where each list begins; and then it puts the elements
        there."""
        match trees[0]:
            case tuple():
                columns = enumerate(zip(*trees))
                return tuple(self.merged(it, spots, target, whole, under and under[place]) for place, it in columns)
            case Vector(kind):
                found: Vector = under or self.step(f"DIST {kind}", self.fill(whole, 0, kind), target)
                for vector, (places, source) in zip(trees, spots):
                    found = self.step(f"DPERMUTE {kind}", vector, places, found, source, target)
                return found
        own = [self.step("LENGTHS", it.segments) for it in trees]
        [lengths] = leaves(self.merged(own, spots, target, whole, under and under.segments))
        segments, items, inner = self.step("MAKE_SEGDES", lengths), self.total(target, whole), []
        begin = self.step("+_SCAN INT", lengths, items)
        for it, (places, source) in zip(trees, spots):
            starts, each = self.step("BPERMUTE INT", begin, places, target, source), self.total(source, whole)
            inner.append((self.runs(starts, it.segments, each), self.total(it.segments, each)))
        return List(self.merged([it.elements for it in trees], inner, self.total(segments, items), self.one), segments)

    def appended(self, lists: list[Any], level: Level) -> Values:
        """Lists, one after another in each iteration."""
        ends = list(accumulate((self.step("LENGTHS", it.segments) for it in lists), partial(self.step, "+ INT")))
        segments, begins = self.step("MAKE_SEGDES", ends[-1]), [self.fill(level.whole), *ends[:-1]]
        spots = [(self.runs(begin, it.segments, level.whole), it.segments) for it, begin in zip(lists, begins)]
        return List(self.merged([it.elements for it in lists], spots, segments, level.whole), segments)
