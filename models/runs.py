"""A job of the whole language that runs alone: how it ends, and what it used.

Each entry of the stack has a tag, which its copies share, and a call is the list of what it has still to do: no block
of words is shared or moved here, and no place in the code is kept.
"""
from collections.abc import Callable
from dataclasses import dataclass, field

from instructions import BOOL, ELEMENTWISE, INT, kinds_of
from reader import Function, Item
from vectors import BAD_INDEX, BAD_LENGTH, BAD_SHIFT, INDEX_TWICE, ZERO_DIVISOR, NoResult, results

VALUE_FAULTS = {ZERO_DIVISOR, BAD_SHIFT, BAD_INDEX, INDEX_TWICE, BAD_LENGTH}
NOT_SINGLE = "F9 NOT_SINGLE"


@dataclass
class Limits:
    words: int
    cells: int
    calls: int
    budget: int


@dataclass
class Choice:
    """An IF with its two parts."""

    line: int
    first: list
    second: list = field(default_factory=list)
    what = "If"


@dataclass
class Entry:
    tag: int
    kind: str
    words: list[int]


def tree(items: list[Item]) -> list:
    """What a function has to do, its RET last."""
    open_parts: list[list] = [[]]
    for item in items:
        if item.what == "If":
            choice = Choice(item.line, [])
            open_parts[-1].append(choice)
            open_parts.append(choice.first)
        elif item.what == "Else":
            open_parts.pop()
            open_parts.append(open_parts[-1][-1].second)
        elif item.what == "Endif":
            open_parts.pop()
        else:
            open_parts[-1].append(item)
    return open_parts[0]


def held(stack: list[Entry]) -> int:
    """The words of the vectors on a stack, each counted once."""
    return sum(len(words) for words in {entry.tag: entry.words for entry in stack}.values())


def need(word: str, operands: list[list[int]]) -> int:
    """How many words the results of a vector instruction have, whose operands' lengths fit."""
    if word in ELEMENTWISE or word in ("PERMUTE", "REPLACE", "MAKE_SEGDES", "LENGTHS") or word.endswith("_SCAN"):
        return len(operands[0])
    if word.endswith("_REDUCE") or word == "EXTRACT":
        return len(operands[-1])
    if word == "PACK":
        return sum(operands[1]) + len(operands[2])
    return sum(operands[-1])


class Ended(Exception):
    """How a job ends before its next instruction."""


class Run:
    def __init__(self, functions: list[Function], limits: Limits, is_second: bool = False) -> None:
        # The first function of a name counts.
        self.functions = {f.name: tree(f.items) for f in reversed(functions)}
        self.limits, self.is_second = limits, is_second
        self.stack: list[Entry] = []
        self.calls, self.executed, self.peak, self.next_tag = [self.functions["MAIN"]], 0, 0, 0

    def words(self, operands: int, need_words: int) -> int:
        """What is held and needed by an instruction of so many operands, which the second rule leaves out."""
        return held(self.stack[: len(self.stack) - operands] if self.is_second else self.stack) + need_words

    def checked(self, item: Item | Choice, fault: str | None, operands: int, need_words: int, depth: int) -> None:
        """What comes before the values are looked at."""
        if fault:
            raise Ended(f"FAULT line {item.line} {fault}")
        if self.words(operands, need_words) > self.limits.words:
            raise Ended(f"MEMORY line {item.line} M1 WORDS")
        if depth > self.limits.cells:
            raise Ended(f"MEMORY line {item.line} M2 CELLS")
        if item.what == "Call" and len(self.calls) == self.limits.calls:
            raise Ended(f"MEMORY line {item.line} M3 CALLS")

    def executes(self, operands: int = 0, need_words: int = 0) -> None:
        self.executed += 1
        self.peak = max(self.peak, self.words(operands, need_words))

    def push(self, kind: str, words: list[int]) -> None:
        self.stack.append(Entry(self.next_tag, kind, words))
        self.next_tag += 1

    def constant(self, item: Item) -> None:
        self.checked(item, None, 0, len(item.numbers), len(self.stack) + 1)
        self.executes(0, len(item.numbers))
        self.push(item.kind, item.numbers)

    def vector(self, item: Item) -> None:
        kinds = kinds_of(item.word, item.kind)
        below = len(self.stack) - len(kinds.operands)
        operands = [entry.words for entry in self.stack[below:]]
        try:
            found, fault = results(item.word, item.kind or INT, operands), None
        except NoResult as end:
            found, fault = [], str(end)
        misfit = fault if fault and fault not in VALUE_FAULTS and not fault.startswith("needs") else None
        needed = 0 if misfit else need(item.word, operands)
        self.checked(item, misfit, len(operands), needed, below + len(kinds.results))
        if fault:
            raise Ended(f"FAULT line {item.line} {fault}")
        self.executes(len(operands), needed)
        del self.stack[below:]
        for kind, words in zip(kinds.results, found):
            self.push(kind, words)

    def move(self, item: Item) -> None:
        i, j = item.numbers
        below = len(self.stack) - i - j
        lower, upper = self.stack[below : below + i], self.stack[below + i :]
        moved = {"COPY": lower + upper + lower, "POP": upper, "CPOP": upper + lower}[item.word]
        self.checked(item, None, i + j, 0, below + len(moved))
        self.executes(i + j)
        self.stack[below:] = moved

    def choice(self, item: Choice) -> None:
        flag = self.stack[-1].words
        self.checked(item, None if len(flag) == 1 else NOT_SINGLE, 1, 0, len(self.stack) - 1)
        self.executes(1)
        self.stack.pop()
        self.calls[-1] = (item.first if flag[0] else item.second) + self.calls[-1]

    def call(self, item: Item) -> None:
        self.checked(item, None, 0, 0, len(self.stack))
        self.executes()
        self.calls.append(self.functions[item.word])

    def step(self) -> None:
        """Executes one instruction."""
        if self.executed == self.limits.budget:
            raise Ended("BUDGET")
        item, *self.calls[-1] = self.calls[-1]
        if item.what == "Return":
            self.checked(item, None, 0, 0, len(self.stack))
            self.executes()
            self.calls.pop()
        else:
            how: dict[str, Callable] = {"Const": self.constant, "Vector": self.vector, "Move": self.move,
                                        "If": self.choice,
                                        "Call": self.call}
            how[item.what](item)


def shown(entry: Entry) -> str:
    words = ["FT"[word] for word in entry.words] if entry.kind == BOOL else map(str, entry.words)
    return f"{entry.kind.upper()} ({' '.join(words)})"


def run(functions: list[Function], limits: Limits, is_second: bool = False, of: Callable[..., Run] = Run) -> str:
    """How a verified program ends within these limits, and what it used, as the report has it."""
    job = of(functions, limits, is_second)
    try:
        while job.calls:
            job.step()
        how = "\n".join(["RETURNED", *map(shown, job.stack)])
    except Ended as end:
        how = str(end)
    return f"{how}\nUSED {job.executed} instructions {job.peak} words"
