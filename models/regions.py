#!/usr/bin/env python3
"""Free words and memories, word by word, and tables of calls on them, most of them random.

    python3 models/regions.py [SEED]

writes the table that the gate gives to `worked_regions`, its `stdin`, and what is wanted of it, its `stdout`.

A region is a plain list with one entry a word: what lies there, or None where it is free. A hole is a greatest row of
free words, and is looked for from the first word on each time.
"""
import pathlib
import random
import sys
from collections.abc import Callable, Iterator
from itertools import groupby

from elements import GREATEST, LEAST

CRATE = pathlib.Path(__file__).resolve().parent.parent / "crates" / "worked_regions"
GREATEST_SIZE = 2**64 - 1
# Sizes round those of machine words.
SIZES = [0, 1, 2, 12, 63, 64, 65, 127, 128, 129, 200, 1000]
WORDS = [*range(-9, 90), LEAST, GREATEST]
# The sets of ranges that a memory keeps, how many ranges are in a set, and the longest of them.
SETS, WAYS, LONGEST_KEPT = 16, 4, 1024


def set_of(length: int) -> range:
    """Where the ranges of a set are kept."""
    return range(length % SETS * WAYS, length % SETS * WAYS + WAYS)


class Words:
    """A row of words, free or taken."""

    def __init__(self, size: int) -> None:
        self.words: list = [None] * size

    def rows(self, is_free: bool) -> list[tuple[int, int]]:
        """The place and the length of each greatest row of words that are free, or taken, in order of place."""
        rows, place = [], 0
        for free, row in groupby(self.words, key=lambda word: word is None):
            length = len(list(row))
            rows += [(place, length)] if free == is_free else []
            place += length
        return rows

    def holes(self) -> list[tuple[int, int]]:
        return self.rows(is_free=True)

    def widest(self) -> int:
        return max((length for _, length in self.holes()), default=0)

    def free(self) -> int:
        return self.words.count(None)

    def lowest_fit(self, length: int) -> int | None:
        return next((place for place, hole in self.holes() if length <= hole), None)

    def put(self, place: int, values: list) -> None:
        self.words[place : place + len(values)] = values


class Holes(Words):
    def __init__(self, size: int, most: int) -> None:
        super().__init__(size)
        self.most = most

    def told(self) -> str:
        return f"holes {len(self.holes())}, widest {self.widest()}, free {self.free()}"

    def take(self, length: int) -> str:
        if length == 0:
            return "refused"
        place = self.lowest_fit(length)
        if place is None:
            return "none"
        self.put(place, ["taken"] * length)
        return f"place {place}"

    def give(self, place: int, length: int) -> str:
        words = self.words[place : place + length]
        if length == 0 or len(words) < length or None in words or len(self.holes()) >= self.most:
            return "refused"
        self.put(place, [None] * length)
        return "given"

    def reset(self, place: int) -> str:
        if place > len(self.words):
            return "refused"
        self.words = ["taken"] * place + [None] * (len(self.words) - place)
        return "reset"


class Memory(Words):
    """A word of a block is the number of the block, with its index in it. A block of one word has no word here. A range
    that is freed is kept for the next block of its length. The ranges whose lengths leave the same rest are a set: if
    it is full, one of them is given to the holes. All are before blocks move."""

    def __init__(self, size: int, most: int) -> None:
        super().__init__(size)
        self.most, self.moved, self.placed = most, 0, 0
        self.blocks: dict[int, tuple[int, list[int]]] = {}
        self.kept: list[tuple[int, int] | None] = [None for _ in range(SETS * WAYS)]
        self.next = 0

    def make_room(self, length: int) -> None:
        """Moves blocks until so many words lie together, as each kind of memory does."""
        raise NotImplementedError

    def free(self) -> int:
        """How many words fit beside those of all blocks."""
        return len(self.words) - sum(len(words) for _, words in self.blocks.values())

    def told(self) -> str:
        return f"used {len(self.words) - self.free()}, blocks {len(self.blocks)}, moved {self.moved}"

    def place(self, owner: int, *words: int) -> str:
        if len(self.blocks) == self.most:
            return "refused"
        if len(words) > self.free():
            return "full"
        before = list(self.words)
        if len(words) > 1:
            place = self.place_for(len(words))
            self.moved = sum(isinstance(word, tuple) and word != now for word, now in zip(before, self.words))
            self.put(place, [(self.placed, index) for index in range(len(words))])
        else:
            self.moved = 0
        self.blocks[self.placed] = owner, list(words)
        self.placed += 1
        return f"block {self.placed - 1}"

    def place_for(self, length: int) -> int | None:
        """The place of a new block: that of a range of this length that is kept, or else the lowest hole."""
        for index in set_of(length):
            place, kept = self.kept[index] or (0, 0)
            if kept == length:
                self.give_back(index)
                return place
        if self.lowest_fit(length) is None:
            self.give_all_back()
        if self.lowest_fit(length) is None:
            self.make_room(length)
        return self.lowest_fit(length)

    def keep(self, place: int, length: int) -> None:
        indices = set_of(length)
        index = next((index for index in indices if self.kept[index] is None), indices[self.next % WAYS])
        self.next = index + 1
        self.give_back(index)
        self.kept[index] = place, length
        self.put(place, ["kept"] * length)

    def give_back(self, index: int) -> None:
        place, length = self.kept[index] or (0, 0)
        self.put(place, [None] * length)
        self.kept[index] = None

    def give_all_back(self) -> None:
        for index in range(SETS * WAYS):
            self.give_back(index)

    def free_block(self, number: int) -> str:
        if number not in self.blocks:
            return "refused"
        length = len(self.blocks.pop(number)[1])
        if length > 1:
            place = self.words.index((number, 0))
            self.put(place, [None] * length)
            if length <= LONGEST_KEPT:
                self.keep(place, length)
        return "freed"

    def pack(self) -> str:
        self.give_all_back()
        taken = [word for word in self.words if word is not None]
        self.words = taken + [None] * (len(self.words) - len(taken))
        return "packed"

    def words_of(self, number: int) -> str:
        if number not in self.blocks:
            return "refused"
        owner, words = self.blocks[number]
        return f"owner {owner} words {words}"


class Plain(Memory):
    """Each block lies apart: room is all that counts, and none moves."""

    def make_room(self, length: int) -> None:
        self.pack()

    def told(self) -> str:
        self.moved = 0
        return super().told()


class Packed(Memory):
    def make_room(self, length: int) -> None:
        self.pack()


class Sliding(Memory):
    def __init__(self, size: int, most: int) -> None:
        super().__init__(size, most)
        self.slid = 0

    def pack(self) -> str:
        self.slid = 0
        return super().pack()

    def make_room(self, length: int) -> None:
        """The block after the lowest hole slides down to the hole's front, again and again. Once more words slid than
        the region has, all blocks move together."""
        if self.slid > len(self.words):
            self.pack()
        while self.lowest_fit(length) is None:
            place, hole = self.holes()[0]
            number = self.words[place + hole][0]
            block = [word for word in self.words if word is not None and word[0] == number]
            self.put(place, block + [None] * hole)
            self.slid += len(block)


MADE: dict[str, type] = {"holes": Holes, "plain": Plain, "packed": Packed, "sliding": Sliding}
CALLS: dict[type, dict[str, Callable[..., str]]] = {
    Holes: {"take": Holes.take, "give": Holes.give, "reset": Holes.reset},
    # Each kind of memory has its own `pack`.
    Memory: {"place": Memory.place, "free": Memory.free_block, "pack": lambda memory: memory.pack(),
             "words": Memory.words_of},
}
# How many operands a word has, but `place`, which has an owner and any words.
OPERANDS = {"holes": 2, "plain": 2, "packed": 2, "sliding": 2, "take": 1, "give": 2, "reset": 1, "free": 1, "pack": 0,
            "words": 1}


def numbers_of(texts: list[str], least: int, greatest: int) -> list[int] | None:
    """The numbers that these texts are, or None where one is none."""
    if not all((text.removeprefix("-") if least < 0 else text).isdecimal() for text in texts):
        return None
    numbers = [int(text) for text in texts]
    return numbers if all(least <= number <= greatest for number in numbers) else None


def read(line: str) -> tuple[str, list[int]] | None:
    """The word of a line and its operands, or None where it isn't understood."""
    word, *texts = line.split(" ")
    if word == "place":
        owner, words = numbers_of(texts[:1], 0, GREATEST_SIZE), numbers_of(texts[1:], LEAST, GREATEST)
        return (word, [*owner, *words]) if owner and words is not None else None
    numbers = numbers_of(texts, 0, GREATEST_SIZE)
    return (word, numbers) if word in OPERANDS and numbers is not None and len(numbers) == OPERANDS[word] else None


class Table:
    """What the lines so far have made, and what the next ones come to."""

    def __init__(self) -> None:
        self.made: Holes | Memory | None = None

    def answer(self, line: str) -> str:
        understood = read(line)
        if understood is None:
            return "no case"
        word, numbers = understood
        what = self.call(word, numbers)
        return f"{what}, {self.made.told()}" if self.made else what

    def call(self, word: str, numbers: list[int]) -> str:
        if word in MADE and (word != "holes" or numbers[1] > 0):
            self.made = MADE[word](*numbers)
            return "made"
        kind = Holes if isinstance(self.made, Holes) else Memory
        if self.made is None or word not in CALLS[kind]:
            return "refused"
        return CALLS[kind][word](self.made, *numbers)


class RandomTable:
    """Random lines, each with its answer. What was made before decides which lines are likely."""

    def __init__(self, source: random.Random) -> None:
        self.random, self.table = source, Table()
        self.left = 0

    def case(self) -> tuple[str, str]:
        if self.left == 0:
            self.left = self.random.randint(20, 80)
            line = self.making()
        elif self.random.random() < 0.02:
            line = self.random.choice([self.noise(), self.holes_call(), self.memory_call()])
        else:
            line = self.holes_call() if isinstance(self.table.made, Holes) else self.memory_call()
        self.left -= 1
        return line, self.table.answer(line)

    def making(self) -> str:
        pick, between = self.random.choice, self.random.randint
        if pick([True, False]):
            return f"holes {pick(SIZES)} {pick([0, 1, 1, 2, 2, 3, 3, 4, 8, 100])}"
        return f"{pick(['plain', 'packed', 'sliding'])} {between(12, 300)} {pick([0, 1, 4, 8, 8, 16, 16, 16, 40, 40, 40])}"

    def noise(self) -> str:
        return self.random.choice(["take", "take 1 2", "take -1", "take x", "take  1", "give 1", "give 1 ", "pack 1",
                                   "places 1", "place", "place x",
                                   "place 1 x", "place 1 9223372036854775808", "place 1 ", "place 1 2 ", "words", "free 18446744073709551616", "reset",
                                   f"give {GREATEST_SIZE} {GREATEST_SIZE}", f"take {GREATEST_SIZE}", f"reset {GREATEST_SIZE}", "x", "holes 1"])

    # ---- holes

    def holes_call(self) -> str:
        region = self.table.made if isinstance(self.table.made, Holes) else Holes(64, 1)
        is_full, rows = len(region.holes()) >= region.most, region.rows(is_free=False)
        match self.random.choices(["take", "give", "given", "reset"],
                                  [12, 1, (3 if is_full else 12) if rows else 0, 1])[0]:
            case "take":
                return f"take {self.length(region)}"
            case "give":
                return f"give {self.random.randint(0, len(region.words) + 1)} {self.length(region)}"
            case "given":
                return self.give(rows)
        return f"reset {self.random.randint(0, len(region.words) + 1)}"

    def length(self, region: Words) -> int:
        size, widest = len(region.words), region.widest()
        near = [0, 1, 2, 3, 63, 64, 65, widest, widest + 1]
        return self.random.choice([self.random.choice(near), self.random.randint(1, max(1, widest)),
                                   self.random.randint(1, size // 4 + 1)])

    def give(self, rows: list[tuple[int, int]]) -> str:
        """A part of a row of taken words, often the whole of it or one that reaches its end."""
        place, length = self.random.choice(rows)
        first, end = sorted([self.random.randint(0, length), self.random.randint(0, length)])
        first, end = self.random.choice([(first, end), (0, end), (first, length), (0, length)])
        return f"give {place + first} {end - first}"

    # ---- memories

    def memory_call(self) -> str:
        memory = self.table.made if isinstance(self.table.made, Memory) else Sliding(64, 8)
        is_crowded = memory.free() < len(memory.words) // 4 or len(memory.blocks) >= memory.most
        match self.random.choices(["place", "free", "words", "pack"], [6, 9 if is_crowded else 3, 4, 0.2])[0]:
            case "place":
                return self.place(memory)
            case "free":
                return f"free {self.number(memory)}"
            case "words":
                return f"words {self.number(memory)}"
        return "pack"

    def number(self, memory: Memory) -> int:
        """A block that is there, mostly."""
        there = list(memory.blocks)
        return self.random.choice(there) if there and self.random.random() < 0.9 else self.random.randint(0, memory.placed + 1)

    def place(self, memory: Memory) -> str:
        """A block: where there are several holes often one that fits into none, at times one that just fits or doesn't fit at all."""
        size, free, widest = len(memory.words), memory.free(), memory.widest()
        length = self.random.randint(0, size // 8)
        if widest < free and self.random.random() < 0.4:
            length = self.random.randint(widest + 1, min(widest + size // 8, free))
        elif self.random.random() < 0.1:
            length = self.random.choice([widest, free, free + 1])
        words = [self.random.choice(WORDS) for _ in range(length)]
        return " ".join(map(str, ["place", self.random.randint(0, 9), *words]))


MEMORIES = ["plain", "packed", "sliding"]
# The first and the third of five blocks are freed, and the words of the others move for four words, or none do.
MOVES = ["place 1 1 2", "place 2 3 4", "place 1 5 6", "place 2 7 8", "place 1 9 10", "free 0", "free 2",
         "place 3 -1 -2 -3 -4",
         "words 1", "words 3", "words 4", "words 5", "place 1 11 12"]
# The lowest hole that is long enough is taken of, and what is given back joins the holes on both sides.
TAKES = ["holes 10 4", "take 3", "take 4", "take 3", "take 1", "give 0 3", "give 7 3", "take 4", "give 3 4", "take 4"]
# What is left of a hole joins the next one.
JOINS = ["holes 8 3", "take 4", "give 1 1", "take 2", "give 2 4", "take 7"]
RESETS = ["holes 10 1", "reset 4", "take 6", "reset 10", "take 1", "reset 0", "take 10"]
# The first of three blocks is freed and another fills its words and the last one; then no word is left, only a block of
# none.
FILLS = ["place 1 1 2 3", "place 2 4 5 6 7", "place 1 8 9", "free 0", "place 2 1 1 1 1", "words 1", "words 2",
         "words 3", "place 1 0", "place 1",
         "words 4", "free 2", "free 4", "pack", "words 1", "words 3"]
# Of ten blocks of seven words every other is freed, and one block takes the words of all five.
WIDENS = [*(f"place {number}{7 * f' {number}'}" for number in range(10)),
          *(f"free {number}" for number in range(0, 10, 2)),
          f"place 10{35 * ' -1'}", *(f"words {number}" for number in [10, 1, 3, 5, 7, 9])]
# Three times two blocks of two words slide for one of four, which are twelve words in a region of eight. For the next
# block all others move, and for the one after it one slides again.
SLIDES = ["place 1 0 0", "place 1 1 1", "place 1 2 2", "free 0", "place 1 3 3 3 3", "free 1", "free 3", "place 1 4 4",
          "place 1 5 5", "free 4", "place 1 6 6 6 6", "free 2", "free 6", "place 1 7 7", "place 1 8 8", "free 7",
          "place 1 9 9 9 9", "free 9", "place 1 10 10", "place 1 11 11", "free 5", "free 10", "place 1 12 12 12 12",
          "free 12", "place 1 13 13", "place 1 14 14", "free 8", "free 13", "place 1 15 15 15 15", "words 11",
          "words 14"]
# Blocks of one word lie apart, so that no other moves round them, but they count in what fits.
ONES = ["place 1 1", "place 2 2 2", "place 3 3", "place 4 4", "free 0", "place 5 5 5", "free 2", "place 6 6 6",
        "words 1", "words 3", "free 1", "place 7 7", "place 8 8", "place 9 9", "words 4", "words 5", "free 4", "pack",
        "words 3", "words 5"]
# Two of four blocks are freed. The next block gets the words of that which was freed first, not the lowest. So three
# blocks move for four words. Two more are freed, and the holes get their words before a block moves.
KEEPS = ["place 1 1 1", "place 2 2 2", "place 3 3 3", "place 4 4 4", "free 2", "free 0", "place 5 5 5",
         "place 6 6 6 6 6", "words 1", "words 3", "words 4", "words 5", "free 3", "free 1", "place 7 7 7 7 7",
         "words 4", "words 5", "words 6"]
# Five of seven blocks are freed. Of the ranges that are kept the lowest then goes to the holes, and the next block gets
# the highest. It moves with the last of the seven for twelve words.
CROWDS = [*(f"place {number}{2 * f' {number}'}" for number in range(7)), *(f"free {number}" for number in range(1, 6)),
          "place 7 7 7", f"place 8{12 * ' 8'}", "words 0", "words 6", "words 7", "words 8"]
# Blocks of no words in a memory of none.
EMPTIES = ["place 3", "place 4", "words 0", "free 0", "place 5 0", "pack", "words 1"]


def chosen_rows() -> Iterator[str]:
    """The rows that were thought of, in their sections."""
    yield from ["# Nothing is made yet.", "take 1", "pack"]
    for told, rows in [("Taken of the lowest hole", TAKES), ("Given back between holes", JOINS),
                       ("Made free from a place on", RESETS)]:
        yield from ["", f"# {told}.", *rows]
    for told, sizes, rows in [("Blocks move or not", "12 6", MOVES), ("A gap is filled", "10 4", FILLS),
                              ("As wide as all holes together", "70 10", WIDENS),
                              ("More slides than the region has words", "8 4", SLIDES),
                              ("Blocks of one word", "4 4", ONES),
                              ("Ranges that are kept", "10 6", KEEPS),
                              ("More ranges than are kept", "24 8", CROWDS),
                              ("No words", "0 2", EMPTIES)]:
        for memory in MEMORIES:
            yield from ["", f"# {told}: {memory}.", f"{memory} {sizes}", *rows]


def main(seed: int | str = 1, count: int | str = 2_000) -> None:
    table, cases = Table(), RandomTable(random.Random(int(seed)))
    rows = [*chosen_rows(), "", "# Random calls."]
    told = [line if line == "" or line.startswith("#") else f"{line} = {table.answer(line)}" for line in rows]
    random_rows = [cases.case() for _ in range(int(count))]
    (CRATE / "stdin").write_text("".join(f"{line}\n" for line in [*rows, *(line for line, _ in random_rows)]))
    (CRATE / "stdout").write_text("".join(f"{line}\n"
                                          for line in [*told, *(f"{line} = {answer}" for line, answer in random_rows)]))


if __name__ == "__main__":
    main(*sys.argv[1:])
