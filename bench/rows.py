#!/usr/bin/env python3
"""Measures single instructions over 1 to 30,000 words: by bin/vjobs, and beside it by another program.

    python3 bench/rows.py [--count] [--program FILE] [LENGTH[,LENGTH ..]] -- OTHER [ARGUMENT ..]

Run it at the top of the repository, after `make`; FILE stands in the place of bin/vjobs. OTHER has the same command
line and prints the same reports. In each round an instruction is executed ten times, each time on copies of its
operands, and its results are popped; the vectors are one segment. The least processor times count, as in
bench/steps.py. With --count they are instructions of the processor, by valgrind, which no other load on the machine
changes. For each length the ratios above 1 are printed with their instruction, the greatest first, and how many ratios
are above 1.1.
"""
import argparse
import math
import re
import subprocess
import sys
from collections.abc import Iterator
from pathlib import Path
from tempfile import NamedTemporaryFile

import steps

TOP = Path(__file__).resolve().parent.parent
LENGTHS, TIMES = [1, 10, 100, 1_000, 30_000], 10
# The nanoseconds that a row is to take. An instruction is guessed to take EACH of them, and two more for each word.
WANTED, EACH = 150_000_000, 200
# Rounds are fewer where valgrind counts.
FEWER = 100
# The vectors below all rounds: their names and kinds, the last one at the top of the stack.
VECTORS = {"x": "INT", "y": "INT", "p": "INT", "i": "INT", "f": "BOOL", "s": "SEGDES", "m": "SEGDES"}
# Instructions and their operands: x any numbers, y from 1 to 16, p a permutation, i one place, f flags, s the
# descriptor of one segment, m that of as many segments.
FOLDS = [("+", "INT"), ("*", "INT"), ("MAX", "INT"), ("AND", "INT"), ("OR", "BOOL")]
ROWS = {
    "+ INT": "xy", "- INT": "xy", "* INT": "xy", "/ INT": "xy", "% INT": "xy", "LSHIFT INT": "xy", "RSHIFT INT": "xy",
    "< INT": "xy", "<= INT": "xy", "> INT": "xy", ">= INT": "xy", "= INT": "xy", "!= INT": "xy",
    "AND INT": "xy", "OR INT": "xy", "XOR INT": "xy", "AND BOOL": "ff", "OR BOOL": "ff", "XOR BOOL": "ff",
    "NOT INT": "x", "NOT BOOL": "f", "SELECT INT": "fxy", "SELECT BOOL": "fff", "I_TO_B": "x", "B_TO_I": "f",
    **{f"{word}_{fold} {kind}": "xs" if kind == "INT" else "fs" for fold in ("SCAN", "REDUCE") for word, kind in FOLDS},
    "DIST INT": "is", "INDEX": "iis", "PERMUTE INT": "xps", "PERMUTE BOOL": "fps", "BPERMUTE INT": "xpss",
    "BPERMUTE BOOL": "fpss", "DPERMUTE INT": "xpyss", "EXTRACT INT": "xis", "REPLACE INT": "xiis", "PACK INT": "xfs",
    "PACK BOOL": "ffs", "MAKE_SEGDES": "y", "LENGTHS": "m",
}


class Stack:
    """Code, and the names of the entries that it leaves on the stack."""

    def __init__(self, *names: str) -> None:
        self.names, self.code = [*names], list[str]()

    def copy(self, name: str) -> None:
        above = len(self.names) - 1 - self.names.index(name)
        self.code.append(f"COPY 1 {above}")
        self.names.append("")

    def numbers(self, *numbers: int) -> None:
        for number in numbers:
            self.code.append(f"CONST INT {number}")
            self.names.append("")

    def take(self, word: str, operands: int, name: str = "") -> None:
        """An instruction with one result, which gets a name."""
        self.code.append(word)
        del self.names[len(self.names) - operands:]
        self.names.append(name)

    def with_all(self, word: str, number: int) -> None:
        """An instruction on the vector at the top and a number for each of its elements."""
        self.numbers(number)
        self.copy("s")
        self.take("DIST INT", 2)
        self.take(word, 2)

    def progression(self, stride: int) -> None:
        self.numbers(0, stride)
        self.copy("s")
        self.take("INDEX", 3)


def begin(length: int) -> list[str]:
    """Code that makes the vectors. The descriptor is first at the bottom."""
    stack = Stack()
    stack.numbers(length)
    stack.take("MAKE_SEGDES", 1, "s")
    stride = next(it for it in (7919, 7907) if math.gcd(it, length) == 1)
    vectors: list[tuple[str, list[tuple[str, int]]]] = [
        ("x", []), ("y", [("AND INT", 15), ("+ INT", 1)]), ("p", [("% INT", length)])]
    for name, parts in vectors:
        stack.progression(1 if name == "y" else stride)
        for word, number in parts:
            stack.with_all(word, number)
        stack.names[-1] = name
    stack.numbers(length // 2)
    stack.names[-1] = "i"
    stack.copy("x")
    stack.with_all("AND INT", 64)
    stack.take("I_TO_B", 1, "f")
    stack.code.append("CPOP 1 5")
    stack.names.append(stack.names.pop(0))
    stack.copy("y")
    stack.take("MAKE_SEGDES", 1, "m")
    assert stack.names == [*VECTORS]
    return stack.code


def loads(length: int) -> Iterator[steps.Load]:
    rounds = max(10, WANTED // TIMES // (EACH + 2 * length))
    for word, operands in ROWS.items():
        stack = Stack(*VECTORS)
        for name in operands:
            stack.copy(name)
        once = [*stack.code, word, f"POP {2 if word.startswith('PACK') else 1} 0"]
        yield steps.Load(word, rounds, " ".join(VECTORS.values()), begin(length), len(VECTORS), once * TIMES)


def counted(program: list[str], text: str) -> int:
    """The instructions of the processor that a batch takes."""
    with NamedTemporaryFile("w") as file:
        file.write(text)
        file.flush()
        words = ["valgrind", "--tool=callgrind", "--callgrind-out-file=/dev/null", *program, file.name]
        ran = subprocess.run(words, check=True, capture_output=True, text=True)
    found = re.search(r"Collected : (\d+)", ran.stderr)
    return int(found[1]) if found else sys.exit("valgrind counts nothing")


def ratio(programs: list[list[str]], load: steps.Load, counts: bool) -> float:
    if not counts:
        found = steps.measured(programs, load)
        return found[0][0] / found[1][0]
    load.rounds = max(2, load.rounds // FEWER)
    ours, theirs = (counted(it, steps.batch(load, load.rounds)) - counted(it, steps.batch(load, 0)) for it in programs)
    return ours / theirs


def main() -> None:
    parser = argparse.ArgumentParser(description=(__doc__ or "").splitlines()[0])
    parser.add_argument("--count", action="store_true")
    parser.add_argument("--program", default=str(TOP / "bin" / "vjobs"))
    parser.add_argument("lengths", nargs="?", default=",".join(map(str, LENGTHS)))
    parser.add_argument("other", nargs="+")
    told = parser.parse_args()
    programs = [[told.program, "--schedule", "1"] if told.count else [told.program, "--workers", "1"], told.other]
    for length in map(int, told.lengths.split(",")):
        ratios = {load.name: ratio(programs, load, told.count) for load in loads(length)}
        mean = math.exp(sum(map(math.log, ratios.values())) / len(ratios))
        many = sum(it > 1.1 for it in ratios.values())
        print(f"{length} words: {len(ratios)} instructions, mean {mean:.2f}, {many} above 1.1", flush=True)
        above = sorted(((it, name) for name, it in ratios.items() if it > 1), reverse=True)
        print("  " + ", ".join(f"{name} {it:.2f}" for it, name in above), flush=True)


if __name__ == "__main__":
    main()
