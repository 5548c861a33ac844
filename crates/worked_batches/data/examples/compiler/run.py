#!/usr/bin/env python3
"""Compiles a program, runs it, and shows its result and what each line of its source did: run.py PROGRAM [SIZE]

PROGRAM is a name of programs/, which gets data of plain.py, SIZE times as much as the least; or the path of a file
whose `main` has no parameters. The programs are bin/vjobs and bin/vjobs-why, or those of the folder VJOBS_PROGRAMS; the
names of crates do as well, as `make fast` gives them.
"""
from __future__ import annotations

import json
import os
import random
import re
import subprocess
import sys
from collections import Counter
from collections.abc import Sequence
from itertools import accumulate
from pathlib import Path

from compile import compiled
from plain import DATA, PLAIN
from source import List, Tree, mapped, read_program

HERE = Path(os.path.abspath(__file__)).parent
PROGRAMS = Path(os.environ.get("VJOBS_PROGRAMS", HERE.parent.parent / "bin"))
# How many lines of a profile are shown, and how much of a result.
MOST_LINES, MOST_SHOWN = 12, 200
FLAGS = {"T": True, "F": False}


def decode(tree: Tree[list[int]]) -> Sequence[object]:
    """The values of a type that these vectors are."""
    match tree:
        case List(inner, lengths):
            elements = decode(inner)
            return [elements[end - length : end] for end, length in zip(accumulate(lengths), lengths)]
        case tuple():
            return list(zip(*map(decode, tree)))
    return tree


def result_of(text: str, vectors: list[list[int]]) -> object:
    """The result of a program, which left these vectors."""
    left = iter(vectors)
    return decode(mapped(lambda _: next(left), read_program(text)["main"].result))[0]


def reported(report: str) -> list[tuple[str, list[list[int]]]]:
    """How each job of a report ended, and the vectors that it left."""
    found = []
    for job in re.split(r"^(?=JOB )", report, flags=re.M)[1:]:
        head, *lines = job.splitlines()
        left = [line.partition(" ") for line in lines]
        words = [rest.strip("()").split() for kind, _, rest in left if kind in ("INT", "BOOL", "SEGDES")]
        vectors = [[FLAGS[it] if it in FLAGS else int(it) for it in row] for row in words]
        found.append((head.split(maxsplit=3)[3], vectors))
    return found


def program(name: str) -> Path | None:
    """The path of a program, if it is there."""
    return next((PROGRAMS / it for it in (name, name.replace("-", "_")) if (PROGRAMS / it).is_file()), None)


def run(name: str, batch: str, *options: str) -> str:
    if not (path := program(name)):
        sys.exit(f"there is no {PROGRAMS / name}: `make all why` builds it, and `make fast` unproved")
    return subprocess.run([path, *options, "-"], input=batch, capture_output=True, text=True).stdout


def by_source_lines(batch: str) -> tuple[Counter[int], Counter[int]]:
    """How many instructions each line of the source executed, by the comments behind the code; and their elements."""
    lines, executed, elements = batch.splitlines(), Counter[int](), Counter[int]()
    for number, times, each in json.loads(run("vjobs-why", batch, "--json", "--no-least")).get("lines", []):
        found = re.search(r"\{@ .*:(\d+)\}", lines[number - 1])
        place = int(found[1]) if found else 0
        executed[place] += times
        elements[place] += each
    return executed, elements


def main(name: str, size: str = "1") -> None:
    path = HERE / "programs" / f"{name}.py" if name in PLAIN else Path(name)
    text, data = path.read_text(), DATA[name](random.Random(1), int(size)) if name in PLAIN else ()
    batch = "BATCH 2\n" + compiled(text, list(data), path.stem, path.name)
    report = run("vjobs", batch)
    end, vectors = reported(report)[0]
    print(f"{path.name}: {end}, {report.splitlines()[-2].lower()}")
    if end == "RETURNED":
        value = result_of(text, vectors)
        print(str(value)[:MOST_SHOWN])
        if name in PLAIN and value != PLAIN[name](*data):
            sys.exit("plain Python gives another result")
    executed, elements = by_source_lines(batch)
    print(f"\n{'instructions':>12} {'share':>6} {'elements':>10}  line")
    for line, times in executed.most_common(MOST_LINES):
        what = text.splitlines()[line - 1] if line else "MAIN, the RETs, and what functions begin with"
        print(f"{times:12} {times / executed.total():6.1%} {elements[line]:10} {line:5}  {what}")


if __name__ == "__main__":
    try:
        main(*sys.argv[1:])
    except (OSError, SyntaxError) as fault:
        sys.exit(f"run.py: {fault}")
