#!/usr/bin/env python3
"""Puts bugs into the compiler, one at a time, and says which random program sees each: slips.py [COUNT [PART]]

A slip is a text of the compiler and another in its place. The table has the first of COUNT programs that differs. With
PART it takes only the slips whose names have it. A run that takes too long is stopped, and has seen nothing.
"""
from __future__ import annotations

import os
import re
import resource
import shutil
import subprocess
import sys
import tempfile
from functools import partial
from pathlib import Path

HERE = Path(__file__).resolve().parent
TOP = HERE.parent.parent
COMPILER = TOP / "examples" / "compiler"
# Of a processor, for the programs up to the first that differs. 64 programs take a few seconds.
MOST_SECONDS = 300
SLIPS = {
    "COPY at a last use": ("compile.py", '"CPOP" if moves[done] else "COPY"', '"COPY"'),
    "CPOP of what is used again": ("compile.py", "moves = [it not in live and it", "moves = [it"),
    "neighbours that are only half there": (
        "compile.py", "len(list(takewhile(lambda it: it[0] == it[1] and it[2] == moves[done], neighbours)))",
        "len(wanted) - done"),
    "a step that may fault is left out": ("structure.py", "operands, found, must_run))", "operands, found, False))"),
    "known from the other part of an IF": ("structure.py", "[], known.new_child()", "[], known"),
    "starts of an outer list without a scan": (
        "structure.py", 'move(self.step("+_SCAN INT", lengths, source))', "move(lengths)"),
    "a total taken from the top": ("structure.py", "if outer is self.one:", "if True:"),
    "a loop's own segments where two levels lie between": (
        "structure.py", "self.total(inner.segments, self.between(outer, inner.outer))", "inner.segments"),
    "an index into another iteration's list": (
        "structure.py", "of.segments, self.between(at, level), must_run",
        "self.total(of.segments, at.whole), level.whole, must_run"),
    "a row read past its end": ("library.py", '"Quotient(a, int(0 <= a and a < b))"', '"a"'),
    "lists merged at the other's places": (
        "structure.py", "begin, places, target, source)", "begin, spots[0][0], target, source)"),
    "append that forgets what is before": (
        "structure.py", "[self.fill(level.whole), *ends[:-1]]", "[self.fill(level.whole)] * len(lists)"),
    "both branches take the flags that are T": (
        "compile.py", 'flag if way is ways[0] else self.step("NOT BOOL", flag)', "flag"),
    "a branch that may fault taken for cheap": ("compile.py", "if is_cheap(way) else None", "if True else None"),
    "SELECT the wrong way round": ("compile.py", "flag, a, b), *cheap)", "flag, b, a), *cheap)"),
    "what may fault brought out of a loop": (
        "library.py", "    for it in ast.walk(node):", "    for it in list[ast.AST]():"),
    "a quotient that is rounded to 0": ("library.py", '"c - int((a - c * b ^ b) < 0 and a - c * b != 0)"', '"c"'),
    "no test for an iteration left": (
        "compile.py", "if not is_loop or self.version[0] not in function.reaches:", "if True:"),
    "zip of lists of different lengths": ("library.py", "if it.segments is not segments", "if False"),
    "a filter that keeps the lengths": (
        "compile.py", "_, body, segments = self.branch(", "_, body, _ = self.branch("),
}


def with_slip(folder: str, file: str, old: str, new: str) -> None:
    """A copy of the compiler that has a slip."""
    shutil.copytree(COMPILER, folder, dirs_exist_ok=True)
    text = (COMPILER / file).read_text()
    if text.count(old) != 1:
        sys.exit(f"slips: {file} has this text {text.count(old)} times: {old}")
    (Path(folder) / file).write_text(text.replace(old, new))


def first_seen(slip: tuple[str, str, str], count: str) -> str | None:
    """The first difference that the programs show, if any."""
    with tempfile.TemporaryDirectory() as folder:
        with_slip(folder, *slip)
        words = [sys.executable, str(HERE / "compare.py"), count, "0", "--first"]
        places = {"VJOBS_PROGRAMS": str(TOP / "bin"), **os.environ, "COMPILER": folder}
        limit = partial(resource.setrlimit, resource.RLIMIT_CPU, (MOST_SECONDS, MOST_SECONDS))
        ran = subprocess.run(words, env=places, capture_output=True, text=True, preexec_fn=limit)
    found = re.search(r"^seed (\d+): (.*)", ran.stdout, re.M)
    return f"{int(found[1]) + 1:6}  {found[2][:60]}" if found else None


def main(count: str = "1000", part: str = "") -> None:
    unseen = []
    for name, slip in ((name, slip) for name, slip in SLIPS.items() if part in name):
        seen = first_seen(slip, count)
        print(f"{name:52} {seen or 'not seen'}", flush=True)
        unseen += [] if seen else [name]
    print(f"compiler: {len(SLIPS)} slips, {len(unseen)} not seen")
    sys.exit(bool(unseen))


if __name__ == "__main__":
    main(*sys.argv[1:])
