#!/usr/bin/env python3
"""Tests vjobs-dap: python3 tests/dap/run.py [--editors] [PROGRAM], which .ci/dap calls

PROGRAM is the path of vjobs-dap; without it the program that the gate built is taken, and if there is none, a line says
that the tests are skipped. It takes about a minute. The parts are examples of docs/DEBUGGING.md, walks over random jobs
that are compared with the second writing, long runs, what comes in while a job moves, bad input, and sessions with
changes at random.

With --editors the files of editors/ are tested instead: Emacs with dap-mode goes through a job and back, and Vim
colours a batch. What of these isn't installed is skipped, and a line says so."""
from __future__ import annotations

import sys
import tempfile
import time
from collections.abc import Callable, Iterable
from pathlib import Path

sys.dont_write_bytecode = True
TOP = Path(__file__).resolve().parents[2]
sys.path[:0] = [str(TOP / "models")]

import bad  # noqa: E402
import editors  # noqa: E402
import long  # noqa: E402
import mutated  # noqa: E402
import page  # noqa: E402
import walks  # noqa: E402

# The walks of the gate.
FIRST, WALKS = 1, 60


def walk(program: Path) -> list[str]:
    return walks.walks(str(program), FIRST, WALKS, Path(tempfile.gettempdir()))


PARTS: dict[str, Callable[[Path], Iterable[str]]] = {
    "examples": page.faults, "walks": walk, "long runs": long.faults_of_long,
    "while a job moves": long.faults_while_moving, "bad input": bad.faults, "sessions with changes": mutated.faults,
}
EDITORS: dict[str, Callable[[Path], Iterable[str]]] = {"Emacs": editors.emacs_faults, "Vim": editors.vim_faults}


def main(words: list[str]) -> bool:
    parts = EDITORS if "--editors" in words else PARTS
    names = [word for word in words if word != "--editors"]
    program = Path(names[0]).resolve() if names else TOP / "crates" / "vjobs_dap" / "out" / "vjobs_dap"
    if not program.is_file():
        print("dap: skipped, since vjobs-dap isn't built")
        return True
    count = 0
    for name, part in parts.items():
        began = time.monotonic()
        found = [*part(program)]
        count += len(found)
        print(f"dap: {name}, {len(found)} faults, {time.monotonic() - began:.0f} seconds", *found, sep="\n", flush=True)
    print(f"dap: {count} faults")
    return not count


sys.exit(not main(sys.argv[1:]))
