#!/usr/bin/env python3
"""Compares the results of the compiler's example programs with those of plain Python: examples.py [SIZE]

If vjobs-kinds is there, it has to find the signatures that the compiler writes, for the code and in the batch. If
vjobs-why is there, the profile by source lines has to have all instructions.
"""
from __future__ import annotations

import random
import sys
from pathlib import Path

sys.dont_write_bytecode = True
TOP = Path(__file__).resolve().parent.parent.parent
sys.path.insert(0, str(TOP / "examples" / "compiler"))

from compare import given, report_of  # noqa: E402
from compile import compiled  # noqa: E402
from plain import DATA, PLAIN  # noqa: E402
from run import HERE, by_source_lines, program, reported, run  # noqa: E402


def difference(name: str, size: int) -> str:
    text, data = (HERE / "programs" / f"{name}.py").read_text(), DATA[name](random.Random(size), size)
    batch = "BATCH 2\n" + compiled(text, list(data), name)
    signatures, code = batch.partition("SIGNATURES\n")[2].split("CODE\n")
    if program("vjobs-kinds") and run("vjobs-kinds", code.removesuffix("END\n")) != signatures:
        return f"{name}: vjobs-kinds finds other signatures"
    if program("vjobs-kinds") and run("vjobs-kinds", batch.replace(signatures, "", 1), "--batch") != batch:
        return f"{name}: vjobs-kinds makes another batch"
    report = report_of(batch)
    if program("vjobs-why") and f"\nUSED {by_source_lines(batch)[0].total()} instructions" not in report:
        return f"{name}: the profile has other instructions"
    [(end, vectors)] = reported(report)
    found, wanted = given(text, end, vectors), PLAIN[name](*data)
    return "" if found == wanted else f"{name}: {end}, {str(found)[:200]} in place of {str(wanted)[:200]}"


def main(size: str = "1") -> None:
    differing = list(filter(None, (difference(name, int(size)) for name in PLAIN)))
    print(*differing, f"compiler: {len(PLAIN)} example programs, {len(differing)} differences", sep="\n")
    sys.exit(bool(differing))


if __name__ == "__main__":
    main(*sys.argv[1:])
