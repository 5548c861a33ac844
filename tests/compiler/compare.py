#!/usr/bin/env python3
"""Compares compiled random programs with the same programs run directly: compare.py [COUNT [FIRST [--first]]]

The programs have the seeds from FIRST on; with --first it ends after the batch with the first difference. The code is
run by bin/vjobs, or by the vjobs of the folder VJOBS_PROGRAMS; if there is none, by models/. The compiler is that of
examples/compiler, or of the folder COMPILER.
"""
from __future__ import annotations

import os
import sys
from collections import Counter
from importlib import import_module
from pathlib import Path

sys.dont_write_bytecode = True
TOP = Path(__file__).resolve().parent.parent.parent
sys.path.insert(0, os.environ.get("COMPILER", str(TOP / "examples" / "compiler")))
sys.path.append(str(TOP / "models"))

from compile import compiled  # noqa: E402
from evaluator import Evaluator, Faulted, TooLong  # noqa: E402
from programs import random_program  # noqa: E402
from run import program, reported, result_of, run  # noqa: E402

LIMITS = "1048576 4096 1024 3000000"
# A batch has at most so many jobs, and bytes.
MOST_JOBS, MOST_BYTES = 64, 16_000_000
FAULT, LIMIT = "a fault", "a limit"


def wanted(text: str, data: list[object]) -> object:
    """What a program gives when it is run directly; None if that takes too long."""
    try:
        return Evaluator(text).call("main", data)
    except Faulted:
        return FAULT
    except (TooLong, RecursionError):
        return None


def report_of(batch: str) -> str:
    if program("vjobs"):
        return run("vjobs", batch, "--workers", "1")
    return str(import_module("batches").report(batch.encode(), 1_048_576)[0])


def given(text: str, end: str, vectors: list[list[int]]) -> object:
    if end == "RETURNED":
        return result_of(text, vectors)
    # The programs recurse a few levels, so none of them needs all cells (M2) or all calls (M3).
    is_limit = end.startswith("BUDGET") or end.startswith("MEMORY") and "M1" in end
    return FAULT if end.startswith("FAULT") else LIMIT if is_limit else end


def compare(first: int, count: int, counts: Counter[str]) -> list[str]:
    """Compares programs, and says which differ."""
    jobs, cases, differing = [], [], []
    for seed in range(first, first + count):
        text, data = random_program(seed)
        value = wanted(text, data)
        if value is None:
            counts["too long"] += 1
            continue
        try:
            jobs.append(compiled(text, data, f"seed{seed}", limits=LIMITS))
            cases.append((seed, text, value))
        except Exception as fault:  # any slip of the compiler
            differing.append(f"seed {seed}: the compiler ends by {fault!r}")
    ends = reported(report_of("BATCH 2\n" + "".join(jobs)))
    if len(ends) != len(cases):
        return [*differing, f"seeds from {first}: {len(ends)} jobs of {len(cases)}"]
    for (seed, text, value), (end, vectors) in zip(cases, ends):
        found = given(text, end, vectors)
        counts["limit" if found == LIMIT else "fault" if value == FAULT else "value"] += 1
        if found not in (value, LIMIT):
            differing.append(f"seed {seed}: {end}, {str(found)[:300]} in place of {str(value)[:300]}")
    return differing


def main(count: str = "200", first: str = "0", until: str = "") -> None:
    sys.setrecursionlimit(5000)
    counts, differing = Counter[str](), list[str]()
    for start in range(int(first), int(first) + int(count), MOST_JOBS):
        differing += compare(start, min(MOST_JOBS, int(first) + int(count) - start), counts)
        if until and differing:
            break
    print(*differing, f"compiler: {count} random programs, {len(differing)} differences; {dict(counts)}", sep="\n")
    sys.exit(bool(differing))


if __name__ == "__main__":
    main(*sys.argv[1:])
