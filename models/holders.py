"""What held the words of a job by the lines that made them, and its entries or calls over time, from the second
writing."""
from typing import Any

import kinds
import pictures
import runs
from instructions import kinds_of
from notes import depth_after
from reader import Function
from runs import Limits

# The most lines that are given of what they hold.
MOST_LINES = 32
COUNTED = {"MEMORY M2 CELLS": "entries", "MEMORY M3 CALLS": "calls"}


def read_by_next(job: pictures.Pictured) -> set[int]:
    """The vectors that the next instruction reads. The last RET reads all, since they are the results."""
    item = job.calls[-1][0]
    if item.what == "Return" and len(job.calls) == 1:
        return {entry.tag for entry in job.stack}
    count = len(kinds_of(item.word, item.kind).operands) if item.what == "Vector" else int(item.what == "If")
    return {entry.tag for entry in job.stack[len(job.stack) - count :]}


def read_from_here(job: pictures.Pictured) -> set[int]:
    """The vectors that a job reads from its state to its end, if it returns."""
    found = set[int]()
    while job.calls:
        found |= read_by_next(job)
        job.step()
    return found


def rows_of(job: pictures.Pictured, stack: list[Any], read: set[int] | None) -> list[list[int]]:
    """Of each line what the vectors hold that it made: words, vectors, entries, and words that aren't read again."""
    lines: dict[int, list[int]] = {}
    seen = set[int]()
    for entry in stack:
        row = lines.setdefault(job.makers[entry.tag], [0, 0, 0, 0])
        row[2] += 1
        if entry.tag not in seen:
            seen.add(entry.tag)
            row[0] += len(entry.words)
            row[1] += 1
            row[3] += len(entry.words) if read is not None and entry.tag not in read else 0
    return sorted(([line, *row] for line, row in sorted(lines.items())), key=lambda row: -row[1])


def held(known: kinds.Signatures, functions: list[Function], limits: Limits, is_second: bool, end: str,
         number: int) -> dict[str, Any]:
    """What a job that ended so held before the instruction of this number."""
    job = pictures.Pictured(known, functions, limits, is_second)
    pictures.go_to(job, max(number - 1, 0))
    line, words, stack = job.calls[-1][0].line, runs.held(job.stack), list(job.stack)
    read = read_from_here(job) if end == "RETURNED" else None
    rows = rows_of(job, stack, read)
    return {"before": number, "line": line, "words": words, "unread": None if read is None else sum(row[4] for row in rows),
            "list": rows[:MOST_LINES], "left": max(len(rows) - MOST_LINES, 0)}


def levels(known: kinds.Signatures, functions: list[Function], limits: Limits, is_second: bool, end: str,
           each: int) -> dict[str, Any]:
    """The entries or calls of a job over time by columns of `each` instructions, if the limit on these ended it."""
    job = pictures.Pictured(known, functions, limits, is_second)
    of, most = COUNTED[end], dict[int, int]()
    try:
        while True:
            count = len(job.stack) if of == "entries" else len(job.calls)
            column = max(job.executed - 1, 0) // each
            most[column] = max(most.get(column, 0), count)
            item = job.calls[-1][0]
            job.step()
    except runs.Ended:
        wanted = depth_after(item, count) if of == "entries" else count + 1
    return {"of": of, "most": [most[column] for column in range(len(most))], "wanted": wanted}


def found(known: kinds.Signatures, functions: list[Function], limits: Limits, is_second: bool, end: str,
          job: Any, each: int) -> dict[str, Any]:
    """The members for what is found of a job when it is run again, or none if it executes too many instructions."""
    if pictures.length_of(pictures.Pictured(known, functions, limits, is_second)) is None:
        return {}
    number = job.executed + 1 if end == "MEMORY M1 WORDS" else job.peak_at
    members = {"held": held(known, functions, limits, is_second, end, number), "levels": None}
    if end in COUNTED:
        members["levels"] = levels(known, functions, limits, is_second, end, each)
    return members
