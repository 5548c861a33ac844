"""Whether a page shows what ended a job, what held its words, and the state before its last instruction."""
from __future__ import annotations

import re
from collections.abc import Iterator

from browser import Page
from checks import READ, Wanted, differ, number, share

# The card of the limit that ended a job.
CARDS = {"MEMORY M1": "words at the peak", "MEMORY M2": "entries of the stack", "MEMORY M3": "calls inside one another",
         "BUDGET": "instructions"}
USED = {"entries": "cells", "calls": "calls"}


def code_of(wanted: Wanted, line: int) -> str:
    """The code of a line without the comment at its end."""
    return re.sub(r"(\S)\s*{.*$", r"\1", wanted.lines[line - 1]).strip()


def ends(shown: dict, job: dict, wanted: Wanted) -> Iterator[str]:
    """What is wrong with the limit that is marked, and with how it is said that the job ends within wider ones."""
    card = next((card for end, card in CARDS.items() if job["end"].startswith(end)), None)
    yield from differ("the card of the limit that ended it", shown["passed"], [card] if card and "used" in job else [])
    if widest := job.get("widest"):
        at = f" at line {widest['line']}" if widest["line"] else ""
        told = f"Within the widest limits it ends so: {widest['end']}{at}, after {widest['instructions']:,} instructions."
        if "wanted" in widest:
            told += f" There {widest['wanted']:,} words would be held and needed."
        yield from differ("the end within the widest limits", shown["told"], [told])
    if text := job.get("text"):
        notes = text.split("\n")
        begin = next(place for place, line in enumerate(notes) if line.startswith("        | "))
        notes = "\n".join(notes[notes.index("", begin) + 1:]).strip()
        yield from differ("what was expected", shown["expected"], notes)


def held(shown: dict, job: dict, wanted: Wanted) -> Iterator[str]:
    """What is wrong with what held the words, by the lines that made them."""
    if not (held := job.get("held")) or not held["list"]:
        yield from differ("what held the words", shown["held"], [])
        return
    is_known = held["unread"] is not None
    rows = [[f"{words:,}", share(words, held["words"]), f"{unread:,}" if is_known else "-", f"{vectors:,}", f"{entries:,}",
             str(line), code_of(wanted, line)] for line, words, vectors, entries, unread in held["list"]]
    yield from differ("what held the words", shown["held"], rows)
    remark = shown["remarks"]["held"]
    for text in [f"{held['words']:,} word", f"before instruction {held['before']:,} at line {held['line']}"]:
        if text not in remark:
            yield f"what held the words has not {text!r}, but {remark!r}"
    if bool(held["unread"]) != (f"{held['unread'] or 0:,} of them are not read again" in remark):
        yield f"what isn't read again is {held['unread']}, and not {remark!r}"


def levels(shown: dict, job: dict, wanted: Wanted) -> Iterator[str]:
    """What is wrong with the entries or calls over time."""
    if not (levels := job.get("levels")):
        yield from differ("entries or calls", shown["levels"], [])
        return
    each, most = job["columns"]["each"], levels["most"]
    size = -(-len(most) // 64)
    rows = [max(most[begin:begin + size]) for begin in range(0, len(most), size)]
    yield from differ("entries or calls", [number(most) for _, most, *_ in shown["levels"]], rows)
    last = number(shown["levels"][-1][0].split(" to ")[-1])
    yield from differ("the last column", last, min(each * len(most), job["instructions"]))
    limit, unit = job["limits"][USED[levels["of"]]], levels["of"]
    for text in [f"limit {limit:,} {unit}", f"line {job['line']} wanted {levels['wanted']:,}"]:
        if text not in shown["level_marks"]:
            yield f"the drawing of {unit} has no {text!r}, but {shown['level_marks']}"
    yield from differ("crosses", shown["level_crosses"], 1)


def entry_of(entry: dict, depth: int, wanted: Wanted) -> list[str]:
    total = f" of {entry['total']:,}" if "total" in entry else ""
    more = f" and {entry['left']:,} more" if entry.get("left") else ""
    values = f"as entry {entry['copy']}" if "copy" in entry else entry["values"] + more
    return [str(depth), entry.get("name", ""), entry["kind"], f"{entry['length']:,}{total}", values, str(entry["line"]),
            code_of(wanted, entry["line"])]


def state(shown: dict, job: dict, wanted: Wanted) -> Iterator[str]:
    """What is wrong with the stack or the results, and with the calls."""
    stack = job.get("stack", job.get("results"))
    if stack is None:
        yield from differ("the stack", shown["stack"], [])
        return
    rows = [row for row in shown["stack"] if len(row) > 1]
    yield from differ("the stack", rows, [entry_of(entry, depth, wanted) for depth, entry in enumerate(stack["list"])])
    names = [each["name"] for each in job["functions"]]
    calls = [[names[place], str(line), code_of(wanted, line), f"{entries:,}"]
             for place, line, entries in job["active"]["list"]]
    yield from differ("the active calls", shown["active"], calls)
    for left in [stack["left"], job["active"]["left"]]:
        if left and not any(text.startswith(f"{left:,} ") for text in shown["left"]):
            yield f"{left} are left out, and it says {shown['left']}"


def sources(shown: dict, job: dict, wanted: Wanted) -> Iterator[str]:
    """What is wrong with the lines of the source."""
    found = job.get("source", {"files": [], "lines": []})
    rows = sorted([f"{found['files'][file]}:{line}", f"{count:,}", text] for file, line, count, _, text in found["lines"])
    yield from differ("the source", sorted(shown["source"]), rows)


def states(page: Page, wanted: Wanted) -> Iterator[str]:
    for shown, job in zip(page.run(READ), wanted.jobs):
        for check in [ends, held, levels, state, sources]:
            yield from (f"job {job['job']}: {text}" for text in check(shown, job, wanted))


def narrow(page: Page, wanted: Wanted) -> Iterator[str]:
    """Whether it says how many chains are too narrow to be drawn."""
    for shown, job in zip(page.run(READ), wanted.jobs):
        told = number(shown["narrow"].split(" ")[0]) if shown["narrow"] else 0
        yield from differ("chains that are too narrow", told, len(job.get("calls", [])) - shown["bars"])
