"""What vjobs-dap has to say of the end of a job, from the second writing."""
from __future__ import annotations

from typing import Any

import batches
import profiles
from histories import Record
from runs import Limits


def used_line(name: str, used: int, limit: int) -> str:
    return f"  {name:<12}{used:>14} of{limit:>14}"


def least_lines(name: str, course: dict[str, Any]) -> list[str] | None:
    """The lines for the least limits, or for how the job ends within the widest ones. None if that isn't known here."""
    least, widest = course["least"], course["widest"]
    if profiles.UNKNOWN in (least, widest):
        return None
    if least:
        numbers = " ".join(str(least[it]) for it in ("words", "cells", "calls", "budget"))
        return ["", f"Within these limits, and no less, it returns: JOB {name} {numbers}"]
    if not widest:
        return []
    comma = "" if widest["line"] is None else ","
    end = ending(widest["end"], widest["line"])
    lines = ["", f"Within the widest limits it ends so: {end}{comma} after {widest['instructions']} instructions"]
    if "wanted" in widest:
        most = profiles.GREATEST_WORDS
        lines.append(f"There {widest['wanted']} words would be held and needed, and a job has at most {most}")
    return lines


def ending(end: str, line: int | None) -> str:
    """An end with its line, as a report has it."""
    return end.replace(" ", f" line {line} ", 1) if line is not None else end


def is_said(record: Record, found: str) -> bool:
    """Whether a text says the end of a job: how it ended, what it used, and the least limits, if they are known."""
    _, name, numbers, signatures, code = record.text
    functions, limits = batches.verified(*signatures, *code), Limits(*numbers)
    job = profiles.Counted(functions, limits, record.is_second)
    end, line = profiles.end_of(job)
    executed, peak, cells, calls = job.executed, job.peak, job.cells, job.most_calls
    comma = "" if line is None else ","
    lines = [f"{ending(end, line)}{comma} after {executed} instructions", "",
             f"used, by the {'second' if record.is_second else 'first'} rule",
             used_line("instructions", executed, limits.budget), used_line("words", peak, limits.words),
             used_line("cells", cells, limits.cells), used_line("calls", calls, limits.calls)]
    more = least_lines(name, profiles.course(job, end, functions))
    text = "".join(f"{it}\n" for it in [*lines, *(more or [])])
    return found.startswith(text) if more is None else found == text
