"""The table of a run, and its summary."""
from __future__ import annotations

from collections import Counter

from .collecting import ANSWERED, ENDS, NOT_RUN, Ending
from .folder import Folder, shown, write_whole
from .packing import LeftOut

COLUMNS = ("file", "end", "exit", "seconds", "node", "report")


def row(folder: Folder, number: int, ending: Ending) -> str:
    """The line of a file."""
    report = str(folder.report(number).relative_to(folder.path)) if ending.end == ANSWERED else ""
    cells = (shown(folder.files[number - 1]), ending.end, ending.exit, ending.seconds, ending.node, report)
    return "\t".join(cells) + "\n"


def write_table(folder: Folder, endings: dict[int, Ending], left_out: dict[int, LeftOut]) -> None:
    """Writes DIR/table.tsv, with a line for each file, and DIR/left-out.tsv with the reasons of those left out."""
    rows = [row(folder, number, endings.get(number, Ending(NOT_RUN))) for number in range(1, len(folder.files) + 1)]
    write_whole(folder.path / "table.tsv", "".join(["\t".join(COLUMNS) + "\n", *rows]).encode())
    reasons = [
        f"{shown(folder.files[number - 1])}\t{why.line}\t{shown(why.reason.encode())}\n"
        for number, why in sorted(left_out.items())
    ]
    write_whole(folder.path / "left-out.tsv", "".join(["file\tline\treason\n", *reasons]).encode())


def summary(folder: Folder, endings: dict[int, Ending]) -> str:
    """A line for each end that occurred, with how often it did."""
    counts = Counter(endings[n].end if n in endings else NOT_RUN for n in range(1, len(folder.files) + 1))
    return "".join(f"{end} {counts[end]}\n" for end in ENDS if counts[end])
