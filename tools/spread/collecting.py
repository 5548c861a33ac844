"""What tasks published becomes reports and ends: each report is cut by the places of its jobs, by vjobs-split."""
from __future__ import annotations

import builtins
import json
import os
import re
import shutil
import subprocess
from dataclasses import dataclass
from pathlib import Path

from .folder import Folder, Settings, Stopped

ANSWERED, LEFT_OUT, TIME, MEMORY, OUTPUT, LOST = "ANSWERED", "LEFT_OUT", "TIME", "MEMORY", "OUTPUT", "LOST"
NOT_RUN = "NOT_RUN"
ENDS = (ANSWERED, LEFT_OUT, TIME, MEMORY, OUTPUT, LOST, NOT_RUN)
# What vjobs-split says of a report that breaks off or is none of its batch.
OF_REPORT = b"vjobs-split: the report "
# How much of a report's end, and of the texts of errors, is read.
TAIL = 4096


@dataclass(frozen=True)
class Ending:
    """How a file ended: one of ENDS, the exit of vjobs, the seconds of its process, and the node."""

    end: str
    exit: str = ""
    seconds: str = ""
    node: str = ""


@dataclass(frozen=True)
class Published:
    """What one attempt at a batch published."""

    folder: Path
    exit: int
    seconds: float
    bytes: int
    node: str
    lane: int

    @property
    def report(self) -> Path:
        """The report of the batch."""
        return self.folder / "report"

    def errors(self) -> builtins.bytes:
        """What vjobs wrote to standard error."""
        try:
            with open(self.folder / "errors", "rb") as file:
                return file.read(TAIL)
        except FileNotFoundError:
            return b""

    def ending(self, end: str) -> Ending:
        """An end by this attempt."""
        return Ending(end, str(self.exit), f"{self.seconds:.3f}", self.node)


def published_in(folder: Path) -> Published | None:
    """What an attempt published; nothing if it isn't whole, as after a crash of its machine."""
    try:
        return Published(folder, **json.loads((folder / "result.json").read_text("utf-8")))
    except (OSError, ValueError, TypeError):
        return None


def last_line(path: Path) -> bytes:
    """The last line of a file, with its LF."""
    with open(path, "rb") as file:
        file.seek(max(0, os.fstat(file.fileno()).st_size - TAIL))
        return file.read().removesuffix(b"\n").rpartition(b"\n")[2] + b"\n"


def is_whole(report: Path, jobs: int) -> bool:
    """Whether a report is there to its last line, as one of so many jobs. One that a crash of its machine cut isn't."""
    try:
        found = re.fullmatch(rb"END (\d+) jobs \d+ refused\n", last_line(report))
    except FileNotFoundError:
        return False
    return found is not None and int(found[1]) == jobs


def end_of(it: Published, jobs: int, settings: Settings) -> str:
    """The end that an attempt gives the jobs of its batch, or nothing if it says nothing about them."""
    if it.exit in (0, 1):
        return ANSWERED if is_whole(it.report, jobs) else ""
    if it.exit == 2:
        raise Stopped(f"vjobs refused a batch, so the packing was wrong: what it wrote is kept in {it.folder}")
    # 124 is from timeout; 137 is too, if the process didn't end at the first signal.
    if it.exit == 124 or it.exit == 137 and it.seconds >= settings.time:
        return TIME
    if it.exit == 3 and b"out of memory" in it.errors():
        return MEMORY
    # 153 is the signal at the limit of a file's length. If it is ignored, the write fails at the limit.
    if it.exit == 153 or it.exit == 3 and it.bytes >= settings.output:
        return OUTPUT
    return ""


def exit_of(report: Path) -> str:
    """What vjobs exits with for a report of one job."""
    with open(report, "rb") as file:
        words = file.readline().split()
    return "0" if words[3:] == [b"RETURNED"] else "1"


class Collector:
    """Cuts reports, and gives each file the first that is there."""

    def __init__(self, folder: Folder, settings: Settings, split: Path):
        self.folder, self.settings, self.split = folder, settings, split

    def ending(self, it: Published, manifest: Path, files: list[int]) -> str:
        """The end of a batch, with the reports of its files if they are answered."""
        end = end_of(it, len(files), self.settings)
        if end == ANSWERED and not all(is_whole(self.folder.report(number), 1) for number in files):
            end = ANSWERED if self._cut(it, manifest, files) else ""
        return end

    def _cut(self, it: Published, manifest: Path, files: list[int]) -> bool:
        """Cuts a report. Each file's part is there whole or not at all, and stays if it is there already."""
        room = self.folder.path / "cut"
        shutil.rmtree(room, ignore_errors=True)
        with open(it.report, "rb") as report:
            words = [str(self.split), "--out", room.name, os.path.relpath(manifest, self.folder.path)]
            ran = subprocess.run(words, cwd=self.folder.path, stdin=report, capture_output=True, check=False)
        if ran.returncode == 1 and all(line.startswith(OF_REPORT) for line in ran.stderr.splitlines()):
            return False
        if ran.returncode:
            raise Stopped(f"vjobs-split ended with {ran.returncode}: {ran.stderr.decode(errors='replace').strip()}")
        for place, number in enumerate(files, 1):
            if not is_whole(self.folder.report(number), 1):
                (room / f"{place}.report").rename(self.folder.report(number))
        return True
