"""Refuses each allocation of a program in turn: it has to say that it is out of memory, or to do what it does else."""
from __future__ import annotations

import os
import re
import shutil
import subprocess
from concurrent.futures import ThreadPoolExecutor
from pathlib import Path
from typing import Any

SHIM = Path(__file__).with_name("refuse.c")
COUNT = re.compile(rb"(\d+) allocations\n\Z")
SECONDS = 60
# The most allocations of a call that are refused. Of more those are taken that lie evenly among them.
MOST = 500


def built(folder: Path) -> Path | None:
    """The library that refuses, built in a folder, or none if there is no C compiler."""
    compiler, library = shutil.which("cc"), folder / "refuse.so"
    if not compiler:
        return None
    subprocess.run([compiler, "-shared", "-fPIC", "-O1", "-o", library, SHIM], check=True)
    return library


def run(library: Path, words: list, **variables: str) -> tuple[int, bytes, bytes]:
    how: dict[str, Any] = {"env": {**os.environ, "LD_PRELOAD": str(library), **variables}, "timeout": SECONDS}
    ran = subprocess.run(words, capture_output=True, check=False, **how)
    return ran.returncode, ran.stdout, ran.stderr


def wrong_calls(library: Path, words: list, text: bytes, side_by_side: bool = True) -> list[str]:
    """What is wrong with a call if one allocation is refused: then it ends with 3 and this text, or as it does else.

    Calls that write the same file can't be made side by side."""
    status, out, errors = run(library, words, COUNTED="1")
    count = int(COUNT.search(errors)[1])
    whole = status, out, COUNT.sub(b"", errors)

    def wrong(number: int) -> list[str]:
        found = run(library, words, REFUSED=str(number))
        is_told = found[0] == 3 and found[2] == text and out.startswith(found[1])
        return [] if is_told or found == whole else [f"{words}, allocation {number}: exit {found[0]}, {found[2][-200:]!r}"]

    places = sorted({1 + place * count // MOST for place in range(MOST)} if count > MOST else range(1, count + 1))
    with ThreadPoolExecutor(os.cpu_count() if side_by_side else 1) as workers:
        return [fault for faults in workers.map(wrong, places) for fault in faults]
