#!/usr/bin/env python3
"""Times equal jobs in one batch by 1, 2 and 4 workers, and as a batch each in processes side by side: by bin/vjobs.

    python3 bench/processes.py [--rounds N] [--batches FOLDER]

Run it at the top of the repository, after `make`, on a machine with four free cores. The batches are loads of
bench/steps.py by four jobs, or those of a folder: its files NAME.vcode. For the last column the jobs of a batch are
dealt out to four processes of one worker. Printed are the least wall seconds of all rounds.
"""
import argparse
import re
import subprocess
import tempfile
import time
from collections.abc import Iterator
from dataclasses import replace
from pathlib import Path

import steps
from workers import batches_of, divisions

PROGRAM = Path(__file__).resolve().parent.parent / "bin" / "vjobs"
PROCESSES = 4


def own_batches() -> Iterator[tuple[str, str]]:
    loads = [steps.chain("arithmetic on one word", 4_000), replace(steps.recursion(), rounds=50)]
    loads += [steps.sums(length, rounds) for length, rounds in ((300, 4_000), (3_000, 2_000), (30_000, 400))]
    loads += [steps.scans(30_000, 400), steps.permutations(30_000, 200)]
    loads += [replace(divisions(length, 1_500_000 // length), name=f"divisions of {length} words")
              for length in (3_000, 30_000)]
    for load in loads:
        yield load.name, steps.batch(replace(load, jobs=PROCESSES), load.rounds)


def dealt(text: str, folder: Path) -> Iterator[Path]:
    """Files with the jobs of a batch, dealt out to the processes."""
    jobs = re.split(r"(?m)^(?=JOB )", text)[1:]
    for place in range(PROCESSES):
        path = folder / f"part{place}"
        path.write_text("".join(jobs[place::PROCESSES]), "latin1")
        yield path


def seconds(workers: int, paths: list[Path], program: str = str(PROGRAM)) -> float:
    """Wall seconds of a process for each batch, all at the same time."""
    begin = time.perf_counter()
    running = [subprocess.Popen([program, "--workers", str(workers), path], stdout=subprocess.DEVNULL)
               for path in paths]
    for process in running:
        process.wait()
    return time.perf_counter() - begin


def row(name: str, text: str, rounds: int, folder: Path) -> None:
    whole = folder / "whole"
    whole.write_text(text, "latin1")
    ways = [(1, [whole]), (2, [whole]), (4, [whole]), (1, list(dealt(text, folder)))]
    least = [min(times) for times in zip(*([seconds(*way) for way in ways] for _ in range(rounds)))]
    print(f"{name:30}" + "".join(f"{time:12.2f}" for time in least), flush=True)


def main() -> None:
    options = argparse.ArgumentParser()
    options.add_argument("--rounds", type=int, default=3)
    options.add_argument("--batches")
    chosen = options.parse_args()
    batches = ((name, text) for name, _, text in batches_of(chosen.batches)) if chosen.batches else own_batches()
    print(f"{'load':30}{'1 worker':>12}{'2 workers':>12}{'4 workers':>12}{'4 processes':>12}")
    with tempfile.TemporaryDirectory() as folder:
        for name, text in batches:
            row(name, text, chosen.rounds, Path(folder))


if __name__ == "__main__":
    main()
