#!/usr/bin/env python3
"""Times batches by workers, beside the calling thread alone: by bin/vjobs.

    python3 bench/workers.py [--rounds N] [--minutes M] [--workers N ..] [--scale X] [--batches FOLDER ..] [--own]
                             [--program PROGRAM]

Run it at the top of the repository, after `make`, on a machine with four free cores. The batches have equal jobs that
repeat one instruction: each combination of instruction, length of the vectors and number of jobs. Or they are those of
folders: the files NAME.vcode, with the options in NAME.args where that file is; with --own, both. A run with the
schedule `1` has no workers, and is the calling thread alone. In each round each batch is run by the calling thread and
by each number of workers in turn, so that other work on the machine falls on all of them. After M minutes no further
round begins. Printed are the least wall seconds of the calling thread and its least processor seconds, and for each
number of workers the ratio of its least times to these; below them the greatest ratio of each number of workers, and
the most memory of one job of 1,048,576 words that executes one RET. All runs of a batch must print the same.
"""
import argparse
import os
import subprocess
import sys
import tempfile
import time
from collections.abc import Iterator
from dataclasses import dataclass, replace
from pathlib import Path

import memory
import steps

TOP = Path(__file__).resolve().parent.parent
WORKERS = (1, 2, 4)
LENGTHS, JOBS = (100, 1_000, 3_000, 10_000, 30_000), (1, 4, 16)
# The number of vectors that each job has room for.
VECTORS = 6


@dataclass
class Times:
    wall: float = float("inf")
    processor: float = float("inf")

    def least(self, wall: float, processor: float) -> None:
        self.wall, self.processor = min(self.wall, wall), min(self.processor, processor)


def divisions(length: int, rounds: int) -> steps.Load:
    """Each divides the numbers by a vector of sevens."""
    divide = ["COPY 1 0", "CONST INT 7", f"CONST INT {length}", "MAKE_SEGDES", "DIST INT", "/ INT", "POP 1 0"]
    return steps.Load("divisions", rounds, "INT SEGDES", steps.numbers(length, 3), 2,
                      ["CPOP 1 1", *divide * 10, "CPOP 1 1"])


# What is repeated, and the words that its results have in all jobs of a batch together.
INSTRUCTIONS = {
    "+": (steps.sums, 400_000_000),
    "/": (divisions, 200_000_000),
    "PERMUTE": (steps.permutations, 200_000_000),
}


def own_batches(scale: float) -> Iterator[tuple[str, list[str], str]]:
    for sign, (load, words) in INSTRUCTIONS.items():
        for length in LENGTHS:
            for jobs in JOBS:
                if VECTORS * length <= steps.WORDS // jobs:
                    rounds = max(1, int(scale * words / (10 * length * jobs)))
                    yield f"{sign:8} {length:7} {jobs:5}", [], steps.batch(replace(load(length, rounds), jobs=jobs), rounds)


def batches_of(folder: str) -> Iterator[tuple[str, list[str], str]]:
    for path in sorted(Path(folder).glob("*.vcode")):
        options = path.with_suffix(".args")
        yield path.stem, options.read_text().split() if options.exists() else [], path.read_text("latin1")


def run(words: list) -> tuple[float, float, tuple[bytes, int]]:
    """Wall seconds, processor seconds, and what was printed, with the exit status."""
    with tempfile.TemporaryFile() as report:
        begin = time.perf_counter()
        running = subprocess.Popen(words, stdin=subprocess.DEVNULL, stdout=report, stderr=subprocess.DEVNULL)
        _, status, used = os.wait4(running.pid, 0)
        wall = time.perf_counter() - begin
        running.returncode = os.waitstatus_to_exitcode(status)
        report.seek(0)
        return wall, used.ru_utime + used.ru_stime, (report.read(), running.returncode)


class Measured:
    """A batch, with its times by the calling thread alone and by each number of workers, and what its runs printed."""

    def __init__(self, name: str, options: list[str], path: Path, ways: list[list[str]]) -> None:
        self.name, self.options, self.path = name, options, path
        self.times = [Times() for _ in ways]
        self.answers: set[tuple[bytes, int]] = set()

    def run_round(self, program: str, ways: list[list[str]], turn: int) -> None:
        """Runs the batch once in each way; the first of them is another one in each round."""
        for step in range(len(ways)):
            place = (step + turn) % len(ways)
            wall, processor, answer = run([program, *self.options, *ways[place], self.path])
            self.times[place].least(wall, processor)
            self.answers.add(answer)
        if len(self.answers) > 1:
            sys.exit(f"the reports on {self.name} differ")

    def ratios(self) -> list[tuple[float, float]]:
        alone, *workers = self.times
        return [(time.wall / alone.wall, time.processor / alone.processor) for time in workers]

    def row(self) -> str:
        cells = "".join(f"{wall:9.2f}{processor:6.2f}" for wall, processor in self.ratios())
        return f"{self.name:22}{self.times[0].wall:8.3f}{self.times[0].processor:8.3f}{cells}"


def measure(batches: list[Measured], given: argparse.Namespace, ways: list[list[str]]) -> int:
    """Runs all batches in each round, and answers how many rounds there were."""
    end = time.monotonic() + 60 * given.minutes
    for turn in range(given.rounds):
        if turn and time.monotonic() > end:
            return turn
        for batch in batches:
            batch.run_round(given.program, ways, turn)
    return given.rounds


def print_table(batches: list[Measured], workers: list[int], rounds: int) -> None:
    print(f"least of {rounds} rounds")
    print(f"{'batch':22}{'wall':>8}{'cpu':>8}" + "".join(f"{f'wall {count}':>9}{'cpu':>6}" for count in workers))
    for batch in batches:
        print(batch.row())
    for place, count in enumerate(workers):
        greatest = max(batches, key=lambda batch: batch.ratios()[place])
        print(f"greatest wall by {count} workers: {greatest.ratios()[place][0]:.2f}, {greatest.name}")


def print_memory(program: str, workers: list[int]) -> None:
    most = (f"{memory.most_megabytes(memory.job(0, []), count, program=program):.1f} by {count}" for count in workers)
    print(f"megabytes of one RET: {', '.join(most)} workers")


def arguments() -> argparse.Namespace:
    parser = argparse.ArgumentParser()
    parser.add_argument("--rounds", type=int, default=5)
    parser.add_argument("--minutes", type=float, default=60)
    parser.add_argument("--workers", type=int, nargs="+", default=WORKERS)
    parser.add_argument("--scale", type=float, default=1)
    parser.add_argument("--batches", nargs="+", default=[])
    parser.add_argument("--own", action="store_true")
    parser.add_argument("--program", default=str(TOP / "bin" / "vjobs"))
    return parser.parse_args()


def main() -> None:
    given = arguments()
    ways = [["--schedule", "1"], *(["--workers", str(count)] for count in given.workers)]
    found = [batch for folder in given.batches for batch in batches_of(folder)]
    if given.own or not given.batches:
        found += own_batches(given.scale)
    with tempfile.TemporaryDirectory() as folder:
        batches = []
        for place, (name, options, text) in enumerate(found):
            path = Path(folder) / f"{place}.vcode"
            path.write_text(text, "latin1")
            batches.append(Measured(name, options, path, ways))
        rounds = measure(batches, given, ways)
    print_table(batches, given.workers, rounds)
    print_memory(given.program, given.workers)


if __name__ == "__main__":
    main()
