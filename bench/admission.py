#!/usr/bin/env python3
"""Times batches in which a job that wants the whole region waits among small ones, by bin/vjobs and another program.

    python3 bench/admission.py [PROGRAM [ARGUMENT ..]]

Run it at the top of the repository, after `make`. Each batch has one job of the whole region and 63 small ones, whose
instructions compute long, and is run by 4 workers. Printed are the least wall seconds of several rounds in which the
programs take turns, and their ratio. A ratio below 1 says that bin/vjobs is faster.
"""
import subprocess
import sys
import time
from collections.abc import Iterator
from pathlib import Path

import workers

TOP = Path(__file__).resolve().parent.parent
RUNS = 5
REGION = 1_048_576
LENGTH = 10_000
# The words of a small job: its numbers, its divisors and a quotient, under their descriptors.
SMALL = 4 * LENGTH


def job(name: str, words: int, rounds: int) -> str:
    text = workers.steps.batch(workers.divisions(LENGTH, rounds), rounds)
    head, _, rest = text.partition("\n")
    fields = head.split()
    return "\n".join([" ".join(["JOB", name, str(words), *fields[3:]]), rest])


def batches() -> Iterator[tuple[str, list[str]]]:
    """The large job second, behind a small one of as many rounds as the others, or of many more; and the large job first."""
    small = [job(f"small{number}", SMALL, 4) for number in range(62)]
    large = job("large", REGION, 4)
    yield "second, all alike", [job("first", SMALL, 4), large, *small]
    yield "second, behind a long one", [job("first", SMALL, 120), large, *small]
    yield "first", [large, job("first", SMALL, 4), *small]


def seconds(program: list[str], text: str) -> tuple[float, bytes]:
    begin = time.perf_counter()
    words = [*program, "--region", str(REGION), "--workers", "4", "-"]
    ran = subprocess.run(words, input=text.encode(), capture_output=True, check=True)
    return time.perf_counter() - begin, ran.stdout


def main() -> None:
    other = sys.argv[1:]
    programs = [[str(TOP / "bin" / "vjobs")], *([other] if other else [])]
    print(f"{'the large job stands':30}" + "".join(f"{Path(program[0]).name:>12}"
                                                   for program in programs) + f"{'ratio':>8}")
    for name, jobs in batches():
        text, least = "".join(jobs), [float("inf")] * len(programs)
        for _ in range(RUNS):
            ran = [seconds(program, text) for program in programs]
            if len({report for _, report in ran}) > 1:
                sys.exit(f"the reports on {name} differ")
            least = [min(old, new) for old, (new, _) in zip(least, ran)]
        ratio = f"{least[0] / least[1]:8.2f}" if other else f"{'-':>8}"
        print(f"{name:30}" + "".join(f"{taken:12.3f}" for taken in least) + ratio, flush=True)


if __name__ == "__main__":
    main()
