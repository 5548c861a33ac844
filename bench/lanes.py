#!/usr/bin/env python3
"""Times batches on 2 and 4 lanes, beside one lane: by bin/vjobs.

    python3 bench/lanes.py [--rounds N] [--lanes K ..] [--batches FOLDER ..] [--program PROGRAM]

Run it at the top of the repository, after `make`, on a machine with four free cores. The batches are loads of
bench/steps.py, and the first job of each file NAME.vcode of the folders, 64 times. In each round each batch is run on
each number of lanes in turn, and by the four processes of bench/processes.py. Printed are the least wall seconds on one
lane, and for each other number of lanes how many times as fast the batch was, by the least wall seconds, with the ratio
of its least processor seconds to those on one lane. The last column is how many times as fast the processes were: what
the machine's cores give, if the jobs are equal. All runs of a batch must print the same.
"""
import argparse
import re
import tempfile
from collections.abc import Iterator
from dataclasses import replace
from pathlib import Path

import steps
from processes import dealt, seconds
from workers import TOP, Measured, divisions

MOST_JOBS = 64
# How many times as long a long job takes as a short one, so that a fourth of all work is in it.
LONG = 21


def job(load: steps.Load, words: int = 0) -> str:
    """One job of a load, with the budget that its rounds come to, and these words if the load's own are too many."""
    budget = 1_000 + load.rounds * 2 * (len(load.round) + 2)
    own = words or steps.WORDS // load.jobs
    head = f"JOB t {own} {steps.CELLS} 1024 {budget}"
    return re.sub(r"\AJOB .*", head, steps.batch(replace(load, jobs=1), load.rounds))


def own_batches() -> Iterator[tuple[str, str]]:
    short, long = (job(replace(steps.chain("", 1_000 * times), jobs=MOST_JOBS)) for times in (1, LONG))
    yield "64 short jobs", short * MOST_JOBS
    yield "64 jobs of 0.7 ms", job(replace(steps.chain("", 100), jobs=MOST_JOBS)) * MOST_JOBS
    yield "64 jobs of all words", job(steps.chain("", 100), steps.WORDS) * MOST_JOBS
    yield "one long, then 63 short", long + short * (MOST_JOBS - 1)
    yield "63 short, then one long", short * (MOST_JOBS - 1) + long
    yield "4 equal jobs", job(steps.chain("", 40_000)) * 4
    yield "4 PERMUTE, 30,000 words", job(replace(steps.permutations(30_000, 600), jobs=4)) * 4
    yield "4 /, 30,000 words", job(replace(divisions(30_000, 150), jobs=4)) * 4


def repeated(folder: str) -> Iterator[tuple[str, str]]:
    for path in sorted(Path(folder).glob("*.vcode")):
        first = re.split(r"(?m)^(?=JOB )", path.read_text("latin1"))[1]
        yield f"64 of {path.stem}", first * MOST_JOBS


def main() -> None:
    parser = argparse.ArgumentParser()
    parser.add_argument("--rounds", type=int, default=5)
    parser.add_argument("--lanes", type=int, nargs="+", default=(2, 4))
    parser.add_argument("--batches", nargs="+", default=[])
    parser.add_argument("--program", default=str(TOP / "bin" / "vjobs"))
    given = parser.parse_args()
    ways = [["--workers", "1"], *(["--lanes", str(count)] for count in given.lanes)]
    heads = "".join(f"{f'{count} lanes':>10}{'cpu':>6}" for count in given.lanes)
    print(f"{'batch':26}{'1 lane':>8}{heads}{'4 processes':>13}")
    with tempfile.TemporaryDirectory() as folder:
        path = Path(folder) / "batch.vcode"
        for name, text in (*own_batches(), *(batch for it in given.batches for batch in repeated(it))):
            path.write_text(text, "latin1")
            batch, least = Measured(name, [], path, ways), float("inf")
            parts = list(dealt(text, Path(folder)))
            for turn in range(given.rounds):
                batch.run_round(given.program, ways, turn)
                least = min(least, seconds(1, parts, given.program))
            one = batch.times[0].wall
            cells = "".join(f"{1 / wall:10.2f}{processor:6.2f}" for wall, processor in batch.ratios())
            print(f"{name:26}{one:8.3f}{cells}{one / least:13.2f}", flush=True)


if __name__ == "__main__":
    main()
