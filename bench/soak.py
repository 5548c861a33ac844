#!/usr/bin/env python3
"""Runs batches on 1 to 16 workers or lanes again and again, and stops at the first that answers otherwise.

    python3 bench/soak.py MINUTES [SEED [PROGRAM]]

Run it at the top of the repository, after `make`; PROGRAM stands in the place of bin/vjobs. It takes these batches in
turn: the examples and the program's stored run, whose reports are kept; random batches, whose reports come from
`models/`; mixed ones, of up to 64 jobs with the loads of bench/steps.py, which crowd one region; and turning ones,
whose jobs change between many short steps and some long ones. What the last two should answer is what the program
answers with a schedule, since it has no workers or lanes then. At the end it prints how many runs there were; the
first that differs is printed whole, and ends it with status 1.
"""
import random
import subprocess
import sys
import time
from collections.abc import Iterator
from dataclasses import dataclass, replace
from pathlib import Path

TOP = Path(__file__).resolve().parent.parent
sys.path.insert(0, str(TOP / "models"))

import batches  # noqa: E402
import steps  # noqa: E402
import workers  # noqa: E402
from random_batches import MOST_WORDS, RandomBatches  # noqa: E402

PROGRAM = sys.argv[3] if len(sys.argv) > 3 else str(TOP / "bin" / "vjobs")
MOST_THREADS, MOST_JOBS = 16, 64


@dataclass
class Batch:
    kind: str
    text: bytes
    region: int
    # The report and the exit status.
    answer: tuple


def answered(text: bytes, region: int, options: list[str]) -> tuple[tuple[str, int], bytes]:
    words = [PROGRAM, "--region", str(region), *options, "-"]
    run = subprocess.run(words, input=text, capture_output=True)
    return (run.stdout.decode("latin1"), run.returncode), run.stderr


def kept() -> Iterator[Batch]:
    for path in sorted((TOP / "examples").glob("*.vcode")):
        text = path.read_bytes()
        status = batches.report(text, MOST_WORDS)[1]
        yield Batch(path.stem, text, MOST_WORDS, (path.with_suffix(".report").read_bytes().decode("latin1"), status))
    stored = TOP / "crates" / "vjobs"
    text = (stored / "stdin").read_bytes()
    yield Batch("stored run", text, 64, ((stored / "stdout").read_text("latin1"), batches.report(text, 64)[1]))


def mixed(source: random.Random) -> Batch:
    """Jobs of many kinds, for which the region is large enough together or only for a few at once."""
    count = source.choice([2, 4, 8, 16, MOST_JOBS])
    loads = [load for load in steps.loads() if load.jobs == 1]
    region = source.choice([MOST_WORDS, 700_000])
    share = region // source.choice([1, 2, count])
    text = ""
    for _ in range(count):
        load = source.choice(loads)
        shrunk = replace(load, rounds=max(1, load.rounds // source.choice([500, 2_000, 20_000])))
        text += steps.batch(shrunk, shrunk.rounds).replace(f"JOB t {MOST_WORDS} ", f"JOB t {share} ")
    return alone("mixed", text, region)


def turning(source: random.Random) -> Batch:
    """Jobs whose rounds are a stretch of short steps and one of long divisions, the same length in all jobs or not."""
    count = source.choice([2, 4, 8, 16])
    share, text = MOST_WORDS // count, ""
    for _ in range(count):
        length = source.choice([100, 1_000, min(30_000, share // workers.VECTORS)])
        long = workers.divisions(length, source.choice([1, 4, 20]))
        short = ["CONST INT 1", *steps.chain("", 1).round * source.choice([1, 10]), "POP 1 0"]
        load = replace(long, round=[*short, *long.round], jobs=1)
        text += steps.batch(load, load.rounds).replace(f"JOB t {MOST_WORDS} ", f"JOB t {share} ")
    return alone("turning", text, MOST_WORDS)


def alone(kind: str, text: str, region: int) -> Batch:
    """A batch that is to answer what the calling thread alone answers."""
    data = text.encode()
    answer, _ = answered(data, region, ["--schedule", "1"])
    return Batch(kind, data, region, answer)


def random_batch(jobs: RandomBatches) -> Batch:
    text, region = jobs.whole_batch()
    return Batch("random", text, region, batches.report(text, region))


def differs(batch: Batch, way: str, count: int) -> bool:
    answer, errors = answered(batch.text, batch.region, [f"--{way}", str(count)])
    if answer == batch.answer and not errors:
        return False
    print(f"{batch.kind} differs on {count} {way} and {batch.region} words\n{batch.text.decode('latin1')}")
    print(f"wanted {batch.answer}\ngot    {answer} {errors!r}")
    return True


def main(minutes: str, seed: int | str = 1, *_: str) -> None:
    source = random.Random(int(seed))
    jobs, stored = RandomBatches(source), [*kept()]
    runs: dict[str, int] = {}
    end = time.monotonic() + 60 * float(minutes)
    while time.monotonic() < end:
        for batch in (source.choice(stored), random_batch(jobs), mixed(source), turning(source)):
            counts = source.sample(range(1, MOST_THREADS + 1), 4)
            for way, count in zip(("workers", "lanes") * 2, counts):
                if differs(batch, way, count):
                    sys.exit(1)
                runs[batch.kind] = runs.get(batch.kind, 0) + 1
    print(f"{sum(runs.values())} runs in {minutes} minutes (seed {seed}), none differs: {runs}")


if __name__ == "__main__":
    main(*sys.argv[1:])
