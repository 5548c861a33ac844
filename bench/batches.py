#!/usr/bin/env python3
"""Times the batches of folders: by bin/vjobs, and beside it by other programs.

    python3 bench/batches.py [--rounds N] [--program FILE] FOLDER .. -- OTHER [ARGUMENT ..] [-- OTHER ..]

Run it at the top of the repository, after `make`; FILE stands in the place of bin/vjobs. The batches are the files
NAME.vcode of the folders, with the options in NAME.args where that file is. Each OTHER has the same command line and
prints the same reports. In each round each batch is run by each program in turn, so that other work on the machine
falls on all of them; bin/vjobs runs it by the schedule `1`, without a worker, and by its default. Printed are the least
processor seconds by the schedule, the ratio of those by default to them, and their ratio to those of each OTHER; below
them the geometric means.
"""
import argparse
import math
import sys
from pathlib import Path

from workers import TOP, batches_of, run

# What the program is given beside a batch's own options.
ALONE, DEFAULT = ["--schedule", "1"], list[str]()


def programs(words: list[str]) -> list[list[str]]:
    """The command lines that stand between the words `--`."""
    ends = [at for at, word in enumerate(words) if word == "--"] + [len(words)]
    return [words[begin + 1 : end] for begin, end in zip(ends, ends[1:]) if begin + 1 < end]


def least_times(ways: list[list[str]], options: list[str], path: Path, rounds: int) -> list[float]:
    """The least processor seconds in each way of running a batch. All print the same."""
    least, answers = [math.inf] * len(ways), set()
    for _ in range(rounds):
        for place, way in enumerate(ways):
            _, processor, answer = run([*way, *options, path])
            least[place] = min(least[place], processor)
            answers.add(answer)
    if len(answers) > 1:
        sys.exit(f"the reports on {path} differ")
    return least


def main() -> None:
    own = sys.argv[1:]
    others = programs(own)
    parser = argparse.ArgumentParser()
    parser.add_argument("--rounds", type=int, default=5)
    parser.add_argument("--program", default=str(TOP / "bin" / "vjobs"))
    parser.add_argument("folders", nargs="+", type=Path)
    given = parser.parse_args(own[: own.index("--")] if "--" in own else own)
    ways = [[given.program, *ALONE], [given.program, *DEFAULT], *others]
    heads = "".join(f"{f'to {place}':>8}" for place in range(1, len(others) + 1))
    print(f"{'batch':20}{'seconds':>9}{'default':>9}{heads}")
    sums: list[float] = [0.0] * (len(ways) - 1)
    found = [(folder, *batch) for folder in given.folders for batch in batches_of(str(folder))]
    for folder, name, options, _ in found:
        alone, default, *rest = least_times(ways, options, folder / f"{name}.vcode", given.rounds)
        ratios = [default / alone, *(alone / other for other in rest)]
        sums = [total + math.log(ratio) for total, ratio in zip(sums, ratios)]
        cells = "".join(f"{ratio:8.2f}" for ratio in ratios[1:])
        print(f"{name:20}{alone:9.3f}{ratios[0]:9.2f}{cells}", flush=True)
    means = [math.exp(total / len(found)) for total in sums]
    print(f"{'mean':20}{'':9}{means[0]:9.2f}" + "".join(f"{mean:8.2f}" for mean in means[1:]))


if __name__ == "__main__":
    main()
