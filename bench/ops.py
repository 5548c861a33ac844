#!/usr/bin/env python3
"""Times the vector and segment instructions beside the same loops in plain C, on this machine in this run.

Run it at the top of the repository. It builds crates/bench_ops (proving it and the crates below, unless that was done)
and bench/plain_ops.c, lets the two run in turn, and prints nanoseconds an element of each, the least of all rounds, and
their ratio. Vectors have 1, 100, 1,000 and 30,000 words. Flags and orders of indices are new in each round, so that no
processor has learned them. A time contains one reading of the clock, some 25 nanoseconds; over one word an instruction
is filled a thousand times between two readings.

With --new and --old it compares builds of bench_ops instead, and prints the largest ratios first. Each of the two is
one build or several of the same code, whose least time counts. A loop may take a fifth more only because it lies
elsewhere in memory, so builds in several layouts (.ci/fast --layout) say more than one.
"""
import argparse
import pathlib
import subprocess
import tempfile

TOP = pathlib.Path(__file__).resolve().parent.parent
# Picoseconds an element, by what the vectors are and the name of an instruction.
Times = dict[tuple[str, str], int]
# How often each of the two programs runs.
TURNS = 3


def least_times(rows: Times, lines: list[str]) -> None:
    """Each instruction's least picoseconds an element, by what its vectors are and its name."""
    shape = ""
    for line in lines:
        name, tab, number = line.partition("\t")
        if tab:
            rows[shape, name] = min(int(number), rows.get((shape, name), int(number)))
        else:
            shape = name


def run_in_turn(*builds: list[list[str]]) -> list[Times]:
    """The least times of each of these lists of commands."""
    times: list[Times] = [{} for _ in builds]
    for _ in range(TURNS):
        for rows, commands in zip(times, builds):
            for command in commands:
                told = subprocess.run(command, check=True, capture_output=True, text=True).stdout
                least_times(rows, told.splitlines())
    return times


def beside_plain_c() -> list[Times]:
    """The least times of the proved build, and those of plain C."""
    crate = TOP / "crates" / "bench_ops"
    subprocess.run(["rt", "run"], cwd=crate, check=True, stdout=subprocess.DEVNULL)
    with tempfile.TemporaryDirectory() as room:
        plain = f"{room}/plain_ops"
        subprocess.run(["cc", "-O3", "-o", plain, str(TOP / "bench" / "plain_ops.c")], check=True)
        return run_in_turn([[str(crate / "out" / "bench_ops"), "time"]], [[plain]])


def print_rows(ours: Times, theirs: Times, other: str, is_worst_first: bool) -> None:
    """Prints a line for each instruction that both have."""
    # One element of 30,000 takes no time that shows.
    rows = [(ours[it] / theirs[it], it) for it in ours if theirs.get(it, 0) > 0]
    if is_worst_first:
        rows.sort(reverse=True)
    print(f"{'nanoseconds an element':56} {'vjobs':>8} {other:>8} {'ratio':>6}")
    for ratio, (shape, name) in rows:
        row = ours[shape, name] / 1000, theirs[shape, name] / 1000
        print(f"{shape + ': ' + name:56} {row[0]:8.3f} {row[1]:8.3f} {ratio:6.2f}")


def main() -> None:
    asks = argparse.ArgumentParser(description=__doc__.partition("\n")[0])
    asks.add_argument("--new", nargs="+", metavar="FILE", help="builds of bench_ops, in several layouts")
    asks.add_argument("--old", nargs="+", metavar="FILE", help="the builds to compare them with")
    asked = asks.parse_args()
    if bool(asked.new) != bool(asked.old):
        asks.error("--new and --old go together")
    if asked.new:
        builds = ([[str(pathlib.Path(it).resolve()), "time"] for it in files] for files in (asked.new, asked.old))
        ours, theirs = run_in_turn(*builds)
        print_rows(ours, theirs, "old", True)
    else:
        ours, theirs = beside_plain_c()
        print_rows(ours, theirs, "plain C", False)


if __name__ == "__main__":
    main()
