#!/usr/bin/env python3
"""Times the steps of jobs: by bin/vjobs, and beside it by another program of the same command line and reports.

    python3 bench/steps.py [PROGRAM [ARGUMENT ..]]

Run it at the top of the repository, after `make`. The programs take each load in turn, several times, with all rounds
and with none. The least processor times count, and that of no rounds, which is starting and reading, is taken off. Both
programs must print the same on a load that they take; where one refuses it, or the option that it comes with, its
column has a `-`. A ratio below 1 says that bin/vjobs is faster.
"""
import os
import subprocess
import sys
import tempfile
from collections.abc import Iterable, Iterator
from dataclasses import dataclass, field
from pathlib import Path

TOP = Path(__file__).resolve().parent.parent
RUNS = 5
WORDS, CELLS = 1_048_576, 4_096


@dataclass
class Load:
    """A function `round` that is called again and again."""

    name: str
    rounds: int
    # The kinds that `round` takes and leaves.
    kinds: str
    # What MAIN does before, and how many entries stand there afterwards.
    begin: list
    entries: int
    round: list
    # Other functions: a signature's line, and the code.
    functions: list = field(default_factory=list)
    jobs: int = 1
    options: list = field(default_factory=list)
    # The words that the vector instructions of a round make, where these are what is timed.
    words: int = 0


def times(rounds: int) -> tuple[list[tuple[str, list[str]]], list[str]]:
    """Functions that call the one below them ten times, and the calls that come to these rounds."""
    name, functions, calls = "round", [], []
    while rounds:
        calls += [f"CALL {name}"] * (rounds % 10)
        rounds //= 10
        above = f"{name}_by_ten"
        functions.append((above, [f"CALL {name}"] * 10))
        name = above
    return functions, calls


def batch(load: Load, rounds: int) -> str:
    """With no rounds the text has the same functions, so that reading it takes as long."""
    functions, calls = times(load.rounds)
    rounds_of_kinds = [(f"{name} ({load.kinds}) -> ({load.kinds})", code)
                       for name, code in [("round", load.round), *functions]]
    main = [*load.begin, *(calls if rounds else []), f"POP {load.entries} 0"]
    lines = [f"JOB t {WORDS // load.jobs} {CELLS} 1024 1000000000", "SIGNATURES"]
    every = [("MAIN () -> ()", main), *rounds_of_kinds, *load.functions]
    lines += [line for line, _ in every] + ["CODE"]
    for line, code in every:
        lines += [f"FUNC {line.split()[0]}", *code, "RET"]
    return "\n".join([*lines, "END", ""]) * load.jobs


def numbers(count: int, stride: int) -> list[str]:
    """An arithmetic progression on the stack, under its descriptor."""
    return ["CONST INT 0", f"CONST INT {stride}", f"CONST INT {count}", "MAKE_SEGDES", "COPY 1 0", "CPOP 3 1", "INDEX",
            "CPOP 1 1"]


def chain(name: str, rounds: int, jobs: int = 1, options: Iterable[str] = ()) -> Load:
    """One word, by 100 instructions."""
    step = ["CONST INT 7", "* INT", "CONST INT 3", "+ INT"]
    return Load(name, rounds, "INT", ["CONST INT 1"], 1, step * 25, jobs=jobs, options=[*options])


def recursion() -> Load:
    down = ["COPY 1 0", "CONST INT 0", "> INT", "IF", "CONST INT 1", "- INT", "CALL down", "ENDIF", "RET"]
    return Load("calls, IF, RET", 500, "", ["CONST INT 1"], 1, ["CONST INT 900", "CALL down", "POP 1 0"],
                [("down (INT) -> (INT)", down[:-1])])


def deep_stack() -> Load:
    """Stack motions over 4,000 entries, which are copies of one vector."""
    fill = ["CONST INT 1", *(f"COPY {2**power} 0" for power in range(11)), "COPY 1952 0"]
    return Load("COPY, POP at 4,000 entries", 40_000, "INT", fill, 4_000, ["COPY 1 0", "POP 1 0"] * 50)


def moved_entries() -> Load:
    fill = ["CONST INT 1", *(f"COPY {2**power} 0" for power in range(11))]
    kinds = " ".join(["INT"] * 100)
    return Load("COPY, POP of 100 entries", 4_000, kinds, fill, 2_048, ["COPY 100 0", "POP 100 0"] * 50)


def sums(length: int, rounds: int) -> Load:
    body = ["CPOP 1 1", *["COPY 1 0", "+ INT"] * 10, "CPOP 1 1"]
    return Load(f"sums of {length} words", rounds, "INT SEGDES", numbers(length, 3), 2, body, words=10 * length)


def scans(length: int, rounds: int) -> Load:
    body = ["COPY 1 0", "CPOP 2 1", "+_SCAN INT", "CPOP 1 1"] * 10
    return Load(f"scans of {length} words", rounds, "INT SEGDES", numbers(length, 3), 2, body, words=10 * length)


def permutations(length: int, rounds: int) -> Load:
    """Each permutation reverses a vector."""
    reverse = [*numbers(length, -1), "CPOP 1 1", f"CONST INT {length - 1}", "COPY 1 2", "DIST INT", "+ INT", "CPOP 1 1"]
    body = ["CPOP 1 2", "COPY 2 1", "PERMUTE INT", "CPOP 2 1"] * 10
    return Load(f"permutations of {length} words", rounds, "INT INT SEGDES",
                ["CONST INT 5", f"CONST INT {length}", "MAKE_SEGDES", "DIST INT", *reverse], 3, body, words=10 * length)


def loads() -> Iterator[Load]:
    by_turns = ",".join(str(job) for _ in range(600) for job in range(1, 65))
    yield chain("chain of one word", 40_000)
    yield recursion()
    yield deep_stack()
    yield moved_entries()
    for make in (sums, scans, permutations):
        for length in (100, 10_000, 100_000):
            yield make(length, 20_000_000 // length)
    yield chain("64 chains", 600, jobs=64)
    yield chain("64 chains, scheduled", 6, jobs=64, options=["--schedule", by_turns])


def run(program: list[str], load: Load, text: str) -> tuple[float, bytes | None]:
    """The processor seconds of a run, and the report where each job returned."""
    with tempfile.TemporaryFile() as report, tempfile.NamedTemporaryFile("w") as file:
        file.write(text)
        file.flush()
        words = [*program, *load.options, file.name]
        running = subprocess.Popen(words, stdin=subprocess.DEVNULL, stdout=report, stderr=subprocess.DEVNULL)
        _, status, used = os.wait4(running.pid, 0)
        running.returncode = os.waitstatus_to_exitcode(status)
        report.seek(0)
        return used.ru_utime + used.ru_stime, report.read() if running.returncode == 0 else None


def executed(report: bytes) -> int:
    return sum(int(line.split()[1]) for line in report.decode().splitlines() if line.startswith("USED"))


def measured(programs: list[list[str]], load: Load) -> dict[int, tuple[float, int]]:
    """For each program that takes the load its seconds and the instructions of all rounds."""
    least: dict[tuple[int, int], float] = {}
    reports: dict[tuple[int, int], bytes | None] = {}
    for _ in range(RUNS):
        for rounds in (load.rounds, 0):
            text = batch(load, rounds)
            for place, program in enumerate(programs):
                seconds, reports[place, rounds] = run(program, load, text)
                least[place, rounds] = min(seconds, least.get((place, rounds), seconds))
    taken = [place for place in range(len(programs)) if reports[place, 0] and reports[place, load.rounds]]
    for rounds in (load.rounds, 0):
        if len({reports[place, rounds] for place in taken}) > 1:
            sys.exit(f"the reports on {load.name} differ")
    return {place: (least[place, load.rounds] - least[place, 0],
                    executed(reports[place, load.rounds]) - executed(reports[place, 0])) for place in taken}


def row(programs: list[list[str]], load: Load) -> None:
    found = measured(programs, load)
    cells = []
    for place in range(len(programs)):
        seconds, instructions = found.get(place, (None, 0))
        if seconds is None:
            cells.append(f"{'-':>12}")
        elif load.words:
            cells.append(f"{load.words * load.rounds / seconds / 1e6:12.0f}")
        else:
            cells.append(f"{seconds / instructions * 1e9:12.1f}")
    ratio = f"{found[0][0] / found[1][0]:8.2f}" if {0, 1} <= found.keys() else f"{'-':>8}"
    unit = "million words/s" if load.words else "ns/instruction"
    print(f"{load.name:30} {unit:16}{''.join(cells)}{ratio}", flush=True)


def main() -> None:
    other = sys.argv[1:]
    programs = [[str(TOP / "bin" / "vjobs")], *([other] if other else [])]
    names = "".join(f"{Path(program[0]).name:>12}" for program in programs)
    print(f"{'load':30} {'':16}{names}{'ratio':>8}")
    for load in loads():
        row(programs, load)


if __name__ == "__main__":
    main()
