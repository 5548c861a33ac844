#!/usr/bin/env python3
"""Counts what the holes of one job cost another: python3 bench/fragments.py [PROGRAM]

One job holds nearly the whole region in 1,000 blocks. By a schedule it leaves holes far apart, again and again, so that
a vector of the other job, of 64 words, fits only after nearly all words of the region have moved. The same two jobs run
with room at the end of the region, where nothing moves. `valgrind` counts the instructions of the processor.

In a third job a block slides in each round, above many small blocks that stay or above one long block. A slide costs
the same above both."""
import re
import subprocess
import sys
import tempfile
import time
from pathlib import Path

TOP = Path(__file__).resolve().parent.parent
PROGRAM = sys.argv[1] if sys.argv[1:] else str(TOP / "bin" / "vjobs")
REGION, ROUNDS, LENGTH, SHORT, WIDE = 1_048_576, 100, 1_037, 32, 64
BELOW, SLIDES = 3_900, 1_000
# What makes room by slides, with all that it calls.
MAKE_ROOM = "--toggle-collect=*SlidingPacking*make_room*"


def vector(length: int) -> list[str]:
    """A vector of so many words."""
    return ["CONST INT 3", f"CONST INT {length}", "MAKE_SEGDES", "DIST INT"]


def another(depth: int) -> list[str]:
    """A new block as long as that of the entry at this depth."""
    return [f"COPY 1 {depth}", "NOT INT"]


def job(name: str, words: int, cells: int, code: list[str]) -> str:
    head = [f"JOB {name} {words} {cells} 4 1000000", "SIGNATURES", "MAIN () -> ()", "CODE", "FUNC MAIN"]
    lines = [*head, *code, "RET", "END"]
    return "".join(f"{line}\n" for line in lines)


def holder(blocks: int) -> tuple[list[str], int]:
    """A job of so many blocks, and its steps before the rounds and in each."""
    begin = [*vector(LENGTH - SHORT), *vector(SHORT), *vector(LENGTH)]
    for _ in range(blocks - 1):
        begin += another(0)
    code, above = list(begin), blocks
    for _ in range(ROUNDS):
        # The lowest block goes; a shorter one takes its place, and what the shorter one lacks goes elsewhere.
        code += [f"CPOP 1 {above - 1}", "POP 1 0", *another(above), *another(above)]
        above += 1
    return [*code, *["POP 1 0"] * (above + 2)], len(begin)


def other() -> tuple[list[str], int]:
    """The other job, and its steps before the rounds."""
    begin = [*vector(SHORT), *vector(WIDE)]
    short_lived = [*another(1), "POP 1 0", *another(0), "POP 1 0"]
    return [*begin, *short_lived * ROUNDS, "POP 2 0"], len(begin)


def batch(blocks: int) -> tuple[str, str]:
    """Both jobs, and the schedule of their turns."""
    (first, first_begin), (second, second_begin) = holder(blocks), other()
    words = SHORT + WIDE + WIDE
    text = job("holder", REGION - words, 4096, first) + job("other", words, 16, second)
    a_round = ["1"] * 4 + ["2"] * 2 + ["1"] * 2 + ["2"] * 4
    return text, ",".join(["2"] * second_begin + ["1"] * first_begin + a_round * ROUNDS)


def sliding(is_small: bool, rounds: int) -> tuple[str, int]:
    """A job in which a block slides in each round, above small blocks or a long one, and the words of its region."""
    below = ["CONST INT (1 2)", *another(0) * (BELOW - 1)] if is_small else vector(2 * BELOW)
    begin = ["CONST INT (1 2 3 4)", "CONST INT (1 2 3 4 5)", *another(1), *another(1)]
    # The lower block of four words goes, and for one of five the upper one slides down. Then two of four and five words
    # take the places of both.
    a_round = ["POP 1 1", *another(1), "POP 1 1", *another(2), "POP 1 1", *another(1)]
    words = 2 * BELOW + 20
    end = ["POP 1 0"] * (BELOW + 4 if is_small else 5)
    return job("slider", words, 4096, [*below, *begin, *a_round * rounds, *end]), words


def run(text: str, options: list[str], before: list[str]) -> tuple[float, subprocess.CompletedProcess[str]]:
    """The seconds of a run of a batch, by a command with these words before it, and what it printed."""
    with tempfile.NamedTemporaryFile("w", suffix=".vcode") as file:
        file.write(text)
        file.flush()
        words = [*before, PROGRAM, "--workers", "1", *options, file.name]
        begun = time.monotonic()
        ran = subprocess.run(words, capture_output=True, text=True, check=False)
        return time.monotonic() - begun, ran


def instructions(text: str, options: list[str], *counted: str) -> int:
    """The instructions of the processor that a run takes."""
    _, ran = run(text, options, ["valgrind", "--tool=callgrind", "--callgrind-out-file=/dev/null", *counted])
    return int(re.search(r"Collected : (\d+)", ran.stderr)[1])


def of_a_slide(is_small: bool) -> float:
    """The instructions of the processor that a round takes to make room."""
    few, many = (sliding(is_small, rounds) for rounds in (ROUNDS, ROUNDS + SLIDES))
    counts = [instructions(text, ["--region", str(words)], MAKE_ROOM) for text, words in (few, many)]
    return (counts[1] - counts[0]) / SLIDES


def main() -> None:
    full = (REGION - SHORT - 2 * WIDE) // LENGTH - 1
    counts = []
    for blocks in (full, full - 10):
        text, schedule = batch(blocks)
        options = ["--schedule", schedule]
        seconds, ran = run(text, options, [])
        counts.append(instructions(text, options))
        print(ran.stdout, end="")
        print(f"{blocks} blocks: {seconds * 1e6 / ROUNDS:.0f} µs a round with all before it")
    moving, still = counts
    more = (moving - still) / ROUNDS / REGION
    print(f"{moving} and {still} instructions: {more:.1f} more a round for each word of the region")
    small, none = of_a_slide(is_small=True), of_a_slide(is_small=False)
    print(f"a slide: {small:.0f} instructions above {BELOW} small blocks, {none:.0f} above none")


main()
