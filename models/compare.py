#!/usr/bin/env python3
"""Compares the programs with a second writing of the rules, on random cases.

    python3 models/compare.py [COUNT [SEED [PROGRAM ARGUMENT ..]]]

Run it at the top of the repository, once `make models` has built the programs. The modules of this folder say in plain
Python what docs/LANGUAGE.md and docs/FORMATS.md say of reading, kinds, vectors, runs and batches, and share nothing
with the crates. Each of COUNT texts of code and signatures goes to `worked_texts`, each of COUNT instructions to
`worked_vectors`, each of a hundredth as many batches, of either rule, to `bin/vjobs`, once on 1, 2 or 16 workers, once
on 2 or 16 lanes and once with a schedule, COUNT calls on free words and memories, one after another, to
`worked_regions`, and COUNT calls on machines to `worked_batches`; their answers, reports and exit statuses must be
those of the modules, which know of no schedule.

Where a PROGRAM of the same behaviour is named, only COUNT batches are compared, with it.
"""
import pathlib
import random
import subprocess
import sys
from collections.abc import Callable, Sequence, Sized
from typing import Any

import admissions
import batches
import kinds
import reader
import vectors
from faults import Fault
from instructions import BOOL, SCALARS, SEGDES, kinds_of
from random_batches import RandomBatches
from random_cases import Random
from regions import RandomTable

TOP = pathlib.Path(__file__).resolve().parent.parent
# The lines that `worked_texts` counts from, and the longest text that it shows whole.
CODE_LINE, SIGNATURES_LINE, MOST_SHOWN = 5, 3, 500


def program(name: str) -> pathlib.Path:
    return TOP / "crates" / name / "out" / name


def escaped(text: bytes) -> str:
    """A text of bytes as a line of the table of `worked_texts`, which keeps `|` to itself."""
    plain = {byte: chr(byte) for byte in range(32, 127)} | {10: "\\n", 9: "\\t", 13: "\\r", 92: "\\\\"}
    return "".join(plain[byte] if byte in plain and byte != ord("|") else f"\\x{byte:02x}" for byte in text)


def shortened(text: str, things: Sized, name: str) -> str:
    return text if len(text) <= MOST_SHOWN else f"{len(things)} {name}"


def code_answer(text: bytes) -> str:
    functions = reader.read(text, CODE_LINE)
    return shortened(reader.shown_program(functions), functions, "functions")


def signatures_answer(text: bytes) -> str:
    signatures = kinds.read_signatures(text, SIGNATURES_LINE)
    return shortened(kinds.shown_signatures(signatures), signatures, "signatures")


def kinds_answer(signatures: bytes, code: bytes) -> str:
    known = kinds.read_signatures(signatures, SIGNATURES_LINE)
    return f"well kinded, {kinds.shown_kinds(kinds.verify(reader.read(code, CODE_LINE), known, CODE_LINE))}"


def text_case(cases: Random) -> tuple[str, str]:
    """A line of the table, and its answer."""
    word = cases.pick(["code", "code", "signatures", "kinds", "kinds"])
    try:
        if word == "kinds":
            # The table's reader cuts off the blanks round both.
            signatures, code = (text.strip() for text in cases.kinded())
            line = f"kinds {escaped(signatures)} | {escaped(code)}"
            return line, kinds_answer(signatures, code)
        text = cases.code() if word == "code" else cases.signatures()
        line = f"{word} {escaped(text)}"
        return line, code_answer(text) if word == "code" else signatures_answer(text)
    except Fault as fault:
        return line, str(fault)


def list_text(kind: str, elements: list[int]) -> str:
    return f"({' '.join('FT'[element] if kind == BOOL else str(element) for element in elements)})"


def vector_case(cases: Random) -> tuple[str, str]:
    """An instruction over its operands as a line of VCODE, and its answer."""
    word, written = cases.vector_instruction()
    kind = SCALARS[written[0]] if written else None
    operands, of = cases.operands(word, kind), kinds_of(word, kind)
    constants = [f"CONST {'BOOL' if k == BOOL else 'INT'} {list_text(k, operand)}"
                 for k, operand in zip(of.operands, operands)]
    line = " ".join([*constants, word, *written])
    if any(k == SEGDES and sum(operand) > vectors.GREATEST_TOTAL for k, operand in zip(of.operands, operands)):
        return line, "not of its kinds"
    try:
        return line, " ".join(list_text(k, result)
                              for k, result in zip(of.results, vectors.results(word, kind, operands)))
    except vectors.NoResult as end:
        return line, str(end)


def differing_lines(name: str, case: Callable, cases: Any, count: int) -> int:
    """How many cases the program of this name answers otherwise; the first of them are printed."""
    wanted = [f"{line} = {answer}" for line, answer in (case(cases) for _ in range(count))]
    lines = "".join(f"{line.rpartition(' = ')[0]}\n" for line in wanted)
    run = subprocess.run([program(name)], input=lines.encode(), check=True, capture_output=True)
    answers = run.stdout.decode().split("\n")[:-1]
    if len(answers) != count:
        sys.exit(f"{name} answers {len(answers)} of {count} cases")
    return told(name, [(want, answer) for want, answer in zip(wanted, answers) if want != answer])


def differing_batches(program: Sequence, cases: RandomBatches, count: int) -> int:
    differing = []
    for _ in range(count):
        batch, region = cases.whole_batch()
        want = batches.report(batch, region)
        threads = (["--workers", cases.pick(["1", "2", "16"])], ["--lanes", cases.pick(["2", "16"])])
        for options in (*threads, ["--schedule", cases.schedule()]):
            words = ["--region", str(region), *options, "-"]
            run = subprocess.run([*program, *words], input=batch, capture_output=True)
            answer = run.stdout.decode("latin1"), run.returncode
            if answer != want or run.stderr:
                differing.append(((batch, words, want), (answer, run.stderr)))
    return told(program[0], differing)


def told(name: Any, differing: list) -> int:
    for want, answer in differing[:3]:
        print(f"{name} differs\n  wanted {want}\n  got    {answer}")
    return len(differing)


def main(count: int | str = 10_000, seed: int | str = 1, *program: str) -> None:
    count, source = int(count), random.Random(int(seed))
    cases, jobs = Random(source), RandomBatches(source)
    if program:
        reports = differing_batches(program, jobs, count)
        print(f"differing: {reports} of {count} batches (seed {seed})")
        sys.exit(bool(reports))
    texts = differing_lines("worked_texts", text_case, cases, count)
    instructions = differing_lines("worked_vectors", vector_case, cases, count)
    reports = differing_batches([TOP / "bin" / "vjobs"], jobs, count // 100)
    regions = differing_lines("worked_regions", RandomTable.case, RandomTable(source), count)
    machines = differing_lines("worked_batches", admissions.RandomMachines.case, admissions.RandomMachines(source),
                               count)
    of_programs = f"{texts} of {count} texts, {instructions} of {count} instructions, {reports} of {count // 100} batches"
    of_calls = f"{regions} of {count} calls on memories, {machines} of {count} on machines"
    print(f"differing: {of_programs}, {of_calls} (seed {seed})")
    sys.exit(bool(texts or instructions or reports or regions or machines))


if __name__ == "__main__":
    main(*sys.argv[1:])
