#!/usr/bin/env python3
"""Compares the signatures that vjobs-kinds finds with the written ones:

    python3 models/signatures.py VJOBS_KINDS [VJOBS]

It takes the code of each verified job of the examples and of the tables of `worked_batches`. The code of each other job
has to be refused, or what is found has to verify it.

Then it takes codes of many functions that call each other, and wide stacks. What is found has to verify them. Between
two sizes, the instructions of the processor may grow at most as the bytes of the code and the signatures do to the
power 1.3; `valgrind` counts them, and if it is missing that is left out. Wide stacks have to fit in 200 MB of address
space, and a stack that is too wide is refused at its line.

Then it takes the signatures out of the batches of the examples and the tables, and of random ones. What is found has to
verify each job that was verified, the job has to end as before, by VJOBS or else by the rules of this folder, and each
other byte of the batch has to stay. Why a job has none, or a text is no batch, has to be said."""
import math
import re
import resource
import shutil
import subprocess
import sys
from collections.abc import Callable, Iterable, Iterator
from functools import partial
from typing import Any

import call_codes
import filled
import kinds
from batches import BatchRefused, jobs_of
from faults import Fault
from reader import read
from tables import TOP, batches_of

DATA = TOP / "crates" / "worked_batches" / "data"
MOST_POWER = 1.3
# The numbers of functions of the two codes whose costs are compared.
FEW, MANY = 60, 480
# Address space in which a code with a wide stack has to be done.
MOST_BYTES = 200_000_000
# The copies with which a stack of 4,096 entries has as many as it may have at most, and the line of the last copy.
MOST_COPIES, LAST_LINE = 16_383, 16_397
RANDOM_BATCHES = 200


def named_batches() -> list[tuple[str, bytes]]:
    """The batches of the examples and of the tables."""
    tables = sorted((DATA / "tables").iterdir())
    return [*filled.examples(DATA / "examples"), *((path.name, batch) for path in tables for batch, _ in batches_of(path))]


def jobs() -> Iterator[tuple[str, bytes, bytes]]:
    """The name of each job, its written signatures and its code."""
    for place, batch in named_batches():
        try:
            for begun, name, _, (_, signatures), (_, code) in jobs_of(batch)[1]:
                yield f"{place}, job {name} at line {begun}", signatures, code
        except BatchRefused:
            pass


def written(signatures: bytes, code: bytes) -> kinds.Signatures | None:
    """The signatures of the functions of a job, or None if it isn't verified."""
    try:
        known, functions = kinds.read_signatures(signatures, 1), read(code, 1)
        kinds.verify(functions, known, 1)
    except Fault:
        return None
    return {function.name: known[function.name] for function in functions}


def difference(program: str, signatures: bytes, code: bytes) -> str | None:
    """What is wrong with the answer of the program, if anything."""
    ran = subprocess.run([program, "-"], input=code, capture_output=True)
    wanted = written(signatures, code)
    if ran.returncode == 1 and not ran.stdout and wanted is None:
        return None
    if ran.returncode or ran.stderr:
        return f"exit {ran.returncode}: {ran.stderr.decode('latin1').strip()}"
    found = written(ran.stdout, code)
    if found is None or wanted not in (None, found):
        return f"found\n{ran.stdout.decode('latin1')}"
    return None


def find(program: str, code: bytes, before: Iterable[str] = (), options: Iterable[str] = (),
         **how: Any) -> subprocess.CompletedProcess:
    return subprocess.run([*before, program, *options, "-"], input=code, capture_output=True, **how)


def cost(program: str, code: bytes) -> tuple[int, int]:
    """How many instructions a run takes, and how many bytes it reads and prints."""
    ran = find(program, code, ["valgrind", "--tool=callgrind", "--callgrind-out-file=/dev/null"])
    return int(re.search(rb"Collected : (\d+)", ran.stderr)[1]), len(code) + len(ran.stdout)


def power(program: str, shape: Callable[[int], bytes]) -> float:
    """The power of the bytes with which the cost of codes of this shape grows."""
    (few, few_bytes), (many, many_bytes) = (cost(program, shape(size)) for size in (FEW, MANY))
    return math.log(many / few) / math.log(many_bytes / few_bytes)


def verifies(found: subprocess.CompletedProcess, code: bytes) -> bool:
    return found.returncode == 0 and written(found.stdout, code) is not None


def wrong_calls(program: str) -> Iterator[str]:
    """What is wrong with the answers for functions that call each other, and with their cost."""
    counted = shutil.which("valgrind")
    if not counted:
        print("signatures: skipped: no valgrind, which counts instructions")
    for name, shape in call_codes.SHAPES.items():
        code = shape(MANY)
        found = find(program, code)
        if name in call_codes.WITHOUT:
            if found.returncode != 1 or call_codes.WITHOUT[name] not in found.stderr:
                yield f"{name}: {found.stderr.decode()}"
        elif not verifies(found, code):
            yield f"{name}: not verified"
        grows = power(program, shape) if counted else 0
        if grows > MOST_POWER:
            yield f"{name}: the cost grows as the power {grows:.2f}"


def wrong_stacks(program: str) -> Iterator[str]:
    """What is wrong with the answers for wide stacks."""
    bounded = partial(resource.setrlimit, resource.RLIMIT_AS, (MOST_BYTES, MOST_BYTES))
    for name, code in call_codes.stacks():
        found = find(program, code, preexec_fn=bounded)
        if found.returncode or found.stdout != b"MAIN () -> ()\n":
            yield f"{name}: exit {found.returncode}: {found.stderr.decode()}"
    widest, wider = (find(program, call_codes.wide(copies)) for copies in (MOST_COPIES, MOST_COPIES + 1))
    if widest.returncode:
        yield f"the widest stack: {widest.stderr.decode()}"
    if wider.stderr != b"-:%d: MAIN has too many entries on its stack\n" % (LAST_LINE + 1):
        yield f"a wider stack: exit {wider.returncode}: {wider.stderr.decode()}"


def wrong_bounds(program: str) -> Iterator[str]:
    """What is wrong with the bounds of command lines for a code of 35 bytes with at most 2 entries on its stack."""
    code, found = b"FUNC MAIN\nCONST INT 1\nCOPY 1 0\nRET\n", b"MAIN () -> (INT INT)\n"
    few_bytes, few_entries = b"-: more than 34 bytes\n", b"-:3: MAIN has too many entries on its stack\n"
    for option, number, refused in (("bytes", 35, b""), ("bytes", 34, few_bytes),
                                    ("entries", 2, b""), ("entries", 1, few_entries)):
        ran = find(program, code, options=[f"--most-{option}", str(number)])
        if (ran.returncode, ran.stdout, ran.stderr) != (bool(refused), b"" if refused else found, refused):
            yield f"{number} {option}: exit {ran.returncode}: {ran.stderr.decode()}"


def main(program: str, vjobs: str | None = None) -> None:
    count = verified = 0
    differing = [*wrong_calls(program), *wrong_stacks(program), *wrong_bounds(program)]
    batches = named_batches()
    differing += filled.wrong_batches(program, batches, RANDOM_BATCHES, vjobs)
    for name, signatures, code in jobs():
        count += 1
        verified += written(signatures, code) is not None
        wrong = difference(program, signatures, code)
        if wrong:
            differing.append(f"{name}: {wrong}")
    of_batches = f"{len(batches)} batches and {RANDOM_BATCHES} random ones"
    print(*differing, f"signatures: {count} jobs, {verified} of them verified, {of_batches}; {len(differing)} differences",
          sep="\n")
    sys.exit(bool(differing))


if __name__ == "__main__":
    main(*sys.argv[1:])
