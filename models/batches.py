"""A batch: its report, and the exit status."""
import re
from collections.abc import Callable

import kinds
from faults import Fault
from reader import Function, read
from runs import Limits, run

# The line of a job's head, its name, its limits, its signatures and its code, both with the number of their first line.
JobText = tuple[int, str, list[int], tuple[int, bytes], tuple[int, bytes]]
# Says how a job ends, and what it used.
Runner = Callable[[list[Function], Limits, bool], str]
MOST_JOBS = 64
LIMITS = [range(0, 1_048_577), range(1, 4_097), range(1, 1_025), range(0, 1_000_000_001)]


class BatchRefused(Exception):
    def __init__(self, line: int, name: str) -> None:
        super().__init__(f"BATCH line {line} {name}")


def words_of(line: bytes) -> list[bytes]:
    return [word for word in re.split(rb"[ \t\r]+", line) if word]


def heading(words: list[bytes]) -> tuple[str, list[int]] | None:
    """The name and the limits of a good JOB line, or None."""
    if len(words) != 6 or words[0] != b"JOB" or not re.fullmatch(rb"[!-~]{1,64}", words[1]):
        return None
    if not all(re.fullmatch(rb"[0-9]{1,10}", word) and int(word) in limit for word, limit in zip(words[2:], LIMITS)):
        return None
    return words[1].decode(), [int(word) for word in words[2:]]


def jobs_of(data: bytes) -> tuple[bool, list[JobText]]:
    """Whether the second rule holds, and each job's JOB line, name, limits, and its signatures and code, each with the
    number of its first line."""
    lines = data.split(b"\n")
    lines = lines if lines[-1] else lines[:-1]
    first = next((place for place, line in enumerate(lines) if words_of(line)), len(lines))
    is_second = first < len(lines) and words_of(lines[first]) == [b"BATCH", b"2"]
    jobs: list[JobText] = []
    place = first + is_second

    def until(word: bytes, begun: int, other: bytes | None = None) -> tuple[int, bytes]:
        nonlocal place
        first = place
        while place < len(lines) and words_of(lines[place]) not in ([word], [other]):
            place += 1
        if place == len(lines) or words_of(lines[place]) == [other]:
            raise BatchRefused(begun, "B2 UNFINISHED_JOB")
        place += 1
        return first + 1, b"".join(line + b"\n" for line in lines[first : place - 1])

    while place < len(lines):
        words, begun = words_of(lines[place]), place + 1
        place += 1
        if not words:
            continue
        head = heading(words)
        if head is None:
            raise BatchRefused(begun, "B1 BAD_JOB_LINE")
        if len(jobs) == MOST_JOBS:
            raise BatchRefused(begun, "B4 TOO_LARGE")
        if place < len(lines) and words_of(lines[place]) != [b"SIGNATURES"]:
            raise BatchRefused(place + 1, "B1 BAD_JOB_LINE")
        until(b"SIGNATURES", begun)
        jobs.append((begun, *head, until(b"CODE", begun, b"END"), until(b"END", begun)))
    return is_second, jobs


def verified(signatures_line: int, signatures: bytes, code_line: int, code: bytes) -> list[Function]:
    """The functions of a job, or its first Fault."""
    known = kinds.read_signatures(signatures, signatures_line)
    functions = read(code, code_line)
    kinds.verify(functions, known, code_line)
    return functions


def job_lines(job: JobText, region: int, is_second: bool, run: Runner) -> str:
    begun, _, numbers, signatures, code = job
    limits = Limits(*numbers)
    if limits.words > region:
        raise Fault(begun, "B3 WORDS_PAST_REGION")
    return run(verified(*signatures, *code), limits, is_second)


def report(data: bytes, region: int, run: Runner = run) -> tuple[str, int]:
    """The report of a batch over a region of so many words, and the exit status; `run` says how a job ends."""
    try:
        is_second, jobs = jobs_of(data)
    except BatchRefused as refusal:
        return f"{refusal}\n", 2
    lines, refused = [], 0
    for number, job in enumerate(jobs, 1):
        try:
            lines.append(f"JOB {number} {job[1]} {job_lines(job, region, is_second, run)}")
        except Fault as fault:
            refused += 1
            lines.append(f"JOB {number} {job[1]} REFUSED {fault}")
    is_well = all(re.match(r"JOB \d+ \S+ RETURNED\n", line) for line in lines)
    return "\n".join([*lines, f"END {len(jobs)} jobs {refused} refused", ""]), 0 if is_well else 1
