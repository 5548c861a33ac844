"""Batches whose signatures are taken out, and what vjobs-kinds --batch makes of them.

Of a function that returns on no path it says so, since its signature may say anything. Else it has to find signatures
for each job that was verified."""
import random
import re
import subprocess
from collections.abc import Callable, Iterator
from pathlib import Path

import kinds
from batches import BatchRefused, JobText, jobs_of, report, words_of
from faults import Fault
from random_batches import RandomBatches
from reader import read

REGION = 1_048_576
HEAD = re.compile(r"^JOB (\d+) \S+ (?:REFUSED|NO SIGNATURES) line \d+ .*$", re.M)
ENDLESS = " returns on no path"
Report = Callable[[bytes], str]


def without(batch: bytes, places: set[int]) -> bytes:
    """A batch without the signatures of the jobs at these places, counted from 1."""
    lines = re.findall(rb"[^\n]*\n|[^\n]+", batch)
    taken = set()
    for place, (_, _, _, (first, _), (code, _)) in enumerate(jobs_of(batch)[1], 1):
        if place in places:
            taken |= {at for at in range(first - 1, code - 2) if words_of(lines[at].rstrip(b"\n"))}
    return b"".join(line for at, line in enumerate(lines) if at not in taken)


def is_verified(job: JobText) -> bool:
    _, _, _, signatures, (line, code) = job
    try:
        kinds.verify(read(code, line), kinds.read_signatures(signatures[1], signatures[0]), line)
    except Fault:
        return False
    return True


def has_signatures(job: JobText) -> bool:
    return bool(job[3][1].split())


def code_fault(job: JobText) -> str | None:
    """The fault of reading the code of a job."""
    line, code = job[4]
    try:
        read(code, line)
    except Fault as fault:
        return str(fault)
    return None


def entries(text: str) -> list[str]:
    """The entries of a report, without numbers of lines, which signatures move."""
    return [re.sub(r"\bline \d+", "line", it) for it in re.split(r"^(?=JOB |END )", text, flags=re.M)[1:]]


def wrong_jobs(given: bytes, printed: bytes, heads: dict[int, str]) -> Iterator[str]:
    """What is wrong with the jobs that are printed for a batch; `heads` has what is said of jobs that have none."""
    before, after = jobs_of(given)[1], jobs_of(printed)[1]
    for place, (job, filled) in enumerate(zip(before, after), 1):
        if has_signatures(job):
            if (job[3][1], job[4][1]) != (filled[3][1], filled[4][1]) or place in heads:
                yield f"job {place}, which has signatures, isn't as it was"
        elif has_signatures(filled):
            if not is_verified(filled) or place in heads:
                yield f"job {place} isn't verified by {filled[3][1]!r}"
        elif place not in heads:
            yield f"nothing is said of job {place}"
        elif (fault := code_fault(job)) and heads[place] != f"JOB {place} {job[1]} REFUSED {fault}":
            yield f"job {place}: {heads[place]}, and not {fault}"


def wrong_batch(program: str, batch: bytes, places: set[int], report_of: Report) -> Iterator[str]:
    """What is wrong with what is printed for a batch without the signatures of the jobs at these places."""
    given = without(batch, places)
    ran = subprocess.run([program, "--batch", "-"], input=given, capture_output=True)
    heads = {int(it[1]): it[0] for it in HEAD.finditer(ran.stderr.decode())}
    if ran.returncode != bool(heads) or not heads and ran.stderr:
        yield f"exit {ran.returncode}: {ran.stderr.decode()}"
        return
    filled = {place for place, job in enumerate(jobs_of(given)[1], 1) if not has_signatures(job)}
    if without(ran.stdout, filled) != given:
        yield "other lines than signatures differ"
        return
    yield from wrong_jobs(given, ran.stdout, heads)
    wanted, found = entries(report_of(batch)), entries(report_of(ran.stdout))
    for place, (job, one, other) in enumerate(zip(jobs_of(batch)[1], wanted, found), 1):
        if is_verified(job) and one != other and not heads.get(place, "").endswith(ENDLESS):
            yield f"job {place} ends otherwise: {other}, and not {one}"


def wrong_refusal(program: str, batch: bytes, refusal: BatchRefused) -> Iterator[str]:
    """What is wrong with what is printed for a text that is no batch."""
    ran = subprocess.run([program, "--batch", "-"], input=batch, capture_output=True)
    if ran.returncode != 1 or ran.stdout or not ran.stderr.startswith(f"{refusal}\n".encode()):
        yield f"exit {ran.returncode}: {ran.stderr.decode()}, and not {refusal}"


def wrong_for(program: str, batch: bytes, places: set[int] | None, report_of: Report) -> list[str]:
    """What is wrong for a text, without the signatures of the jobs at these places, or of all jobs."""
    try:
        jobs = jobs_of(batch)[1]
    except BatchRefused as refusal:
        return [*wrong_refusal(program, batch, refusal)]
    chosen = set(range(1, len(jobs) + 1)) if places is None else places
    return [*wrong_batch(program, batch, chosen, report_of)]


def reports_by(vjobs: str | None) -> Report:
    """Reports by this program, or by the rules of this folder if there is none."""
    if vjobs is None:
        return lambda batch: report(batch, REGION)[0]
    return lambda batch: subprocess.run([vjobs, "--workers", "1", "-"], input=batch,
                                        capture_output=True).stdout.decode("latin1")


def wrong_batches(program: str, named: list[tuple[str, bytes]], count: int, vjobs: str | None) -> Iterator[str]:
    """What is wrong for these batches, and for `count` random ones of which some jobs keep their signatures."""
    report_of, chance = reports_by(vjobs), random.Random(1)
    for name, batch in named:
        for places in (None, set[int]()):
            yield from (f"{name}: {wrong}" for wrong in wrong_for(program, batch, places, report_of))
    cases = RandomBatches(chance)
    for number in range(count):
        batch, _ = cases.whole_batch()
        places = {place for place in range(1, 65) if chance.random() < 0.8}
        yield from (f"random batch {number}: {wrong}" for wrong in wrong_for(program, batch, places, report_of))


def examples(folder: Path) -> list[tuple[str, bytes]]:
    return [(path.stem, path.read_bytes()) for path in sorted(folder.glob("*.vcode"))]
