#!/usr/bin/env python3
"""Runs `bin/vjobs` on batches that were changed at random, and compares each report with that of this folder.

    python3 models/hostile.py MINUTES [SEED [PROGRAM]]
    python3 models/hostile.py batch SEED

Run it at the top of the repository, after `make`. Each batch has a seed of its own, one more than that of the batch
before it. It is made from the examples, the tables of `worked_batches` and random batches: bytes are flipped, lines
are doubled, cut and swapped between jobs, numbers, instructions and limits are changed. It runs on 1 to 16 workers,
on 1 to 16 lanes, with a random schedule, and sometimes with less memory than it may take. The limit of memory is the
sum that docs/OPERATING.md gives; lanes have to do with that for one thread. The limit of time is a second of the
processors for each 10 million words and instructions that the limits of the jobs allow, and a second more.

A run differs if its report or its exit isn't that of the second writing, if it takes more memory than the sum, or more
time, four times one after the other. A run with less memory may also end with `vjobs: out of memory` and nothing
written. The seed of each batch that differs is printed; the second command prints the batch. At the end it is printed
how often each end of a job and each refusal occurred. The last line says how many batches ran and how many runs differ,
and the status is 1 if any does.
"""
import re
import resource
import subprocess
import sys
import time
from collections import Counter
from collections.abc import Callable, Iterator, Sized
from dataclasses import dataclass, replace
from functools import partial
from pathlib import Path
from random import Random as Source
from typing import Any

import batches
import runs
from instructions import OF_EITHER, VECTOR_WORDS, kinds_of
from random_batches import MOST_WORDS, RandomBatches
from random_cases import NOISE, NOTABLE
from reader import Item
from tables import TOP, batches_of

MOST_THREADS = 16
# How many entries and words the second writing looks at for one batch. Beyond that the budgets are lowered once.
MOST_WORK, LOWERED_BUDGET = 150_000, 150
# Address space: of the program before it reads, and of a worker's stack.
PROGRAM_BYTES, WORKER_BYTES = 4_000_000, 9_000_000
# Seconds after which a run is taken to hang.
HANGS = 120
# How often a run that takes too long is made at most. Its least time counts, since a busy machine adds time of its own.
RUNS = 4
NAMES = """RETURNED BUDGET M1 M2 M3 F1 F2 F3 F4 F5 F6 F7 F8 F9
B1 B2 B3 B4 G1 G2 G3 S1 S2 S3 S4 S5 S6 V1 V2 V3 V4 V5 V6 V7 V8""".split()
OUT_OF_MEMORY = ("", 3), b"vjobs: out of memory\n"


# ---- what is changed

@dataclass
class Job:
    """A job as the lines of its parts. The limits are the four numbers of its JOB line."""

    name: bytes
    limits: list[int]
    signatures: list[bytes]
    code: list[bytes]

    def text(self) -> bytes:
        head = b" ".join([b"JOB", self.name, *(b"%d" % limit for limit in self.limits)])
        return b"\n".join([head, b"SIGNATURES", *self.signatures, b"CODE", *self.code, b"END", b""])


def stored_batches() -> list[tuple[bytes, int]]:
    """The batches of the repository, each with a region, except those whose second writing takes long."""
    data = TOP / "crates" / "worked_batches" / "data"
    found = [(path.read_bytes(), MOST_WORDS) for path in sorted((data / "examples").glob("*.vcode"))]
    found += [batch for table in sorted((data / "tables").iterdir()) for batch in batches_of(table)]
    found.append(((TOP / "crates" / "vjobs" / "stdin").read_bytes(), 64))
    return [batch for batch in found if len(batch[0]) < 20_000]


def jobs_of(batch: bytes) -> list[Job]:
    """The jobs of a batch that isn't refused."""
    try:
        _, found = batches.jobs_of(batch)
    except batches.BatchRefused:
        return []
    return [Job(name.encode(), limits, signatures.split(b"\n")[:-1], code.split(b"\n")[:-1])
            for _, name, limits, (_, signatures), (_, code) in found]


# The words that have the same kinds, so that one may stand for the other.
SAME_KINDS: dict[str, list[bytes]] = {}
for one in VECTOR_WORDS:
    SAME_KINDS.setdefault(str(kinds_of(one, "k")) + str(one in OF_EITHER), []).append(one.encode())
LIKE = {one: words for words in SAME_KINDS.values() for one in words}


class Changes(RandomBatches):
    """Changes of lines, jobs and batches. Those of jobs change the job that they are given."""

    def __init__(self, source: Source, stored: list[tuple[bytes, int]], jobs: list[Job]) -> None:
        super().__init__(source)
        self.stored, self.jobs = stored, jobs

    def place(self, lines: Sized) -> int:
        return self.random.randrange(len(lines))

    # ---- of lines

    def doubled(self, lines: list[bytes]) -> None:
        place = self.place(lines)
        lines[place:place] = [lines[place]] * self.pick([1, 1, 1, 2, 5, 70])

    def cut(self, lines: list[bytes]) -> None:
        place = self.place(lines)
        del lines[place : place + self.pick([1, 1, 2, 5])]

    def swapped(self, lines: list[bytes]) -> None:
        one, other = self.place(lines), self.place(lines)
        lines[one], lines[other] = lines[other], lines[one]

    def word_changed(self, lines: list[bytes]) -> None:
        place = self.place(lines)
        words = lines[place].split(b" ")
        words[self.place(words)] = self.pick([*NOISE, *VECTOR_WORDS]).encode("latin1")
        lines[place] = b" ".join(words)

    def byte_changed(self, lines: list[bytes]) -> None:
        place = self.place(lines)
        line = bytearray(lines[place] or b" ")
        at = self.place(line)
        line[at] = self.pick([line[at] ^ 1 << self.random.randrange(8), self.random.randrange(256)])
        lines[place] = bytes(line)

    def replaced_somewhere(self, lines: list[bytes], pattern: bytes, by: Callable[[bytes], bytes]) -> None:
        """Replaces one place of this pattern, if there is one."""
        found = [(place, match) for place, line in enumerate(lines) for match in re.finditer(pattern, line)]
        if found:
            place, match = self.pick(found)
            lines[place] = lines[place][: match.start()] + by(match[0]) + lines[place][match.end() :]

    def number_changed(self, lines: list[bytes]) -> None:
        def near(number: bytes) -> bytes:
            at_ends = [*NOTABLE, 4_096, 4_097, 4_294_967_295, 2**63]
            return str(self.pick([int(number) + 1, int(number) - 1, *at_ends])).encode()

        self.replaced_somewhere(lines, rb"-?\b\d{1,20}\b", near)

    def flag_changed(self, lines: list[bytes]) -> None:
        flags = [b"T", b"F", b"( )", b"(T F)", b"(F T T)"]
        self.replaced_somewhere(lines, rb"\b[TF]\b", lambda _: self.pick(flags))

    def list_changed(self, lines: list[bytes]) -> None:
        def near(text: bytes) -> bytes:
            elements = text.split()
            place = self.random.randrange(len(elements) + 1)
            some = self.pick(elements or [b"1"])
            elements[place : place + self.pick([0, 1, 1])] = self.pick([[], [some], [some, some], [b"0"], [b"-1"]])
            return b" ".join(elements)

        self.replaced_somewhere(lines, rb"(?<=\()[^()]*(?=\))", near)

    def instruction_changed(self, lines: list[bytes]) -> None:
        """An instruction becomes another of the same kinds."""
        self.replaced_somewhere(lines, rb"(?<!\S)[^\s(){}]+(?!\S)", lambda word: self.pick(LIKE.get(word, [word])))

    def moved_about(self, lines: list[bytes]) -> None:
        """An instruction that changes nothing, or only the order."""
        moves = [b"COPY 0 0", b"COPY 1 0 POP 1 0", b"CPOP 1 1", b"CPOP 1 0", b"POP 0 1"]
        lines.insert(self.place(lines), self.pick(moves))

    def lent(self, lines: list[bytes]) -> None:
        """Lines of another job."""
        other = self.pick(self.jobs).code
        place, lent = self.place(lines), self.random.randrange(len(other) or 1)
        lines[place : place + self.pick([0, 1])] = other[lent : lent + self.pick([1, 1, 2, 4])]

    # ---- of jobs

    def limit_changed(self, job: Job) -> None:
        place = self.random.randrange(4)
        limits, now = batches.LIMITS[place], job.limits[place]
        at_ends = [limits[0], limits[-1], limits[0] + 1, limits[-1] - 1]
        job.limits[place] = self.pick([now + 1, now - 1, now - 1, now // 2, *at_ends, self.random.randint(0, 9)])
        if job.limits[place] not in limits and self.chance(0.8):
            job.limits[place] = now

    def to_its_edge(self, job: Job) -> None:
        """One limit is what the job takes, or one less."""
        signatures, code = (b"".join(line + b"\n" for line in lines) for lines in (job.signatures, job.code))
        takes = self.uses(signatures, code, False)
        place = self.random.randrange(4)
        job.limits[place] = max(batches.LIMITS[place][0], takes[place] - self.pick([0, 1, 1]))

    def signature_changed(self, job: Job) -> None:
        if self.chance(0.1):
            name = self.pick([b"a" * 64, b"a" * 65, b"spare", b"MAIN"])
            line = name + b" (" + b"INT " * self.pick([0, 1, 256, 257]) + b") -> ()"
            job.signatures.insert(self.random.randrange(len(job.signatures) + 1), line)
        elif job.signatures:
            change = self.pick([self.doubled, self.cut, self.swapped, self.word_changed, self.byte_changed])
            change(job.signatures)

    def spoiled(self, job: Job) -> None:
        """Mostly a job that is refused."""
        if self.chance(0.2):
            return self.signature_changed(job)
        changes = [self.doubled, self.swapped, self.byte_changed, self.lent]
        self.pick([*changes, *[self.cut, self.word_changed] * 2])(job.code)

    def bent(self, job: Job) -> None:
        """Mostly a job that still runs."""
        changes = [self.number_changed, self.number_changed, self.flag_changed, self.list_changed, self.list_changed]
        self.pick([*changes, self.instruction_changed, self.instruction_changed, self.moved_about])(job.code)

    def changed(self, job: Job) -> Job:
        job = replace(job, limits=[*job.limits], signatures=[*job.signatures], code=[*job.code])
        while self.chance(0.7):
            of_limits = [self.limit_changed, self.limit_changed, self.to_its_edge]
            change = self.pick([*[self.bent] * 6, *of_limits, self.spoiled])
            if job.code:
                change(job)
        return job

    # ---- of batches

    def of_jobs(self) -> tuple[bytes, int]:
        """A batch of jobs from anywhere, and a region."""
        count = self.pick([1, 2, 3, 3, 4, 5, 6, 8, 12]) if self.chance(0.98) else self.pick([63, 64, 65])
        kept = self.pick(self.jobs)
        jobs = [self.pick(self.jobs) if count < 60 else kept for _ in range(count)]
        jobs = [self.changed(job) if self.chance(0.6) else job for job in jobs]
        widest, together = max(job.limits[0] for job in jobs), sum(job.limits[0] for job in jobs)
        region = self.pick([widest, widest, widest + 1, together, together, MOST_WORDS, widest - 1])
        return self.rule_line(self.chance(0.3)) + b"".join(job.text() for job in jobs), region

    def of_lines(self) -> tuple[bytes, int]:
        """A stored batch, some lines of which are changed."""
        text, region = self.pick(self.stored)
        lines = text.split(b"\n")
        changes = [self.doubled, self.cut, self.swapped, self.word_changed, self.byte_changed, self.lent]
        while lines and self.chance(0.6):
            self.pick([self.bent_lines] * 4 + changes)(lines)
        return b"\n".join(lines), region

    def bent_lines(self, lines: list[bytes]) -> None:
        self.pick([self.number_changed, self.list_changed, self.instruction_changed, self.flag_changed])(lines)

    def batch(self) -> tuple[bytes, int]:
        """The bytes of a batch, and the words of a region."""
        text, region = self.pick([self.of_jobs, self.of_jobs, self.of_jobs, self.of_lines, self.whole_batch])()
        while self.chance(0.04):
            text = self.changed_bytes(text)
        return text, min(max(region, 1), MOST_WORDS)


# ---- what is wanted

class TooLong(Exception):
    """The second writing would look at too many entries and words."""


class Watched(runs.Run):
    """A run that keeps account of its work, and of the words that it held and made."""

    def __init__(self, account: Counter, *job: Any) -> None:
        super().__init__(*job)
        self.account = account

    def checked(self, item: Item | runs.Choice, fault: str | None, operands: int, need_words: int, depth: int) -> None:
        super().checked(item, fault, operands, need_words, depth)
        self.account["work"] += depth + need_words + 5
        self.account["widest"] = max(self.account["widest"], runs.held(self.stack) + need_words)
        if self.account["work"] > MOST_WORK:
            raise TooLong


def wanted(text: bytes, region: int) -> tuple[tuple[str, int], Counter]:
    """The report and the exit, and the account."""
    account: Counter = Counter()
    return batches.report(text, region, partial(runs.run, of=partial(Watched, account))), account


def with_low_budgets(text: bytes) -> bytes:
    def lowered(match: re.Match[bytes]) -> bytes:
        return match[1] + b"%d" % min(int(match[2]), LOWERED_BUDGET)

    return re.sub(rb"(?m)^([ \t\r]*JOB(?:[ \t\r]+[!-~]+){4}[ \t\r]+)(\d+)\b", lowered, text)


# ---- what a run may take

def limits_of(text: bytes) -> list[list[int]]:
    """The limits of the jobs, those of refused ones among them."""
    heads = (batches.heading(batches.words_of(line)) for line in text.split(b"\n"))
    return [head[1] for head in heads if head] or [[0, 0, 0, 0]]


def most_kinds(text: bytes) -> int:
    """At most so many kinds are kept while one job is checked."""
    copied = sum(int(count) for count in re.findall(rb"\bCOPY\s+(\d{1,4})\b", text))
    pushed = copied + len(text.split()) + 256 * text.count(b"CALL")
    return pushed * (1 + min(64, text.count(b"IF")))


def most_bytes(text: bytes, region: int, widest: int, desks: int) -> int:
    """The sum of docs/OPERATING.md, as address space."""
    limits = limits_of(text)
    words, cells, calls, _ = ([job[place] for job in limits] for place in range(4))
    fixed = PROGRAM_BYTES + 17 * region + 73 * sum(cells) + 16 * sum(calls) + 65_536
    results = 8 * min(widest * len(limits), sum(words))
    return fixed + 26 * len(text) + 2 * most_kinds(text) + 48 * max(words) * desks + results


def most_seconds(text: bytes) -> float:
    return 1 + sum(job[0] + job[3] for job in limits_of(text)) / 10_000_000


@dataclass
class Trial:
    """A run of the program: its options, the bytes that it may take, and whether that is less than the sum."""

    options: list[str]
    most_bytes: int
    is_starved: bool = False


def trials(changes: Changes, text: bytes, region: int, widest: int) -> Iterator[Trial]:
    """Runs of a batch, each of its own kind."""
    workers, lanes = (changes.random.randint(1, MOST_THREADS) for _ in range(2))
    by_workers, on_lanes = ["--workers", str(workers)], ["--lanes", str(lanes)]
    enough = most_bytes(text, region, widest, workers + 1) + workers * WORKER_BYTES
    yield Trial(by_workers, enough)
    # Lanes need no more than the calling thread alone.
    yield Trial(on_lanes, most_bytes(text, region, widest, 1) + WORKER_BYTES)
    yield Trial(["--schedule", changes.schedule()], most_bytes(text, region, widest, len(limits_of(text)) + 1))
    if changes.chance(0.2):
        less = PROGRAM_BYTES + int((enough - PROGRAM_BYTES) * changes.random.random() ** 5)
        yield Trial(changes.random.choice([by_workers, on_lanes]), less, is_starved=True)


def answered(program: Path | str, text: bytes, region: int,
             trial: Trial) -> tuple[tuple[tuple[str, int], bytes], float]:
    """The report, the exit, standard error, and the processor's seconds."""
    def limited() -> None:
        resource.setrlimit(resource.RLIMIT_AS, (trial.most_bytes, trial.most_bytes))

    before = resource.getrusage(resource.RUSAGE_CHILDREN)
    words = [program, "--region", str(region), *trial.options, "-"]
    run = subprocess.run(words, input=text, capture_output=True, timeout=HANGS, preexec_fn=limited)
    after = resource.getrusage(resource.RUSAGE_CHILDREN)
    seconds = after.ru_utime + after.ru_stime - before.ru_utime - before.ru_stime
    return ((run.stdout.decode("latin1"), run.returncode), run.stderr), seconds


def shortened(thing: object) -> str:
    text = str(thing)
    return text if len(text) < 2_000 else f"{text[:1_000]} .. {text[-1_000:]}"


AS_WANTED, WITHOUT_MEMORY = "as wanted", "out of memory"


def how_it_ends(program: Path | str, text: bytes, region: int, want: tuple[str, int], trial: Trial) -> str:
    """Whether a run ends as wanted or, where it may, for lack of memory; else what is wrong about it."""
    try:
        answer, seconds = answered(program, text, region, trial)
        for _ in range(1, RUNS):
            if seconds > most_seconds(text):
                seconds = min(seconds, answered(program, text, region, trial)[1])
    except subprocess.TimeoutExpired:
        return f"no end after {HANGS} seconds"
    if seconds > most_seconds(text):
        return f"{seconds:.1f} seconds of the processors, where {most_seconds(text):.1f} are allowed"
    if answer == (want, b""):
        return AS_WANTED
    if trial.is_starved and answer == OUT_OF_MEMORY:
        return WITHOUT_MEMORY
    return f"wanted {shortened(want)}\n  got    {shortened(answer)}"


# ---- the search

class Search:
    def __init__(self, program: Path | str) -> None:
        self.program = program
        self.stored = stored_batches()
        self.jobs = [job for text, _ in self.stored for job in jobs_of(text)]
        self.counts: Counter = Counter()
        self.ends: Counter = Counter()

    def made(self, seed: int) -> tuple[Changes, bytes, int, tuple[str, int], Counter]:
        """The batch of this seed, its region, what is wanted of it, and the source of what is still to be chosen."""
        changes = Changes(Source(seed), self.stored, self.jobs)
        text, region = changes.batch()
        try:
            return changes, text, region, *wanted(text, region)
        except TooLong:
            text = with_low_budgets(text)
            return changes, text, region, *wanted(text, region)

    def compare(self, seed: int) -> None:
        try:
            changes, text, region, want, account = self.made(seed)
        except TooLong:
            self.counts["left out"] += 1
            return
        self.count(want[0])
        for trial in trials(changes, text, region, account["widest"]):
            end = how_it_ends(self.program, text, region, want, trial)
            self.counts["runs"] += 1
            if end == WITHOUT_MEMORY:
                self.counts["out of memory"] += 1
            elif end != AS_WANTED:
                self.counts["differ"] += 1
                options = f"--region {region} {' '.join(trial.options)}"
                print(f"seed {seed} differs by {options} in {trial.most_bytes} bytes\n  {end}", flush=True)

    def count(self, report: str) -> None:
        """Counts a batch by its report, and its jobs by their ends."""
        unnamed = re.sub(r"(?m)^(JOB \d+) \S+", r"\1", report)
        ends = re.findall(r"(?m)^(?:JOB|BATCH)\b.*?\b(RETURNED|BUDGET|[A-Z]\d)\b", unnamed)
        self.ends.update(ends)
        refused = [end for end in ends if end[0] in "GSV" or end == "B3"]
        is_whole = report.startswith("BATCH")
        self.counts["refused whole" if is_whole else "with refused jobs" if refused else "without"] += 1
        self.counts["with jobs that ran"] += not is_whole and len(refused) < len(ends)

    def told(self, minutes: str, first: int, last: int) -> bool:
        counts = self.counts
        print("ends of jobs and refusals:", ", ".join(f"{self.ends[name]} {name}" for name in NAMES))
        whole, some, none = (counts[how] for how in ("refused whole", "with refused jobs", "without"))
        print(f"{minutes} minutes, seeds {first} to {last}: {whole + some + none} batches in {counts['runs']} runs,"
              f" {counts['out of memory']} of which ended for lack of the memory that they need;"
              f" {whole} batches refused whole, {some} with refused jobs, {none} without;"
              f" jobs ran in {counts['with jobs that ran']}; {counts['left out']} left out as too long;"
              f" {counts['differ']} runs differ")
        return bool(counts["differ"])


def main(minutes: str, seed: str = "1", program: Path | str = TOP / "bin" / "vjobs") -> None:
    search, first = Search(program), int(seed)
    if minutes == "batch":
        sys.stdout.buffer.write(search.made(first)[1])
        return
    last, end = first, time.monotonic() + 60 * float(minutes)
    search.compare(first)
    while time.monotonic() < end:
        last += 1
        search.compare(last)
    sys.exit(search.told(minutes, first, last))


if __name__ == "__main__":
    main(*sys.argv[1:])
