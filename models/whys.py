#!/usr/bin/env python3
"""Compares what vjobs-why shows of each job with the report: python3 models/whys.py VJOBS_WHY VJOBS [BATCHES [SEED]]

It takes the examples and the tables of `worked_batches`. Of each job the end, the line, the count of instructions and
the most words have to be those of the report of `vjobs`. Of each job that ran, what there is after a number of
instructions, at a line and at each instruction is shown too: the counts have to be those that were asked for. If
`vjobs-why` names a JOB line within which a job returns, the job has to return within it, and with any number of it one
less it must not. The states at which `--at` and `--when` stop, the calls, stacks and values of states, and what
`--json` prints, have to be those of the second writing, for these batches and for as many random ones as are asked for
(300 by default). So has what is said where kinds don't fit, and what is said to be left out, also for each batch with
one word changed. Half of the random ones have comments that name lines of a source."""
import json
import random
import re
import subprocess
import sys
from collections.abc import Iterator

import pictures
import profiles
import refusals
import sources
import stops
from random_batches import RandomBatches
from tables import TOP, batches_of

DATA = TOP / "crates" / "worked_batches" / "data"
ENDING = re.compile(r"JOB (\d+) (\S+) (RETURNED|BUDGET|(?:FAULT|MEMORY) line \d+ \w+ \w+),? after (\d+) instructions")
WORDS = re.compile(r"^  words +(\d+) of +(\d+)$", re.M)
LEAST = re.compile(r"it returns: JOB (.+) (\d+) (\d+) (\d+) (\d+)$", re.M)
# Instructions that are listed of a job.
LISTED = 40


def many_chains(depth: int) -> bytes:
    """A job with two functions at each depth, each of which calls both of the next one."""
    names = [f"{side}_{level}" for level in range(depth) for side in ("left", "right")]
    inner = [f"CALL left_{level}\nCALL right_{level}\n" if level < depth else "" for level in range(depth + 1)]
    bodies = "".join(f"FUNC {name}\nCONST INT 1\n+ INT\n{inner[place // 2 + 1]}RET\n"
                     for place, name in enumerate(names))
    signatures = "".join(f"{name} (INT) -> (INT)\n" for name in names)
    return (f"JOB chains 64 16 64 1000000\nSIGNATURES\nMAIN () -> (INT)\n{signatures}CODE\nFUNC MAIN\nCONST INT 1\n"
            f"{inner[0]}RET\n{bodies}END\n").encode()


def stored() -> Iterator[tuple[str, bytes]]:
    """The name of each batch, and its bytes."""
    yield "more chains than there may be", many_chains(12)
    for path in sorted((DATA / "examples").glob("*.vcode")):
        yield path.stem, path.read_bytes()
    for path in sorted((DATA / "tables").iterdir()):
        for place, (batch, _) in enumerate(batches_of(path)):
            yield f"{path.name}, case {place + 1}", batch


def run(program: str, batch: bytes, *words: str) -> tuple[int, str, str]:
    ran = subprocess.run([program, *words, "-"], input=batch, capture_output=True, timeout=300)
    return ran.returncode, ran.stdout.decode("latin1"), ran.stderr.decode("latin1")


def ends(report: str) -> dict[str, list]:
    """Of each job of a report: how it ended, how many instructions it executed, and the most words."""
    found: dict[str, list] = {}
    for line in report.splitlines():
        if line.startswith("JOB "):
            _, place, name, ending = line.split(" ", 3)
            found[place] = [name, ending, None, None]
        elif line.startswith("USED "):
            words = line.split()
            found[place][2:] = [int(words[1]), int(words[3])]
    return found


def with_limits(batch: bytes, place: int, limits: list[int]) -> bytes:
    """The batch with other limits on the JOB line of a place. Only lines between jobs are JOB lines."""
    lines, inside, seen = batch.split(b"\n"), False, 0
    coded = False
    for number, line in enumerate(lines):
        words = line.split()
        if not inside and words[:1] == [b"JOB"]:
            inside, coded, seen = True, False, seen + 1
            if seen == place:
                lines[number] = b" ".join([*words[:2], *(b"%d" % limit for limit in limits)])
        elif inside and words == [b"CODE"] and not coded:
            coded = True
        elif coded and words == [b"END"]:
            inside = coded = False
    return b"\n".join(lines)


def wrong_least(programs: tuple[str, str], batch: bytes, place: str, limits: list[int]) -> Iterator[str]:
    """What is wrong with the least limits of a job, if anything."""
    tried = [limits]
    for changed, least in enumerate([0, 1, 1, 0]):
        if limits[changed] > least:
            tried.append([limit - (number == changed) for number, limit in enumerate(limits)])
    for number, limits in enumerate(tried):
        _, report, _ = run(programs[1], with_limits(batch, int(place), limits))
        returned = ends(report)[place][1] == "RETURNED"
        if returned != (number == 0):
            yield f"with the limits {limits} it {'returns' if returned else 'does not return'}"


def wrong_end(programs: tuple[str, str], batch: bytes, place: str, wanted: list) -> Iterator[str]:
    """What is wrong with what is shown of the end of a job."""
    name, ending, executed, words = wanted
    status, shown, said = run(programs[0], batch, "--job", place)
    if status or said:
        yield f"exit {status}: {said}"
    if ending.startswith("REFUSED"):
        if shown.partition("\n")[0] != f"JOB {place} {name} {ending}":
            yield f"shown as {shown}"
        return
    found, used = ENDING.match(shown), WORDS.search(shown)
    if not found or not used:
        yield f"shown as {shown}"
    elif (found[1], found[2], found[3], int(found[4]), int(used[1])) != (place, name, ending, executed, words):
        yield f"shown as {found[0]} with {used[0]}, and reported as {ending} after {executed} with {words}"
    least = LEAST.search(shown)
    if least:
        yield from wrong_least(programs, batch, place, [int(number) for number in least.groups()[1:]])
    elif ending == "RETURNED":
        yield "no least limits are named"


def wrong_looks(programs: tuple[str, str], batch: bytes, place: str, wanted: list) -> Iterator[str]:
    """What is wrong with what is shown of a job on the way."""
    executed = wanted[2]
    status, shown, said = run(programs[0], batch, "--job", place, "--steps", "--to", str(LISTED))
    listed = [line.split() for line in shown.splitlines()[2:]]
    if status or said or [int(line[0]) for line in listed] != list(range(1, min(executed, LISTED) + 1)):
        yield f"--steps: exit {status}: {said}{shown}"
    for count in {0, 1, executed // 2, max(executed - 1, 0), executed, executed + 1}:
        status, shown, said = run(programs[0], batch, "--job", place, "--after", str(min(count, 10**9)))
        first = shown.partition("\n")[0]
        if status or said or not re.search(rf"after {min(count, executed)} instructions", first):
            yield f"--after {count}: exit {status}: {said}{first}"
    for line in {line[1] for line in listed}:
        status, shown, said = run(programs[0], batch, "--job", place, "--at", line)
        before = next(number for number, other in enumerate(listed) if other[1] == line)
        if status or said or f"after {before} instructions" not in shown.partition("\n")[0]:
            yield f"--at {line}: exit {status}: {said}{shown}"


def wrong(programs: tuple[str, str], batch: bytes) -> Iterator[str]:
    """What is wrong with what is shown of a batch."""
    _, report, _ = run(programs[1], batch, "--workers", "1")
    if report.startswith("BATCH"):
        status, shown, _ = run(programs[0], batch)
        if status != 1 or shown.partition("\n")[0] != report.rstrip("\n"):
            yield f"exit {status}, shown as {shown}"
        return
    for place, wanted in ends(report).items():
        for text in wrong_end(programs, batch, place, wanted):
            yield f"job {place}: {text}"
        if wanted[2] is not None:
            for text in wrong_looks(programs, batch, place, wanted):
                yield f"job {place}: {text}"


def wrong_profiles(program: str, batch: bytes) -> Iterator[str]:
    """What is wrong with the profiles of the jobs of a batch."""
    _, shown, said = run(program, batch, "--json")
    if said:
        yield f"--json: {said}"
    else:
        yield from profiles.differences(shown, batch)


def wrong_stops(program: str, batch: bytes, seed: int) -> Iterator[str]:
    """What is wrong with the states at which the jobs of a batch stop."""
    for options, wanted in stops.all_stops(batch, random.Random(seed)):
        status, shown, said = run(program, batch, *options)
        if status or said or not shown.startswith(wanted):
            yield f"{' '.join(options)}: exit {status}: {said}{shown}, and not {wanted}"


def wrong_pictures(program: str, batch: bytes, seed: int) -> Iterator[str]:
    """What is wrong with the calls, the stack and the values that are shown of states of the jobs of a batch."""
    for options, wanted in pictures.looks(batch, random.Random(seed)):
        status, shown, said = run(program, batch, *options)
        lines = "".join(f"{line}\n" for line in wanted)
        if options[2] == "--steps":
            shown = "".join(line + "\n" for line in shown.splitlines() if line.startswith(" " * 30))
        if status or said or (lines not in shown):
            yield f"{' '.join(options)}: exit {status}: {said}{shown}, and not {lines}"


def wrong_data(program: str, batch: bytes, seed: int) -> Iterator[str]:
    """What is wrong with states of the jobs of a batch as data."""
    for options, wanted in pictures.looks_at_data(batch, random.Random(seed)):
        status, shown, said = run(program, batch, *options)
        if status or said or json.loads(shown) != wanted:
            yield f"{' '.join(options)}: exit {status}: {said}{shown}, and not {wanted}"


def wrong_refusals(program: str, batch: bytes, seed: int) -> Iterator[str]:
    """What is wrong with what is shown of the refused jobs of a batch, and of the batch with a changed word."""
    for text in (batch, refusals.broken(batch, random.Random(seed))):
        yield from refusals.differences(run(program, text)[1], text)


def wrong_sources(program: str, batch: bytes) -> Iterator[str]:
    """What is wrong with what is shown by lines of the source of the jobs of a batch."""
    for place, _, functions, (*_, code), run_of in pictures.jobs_of(batch):
        job = profiles.Counted(functions, run_of.limits, run_of.is_second)
        profiles.end_of(job)
        lines = [[line, work.instructions, work.elements] for line, work in sorted(job.lines.items())]
        source = sources.source_of(functions, *code, lines)
        if not source or len(job.paths) > profiles.MOST_CHAINS:
            continue
        places = sources.places_of(functions, *code, source)
        for options, wanted in ((["--folded=source"], sources.folded_lines(job, places, source)),
                                (["--profile", "--all"], sources.profile_lines(job, places, source))):
            _, shown, said = run(program, batch, "--job", str(place), *options)
            rows = shown.splitlines()
            if options[0] == "--profile":
                heads = [number for number, row in enumerate(rows) if row.startswith("the lines of the source,")]
                rows = rows[heads[0] + 2 : rows.index("", heads[0])] if heads else []
            if said or rows != wanted:
                yield f"--job {place} {options[0]}: {said}{rows}, and not {wanted}"


def random_ones(count: int, seed: int) -> Iterator[tuple[str, bytes]]:
    """The name of each random batch, and its bytes."""
    cases = RandomBatches(random.Random(seed))
    for place in range(count):
        batch = cases.whole_batch()[0]
        if place % 2:
            batch = sources.with_marks(batch, random.Random(seed + place))
        yield f"random batch {place + 1}", batch


def main(why: str, vjobs: str, count: int | str = 300, seed: int | str = 1) -> None:
    differences = []
    batches = list(stored())
    for name, batch in batches:
        differences += [f"{name}: {text}" for text in (*wrong((why, vjobs), batch), *wrong_profiles(why, batch))]
        looked = (*wrong_stops(why, batch, int(seed)), *wrong_pictures(why, batch, int(seed)),
                  *wrong_data(why, batch, int(seed)), *wrong_refusals(why, batch, int(seed)))
        differences += [f"{name}: {text}" for text in looked]
    for place, (name, batch) in enumerate(random_ones(int(count), int(seed))):
        looked = (*wrong_profiles(why, batch), *wrong_stops(why, batch, int(seed) + place),
                  *wrong_pictures(why, batch, int(seed) + place), *wrong_sources(why, batch),
                  *wrong_data(why, batch, int(seed) + place), *wrong_refusals(why, batch, int(seed) + place))
        differences += [f"{name}: {text}" for text in looked]
    print(*differences, sep="\n", end="\n" if differences else "")
    print(f"whys: {len(batches)} batches and {count} random ones, {len(differences)} differences")
    sys.exit(bool(differences))


if __name__ == "__main__":
    main(*sys.argv[1:])
