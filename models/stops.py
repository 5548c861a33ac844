"""The states of a job at which `vjobs-why --at` and `--when` have to stop, from the second writing."""
import random
from typing import Any, NamedTuple

import batches
import runs
from faults import Fault
from instructions import INT, kinds_of
from reader import Function
from runs import Limits
from vectors import NoResult, results

# A job is followed up to this many instructions.
LONGEST_RUN = 3_000


class State(NamedTuple):
    """The line of the next instruction, the function that it calls, and how much there is."""

    line: int
    called: str | None
    words: int
    entries: int
    makes: int


def makes_of(job: runs.Run, item: Any) -> int:
    """The words of the results of an instruction, which are none if its operands don't fit one another."""
    if item.what == "Const":
        return len(item.numbers)
    if item.what != "Vector":
        return 0
    count = len(kinds_of(item.word, item.kind).operands)
    operands = [entry.words for entry in job.stack[len(job.stack) - count :]]
    try:
        results(item.word, item.kind or INT, operands)
    except NoResult as end:
        fault = str(end)
        if fault not in runs.VALUE_FAULTS and not fault.startswith("needs"):
            return 0
    return runs.need(item.word, operands)


def states_of(functions: list[Function], limits: Limits, is_second: bool) -> list[State] | None:
    """The states of a job that goes on, or None if there are too many."""
    job = runs.Run(functions, limits, is_second)
    states: list[State] = []
    try:
        while job.calls:
            if len(states) == LONGEST_RUN:
                return None
            item = job.calls[-1][0]
            called = item.word if item.what == "Call" else None
            states.append(State(item.line, called, runs.held(job.stack), len(job.stack), makes_of(job, item)))
            job.step()
    except runs.Ended:
        pass
    return states


def place_at(found: list[int], time: int) -> int | None:
    """The K-th of these places."""
    return found[time - 1] if time <= len(found) else None


def begins(states: list[State], name: str) -> list[int]:
    """The states at which a call of a function begins: after a CALL that is executed, and that of MAIN at first."""
    after = [place for place in range(1, len(states)) if states[place - 1].called == name]
    return [0, *after] if name == "MAIN" else after


def stops(states: list[State], names: list[str], chance: random.Random) -> list[tuple[list[str], int | None, str]]:
    """Options that look for a state, the number of instructions that lead there, and what is shown if there is none."""
    found: list[tuple[list[str], int | None, str]] = []
    line, time = chance.choice(states).line, chance.randint(1, 3)
    at = [place for place, state in enumerate(states) if state.line == line]
    found.append((["--at", f"{line}:{time}"], place_at(at, time), f"line {line} is not next {time} times"))
    name, time = chance.choice(names), chance.randint(1, 3)
    found.append((["--at", f"{name}:{time}"], place_at(begins(states, name), time),
                  f"{name} is not called {time} times"))
    for what, none in (("words", "never holds more than {} words"), ("entries", "never has more than {} entries"),
                       ("makes", "has no instruction that makes more than {} words")):
        most = max(getattr(chance.choice(states), what) - chance.randint(0, 1), 0)
        at = [place for place, state in enumerate(states) if getattr(state, what) > most]
        found.append((["--when", f"{what}>{most}"], place_at(at, 1), none.format(most)))
    return found


def all_stops(data: bytes, chance: random.Random) -> list[tuple[list[str], str]]:
    """Options for the jobs of a batch that run, with the beginning of the line that they have to print."""
    try:
        is_second, jobs = batches.jobs_of(data)
    except batches.BatchRefused:
        return []
    found = []
    for place, (_, name, numbers, signatures, code) in enumerate(jobs, 1):
        try:
            functions = batches.verified(*signatures, *code)
        except Fault:
            continue
        states = states_of(functions, Limits(*numbers), is_second)
        names = [function.name for function in functions if function.name.isalpha()]
        for options, count, none in stops(states, names or ["MAIN"], chance) if states else []:
            shown = none if count is None else f"after {count} instructions, with a peak of "
            found.append((["--job", str(place), *options], f"JOB {place} {name} {shown}"))
    return found
