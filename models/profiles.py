"""What `vjobs-why --json` has to print of each job of a batch, from the second writing."""
import json
from collections import Counter, defaultdict
from typing import Any

import batches
import holders
import kinds
import pictures
import runs
import sources
from faults import Fault
from instructions import kinds_of
from notes import note_of
from reader import Function
from runs import Limits

# The most columns of the words over time, and the most chains of functions.
MOST_COLUMNS, MOST_CHAINS = 2048, 4096
GREATEST_WORDS, GREATEST_CELLS, GREATEST_CALLS, GREATEST_BUDGET = 1_048_576, 4096, 1024, 1_000_000_000
# What a run within wide limits may execute beside four times what the job did, or what the job did if its budget ended
# it.
# It may also be given up after many elements, which no run has that is as short as the next limit.
MORE_INSTRUCTIONS = 1_000_000
# A run within wide limits that executes more instructions is given up, and then least limits are not compared.
LONGEST_RUN = 3_000
UNKNOWN = "unknown"


class Work:
    """How many instructions were executed, and how many elements their operands and results had."""

    def __init__(self) -> None:
        self.instructions, self.elements = 0, 0

    def add(self, elements: int) -> None:
        self.instructions, self.elements = self.instructions + 1, self.elements + elements

    def shown(self) -> dict[str, int]:
        return {"instructions": self.instructions, "elements": self.elements}


def counts_of(item: Any) -> tuple[int, int]:
    """How many operands and results an instruction has whose elements count: not those that are only moved."""
    if item.what == "Vector":
        kinds = kinds_of(item.word, item.kind)
        return len(kinds.operands), len(kinds.results)
    return int(item.what == "If"), int(item.what == "Const")


class Counted(runs.Run):
    """A run that counts how often each line is executed, and knows after which instruction it first had its peak.

    Of each instruction it keeps the words that it held and needed, those that were held after it, its line and its
    function. It also knows the line that was next last, the most entries and calls, and what lines and functions
    executed. For each path of functions that run inside one another it knows how often its last function was called and
    what it executed. A function that runs already goes on in its path."""

    def __init__(self, *job: Any) -> None:
        super().__init__(*job)
        self.peak_at, self.last, self.cells, self.most_calls = 0, 0, 0, 1
        self.samples: list[tuple[int, int, int, str]] = []
        self.active: list[tuple[str, ...]] = [("MAIN",)]
        self.paths: dict[tuple[str, ...], tuple[list[int], Work]] = {}
        self.lines: defaultdict[int, Work] = defaultdict(Work)
        self.by_path: defaultdict[tuple[str, ...], Counter[int]] = defaultdict(Counter)
        self.own: defaultdict[str, Work] = defaultdict(Work)
        self.whole: defaultdict[str, Work] = defaultdict(Work)
        self.path_of(("MAIN",))[0][0] = 1

    def executes(self, operands: int = 0, need_words: int = 0) -> None:
        super().executes(operands, need_words)
        # No entry that a motion moves is an operand: all of them are held.
        self.demand = self.words(0 if self.moves else operands, need_words)

    def step(self) -> None:
        item, executed, peak, calls = self.calls[-1][0], self.executed, self.peak, len(self.calls)
        self.item, self.last, self.moves = item, item.line, item.what == "Move"
        operands, results = counts_of(item)
        read = self.elements(operands)
        super().step()
        if self.executed > executed:
            self.count(item.line, read + self.elements(results))
        if self.peak > peak:
            self.peak_at = self.executed
        self.cells, self.most_calls = max(self.cells, len(self.stack)), max(self.most_calls, len(self.calls))
        if len(self.calls) < calls:
            self.active.pop()
        elif len(self.calls) > calls:
            self.enter(item.word)

    def elements(self, count: int) -> int:
        """The elements of the entries at the top, this many of them."""
        return sum(len(entry.words) for entry in self.stack[len(self.stack) - count :])

    def path_of(self, path: tuple[str, ...]) -> tuple[list[int], Work]:
        return self.paths.setdefault(path, ([0], Work()))

    def count(self, line: int, elements: int) -> None:
        """Counts an instruction that was executed, by its line, its function, those that are active, and its path."""
        name = self.active[-1][-1]
        self.by_path[self.active[-1]][line] += 1
        self.samples.append((self.demand, runs.held(self.stack) if self.calls else 0, line, name))
        whole = [self.whole[active] for active in {path[-1] for path in self.active}]
        for work in (self.lines[line], self.own[name], self.path_of(self.active[-1])[1], *whole):
            work.add(elements)

    def enter(self, name: str) -> None:
        path = self.active[-1]
        path = path[: path.index(name) + 1] if name in path else (*path, name)
        self.active.append(path)
        self.path_of(path)[0][0] += 1

    def called(self, name: str) -> int:
        """How often a function was called."""
        return sum(calls[0] for path, (calls, _) in self.paths.items() if path[-1] == name)

    def chains(self, functions: list[Function]) -> list[list[int]]:
        """For each path the place of the path around it, that of its function, and its counts."""
        names = [function.name for function in functions]
        places = {path: place for place, path in enumerate(self.paths)}
        return [[places.get(path[:-1], 0), names.index(path[-1]), *calls, work.instructions, work.elements]
                for path, (calls, work) in self.paths.items()]


def shown(line: bytes) -> str:
    """A line of a batch as it is shown."""
    text = "".join(chr(byte) if 32 <= byte <= 126 else " " if byte in b"\t\r" else "?" for byte in line[:96])
    return text + ".." if len(line) > 96 else text


def shown_code(functions: list[Function], first: int, text: bytes) -> dict[str, Any]:
    """The lines of a code up to its last RET."""
    last = functions[-1].items[-1].line if functions else 0
    return {"first": first, "lines": [shown(line) for line in text.split(b"\n")[: max(last - first + 1, 0)]]}


def most_often(names: list[str], functions: list[Function]) -> int:
    """The place of the function that is there most often, the first of them in the code."""
    counts = Counter(names)
    return max(range(len(functions)), key=lambda place: (counts[functions[place].name], -place))


def columns_of(samples: list[tuple[int, int, int, str]], functions: list[Function]) -> dict[str, Any]:
    """The words over time: the columns are of the least power of 2 of instructions of which few enough are enough."""
    each = 1
    while len(samples) > MOST_COLUMNS * each:
        each *= 2
    parts = [samples[first : first + each] for first in range(0, len(samples), each)]
    # max takes the first of the greatest.
    lines = [max(part, key=lambda sample: sample[0])[2] for part in parts]
    return {
        "each": each,
        "most": [max(most for most, *_ in part) for part in parts],
        "least": [min(least for _, least, *_ in part) for part in parts],
        "line": lines,
        "function": [sum(function.line <= line for function in functions) - 1 for line in lines],
        "ran": [most_often([name for *_, name in part], functions) for part in parts],
    }


def end_of(job: runs.Run, most: int | None = None) -> tuple[str, int | None]:
    """How a job ends, and the line that its end has. If it executes more than the most instructions, it is LONG."""
    try:
        while job.calls:
            if job.executed == most:
                return "LONG", None
            job.step()
    except runs.Ended as end:
        what, *where = str(end).split(" line ")
        if where:
            line, name = where[0].split(" ", 1)
            return f"{what} {name}", int(line)
        return what, None
    return "RETURNED", None


def limits_shown(words: int, cells: int, calls: int, budget: int) -> dict[str, int]:
    return {"words": words, "cells": cells, "calls": calls, "budget": budget}


def course(job: Counted, end: str, functions: list[Function]) -> dict[str, Any]:
    """The least limits within which a job returns, if it returned, or a limit ended it and it returns within wide ones;
    or how it ends within these."""
    is_ended = end.startswith(("MEMORY", "BUDGET"))
    if end == "BUDGET" and job.executed > MORE_INSTRUCTIONS:
        return {"least": None, "widest": None}
    line = None
    if is_ended:
        times = 1 if end == "BUDGET" else 4
        budget = min(times * job.executed + MORE_INSTRUCTIONS, GREATEST_BUDGET)
        job = Counted(functions, Limits(GREATEST_WORDS, GREATEST_CELLS, GREATEST_CALLS, budget), job.is_second)
        end, line = end_of(job, LONGEST_RUN)
    if end == "LONG":
        return {"least": UNKNOWN, "widest": UNKNOWN}
    if end == "RETURNED":
        return {"least": limits_shown(job.peak, max(job.cells, 1), job.most_calls, job.executed), "widest": None}
    if not is_ended or end == "BUDGET":
        return {"least": None, "widest": None}
    widest: dict[str, Any] = {"instructions": job.executed, "end": end, "line": line}
    wanted = note_of(job, job.item, end)[1]
    return {"least": None, "widest": widest if wanted is None else {**widest, "wanted": wanted}}


def profile(functions: list[Function], limits: Limits, is_second: bool, known: kinds.Signatures) -> dict[str, Any]:
    job = Counted(functions, limits, is_second)
    end, line = end_of(job)
    note, wanted = note_of(job, job.item, end)
    columns = columns_of(job.samples, functions)
    return {
        "end": end,
        "line": line,
        "instructions": job.executed,
        "peak": job.peak,
        "peak_at": job.peak_at,
        "last": job.last,
        "limits": limits_shown(limits.words, limits.cells, limits.calls, limits.budget),
        "rule": 1 + is_second,
        "used": limits_shown(job.peak, job.cells, job.most_calls, job.executed),
        "note": note,
        "wanted": wanted,
        **course(job, end, functions),
        "functions": [
            {
                "name": function.name,
                "line": function.line,
                "calls": job.called(function.name),
                **job.own[function.name].shown(),
                "with_callees": job.whole[function.name].shown(),
            }
            for function in functions
        ],
        "lines": [[line, work.instructions, work.elements] for line, work in sorted(job.lines.items())],
        "columns": columns,
        "calls": job.chains(functions),
        **pictures.last_picture(known, functions, limits, is_second, end),
        **holders.found(known, functions, limits, is_second, end, job, columns["each"]),
    }


def profiles(data: bytes) -> list[dict[str, Any]] | None:
    """The object of each job of a batch, or None if the batch is refused."""
    try:
        is_second, jobs = batches.jobs_of(data)
    except batches.BatchRefused:
        return None
    found = []
    for place, (begun, name, numbers, signatures, code) in enumerate(jobs, 1):
        try:
            functions = batches.verified(*signatures, *code)
            known = kinds.read_signatures(signatures[1], signatures[0])
            made: dict[str, Any] = {**profile(functions, Limits(*numbers), is_second, known),
                                    "code": shown_code(functions, *code)}
            made["source"] = sources.source_of(functions, *code, made["lines"])
        except Fault as fault:
            words = str(fault).split(" ", 2)
            made = {"end": f"REFUSED {words[2]}", "line": int(words[1])}
        found.append({"job": place, "name": name, **made})
    return found


def sums(chains: list[list[int]]) -> list[int]:
    """The calls, instructions and elements of all chains."""
    return [sum(chain[place] for chain in chains) for place in (2, 3, 4)]


def differences(shown: str, data: bytes) -> list[str]:
    """The jobs of a batch that are shown otherwise than the second writing has them, by the members that it works out."""
    wanted = profiles(data)
    if wanted is None:
        return []
    found = [json.loads(line) for line in shown.splitlines()]
    if len(found) != len(wanted):
        return [f"{len(found)} of {len(wanted)} jobs are shown"]
    wanted = [{member: value for member, value in want.items() if value != UNKNOWN} for want in wanted]
    found = [{member: got.get(member) for member in want} for got, want in zip(found, wanted)]
    for got, want in zip(found, wanted):
        if len(want.get("calls", [])) > MOST_CHAINS:
            # What has no chain of its own is in rests, each in a chain.
            named = [chain for chain in got["calls"] if chain[1] < len(want["functions"])]
            got["calls"], want["calls"] = [len(named), *sums(got["calls"])], [MOST_CHAINS, *sums(want["calls"])]
    return [f"shown as {got}, and not as {want}" for got, want in zip(found, wanted) if got != want]
