"""What there is at a state of a job: the calls, and the stack with its values, from the second writing."""
import random
from typing import Any

import batches
import kinds
import runs
from faults import Fault
from instructions import BOOL, SEGDES, kinds_of
from notes import names_of
from reader import Function
from runs import Limits
from sources import names_at

# The most entries, calls and values that are shown, and the values of an entry in a text.
MOST = {"entries": 24, "calls": 16, "values": 32}
MOST_IN_A_TEXT = 6
# A job is followed up to this many instructions.
LONGEST_RUN = 3_000


class Pictured(runs.Run):
    """A run that knows which line made each vector, where each call was made, and how many entries are below each."""

    def __init__(self, known: kinds.Signatures, *job: Any) -> None:
        super().__init__(*job)
        self.known, self.makers = known, dict[int, int]()
        self.names, self.callers, self.below = ["MAIN"], list[int](), [0]

    def push(self, kind: str, words: list[int]) -> None:
        self.makers[self.next_tag] = self.line
        super().push(kind, words)

    def step(self) -> None:
        rest, calls = self.calls[-1], len(self.calls)
        item = rest[0]
        self.line = item.line
        try:
            super().step()
        except runs.Ended:
            self.calls[-1] = rest
            raise
        if len(self.calls) > calls:
            self.names.append(item.word)
            self.callers.append(item.line)
            self.below.append(len(self.stack) - len(self.known[item.word][0]))
        elif len(self.calls) < calls:
            self.names.pop()
            self.below.pop()
            if self.callers:
                self.callers.pop()

    def operand_names(self) -> list[str]:
        """The names of the operands of the next instruction, the top first."""
        item = self.calls[-1][0]
        if item.what == "If":
            return ["flag"]
        return names_of(item.word)[::-1] if item.what == "Vector" else []

    def owned(self) -> list[tuple[str, int, int, int]]:
        """Of each call, the innermost first, its name, its line, the depth of its first entry, and how many it has."""
        lines = [*self.callers, self.calls[-1][0].line]
        ends = [*self.below[1:], len(self.stack)]
        rows = zip(self.names, lines, ends, self.below)
        return [(name, line, len(self.stack) - end, end - below) for name, line, end, below in rows][::-1]


def word_text(kind: str, word: int) -> str:
    return "FT"[word] if kind == BOOL else str(word)


def entries_of(job: Pictured) -> list[dict[str, Any]]:
    """The entries of a stack, the top first."""
    names, tops, found = job.operand_names(), list[int](), []
    for depth, entry in enumerate(reversed(job.stack)):
        made: dict[str, Any] = {"kind": entry.kind.upper(), "length": len(entry.words), "line": job.makers[entry.tag]}
        if depth < len(names):
            made["name"] = names[depth]
        if entry.kind == SEGDES:
            made["total"] = sum(entry.words)
        if entry.tag in tops:
            made["copy"] = tops.index(entry.tag)
        else:
            words = [word_text(entry.kind, word) for word in entry.words]
            made.update(values=" ".join(words[: MOST["values"]]), left=max(len(words) - MOST["values"], 0))
        tops.append(entry.tag)
        found.append(made)
    return found


def picture(job: Pictured, functions: list[Function], end: str) -> dict[str, Any]:
    """The members for a state."""
    places = [function.name for function in functions]
    calls, entries = job.owned(), entries_of(job)
    return {
        "most": MOST,
        "active": {
            "calls": len(calls),
            "left": max(len(calls) - MOST["calls"], 0),
            "list": [[places.index(name), line, count] for name, line, _, count in calls[: MOST["calls"]]],
        },
        "results" if end == "RETURNED" else "stack": {
            "entries": len(entries),
            "words": runs.held(job.stack),
            "left": max(len(entries) - MOST["entries"], 0),
            "list": entries[: MOST["entries"]],
        },
    }


def line_text(data: bytes, number: int) -> str:
    """The text of a line as it is shown beside an entry."""
    from profiles import shown

    return shown(data.split(b"\n")[number - 1]).strip(" ")


def values_text(kind: str, words: list[int]) -> str:
    shown = [word_text(kind, word) for word in words[:MOST_IN_A_TEXT]]
    return f"({' '.join([*shown, '..'] if len(words) > MOST_IN_A_TEXT else shown)})"


def left(count: int, most: int) -> list[str]:
    return [f"  .. and {count - most} more"] if count > most else []


def calls_text(job: Pictured, marks: dict[int, str]) -> list[str]:
    """The lines for the calls of a state."""
    lines = ["the calls, the innermost first"]
    for name, line, first, count in job.owned()[: MOST["calls"]]:
        several = f"entries {first} to {first + count - 1}"
        owned = "no entries" if not count else f"entry {first}" if count == 1 else several
        source = f", {marks[line]}" if line in marks else ""
        lines.append(f"  {name} at line {line}: {owned}{source}")
    return lines + left(len(job.calls), MOST["calls"])


def stack_text(job: Pictured, data: bytes, most: int) -> list[str]:
    """The lines for the stack of a state, with at most so many entries."""
    lines = [f"the stack, its top first: {len(job.stack)} entries, {runs.held(job.stack)} words"]
    for depth, (made, entry) in enumerate(zip(entries_of(job), reversed(job.stack))):
        if depth == most:
            break
        values = values_text(entry.kind, entry.words) + (f", total {made['total']}" if "total" in made else "")
        if "copy" in made:
            values = f"a copy of entry {made['copy']}"
        lines.append(f"  {depth:>4}  {made.get('name', ''):>4}  {made['kind']:>6} {made['length']:>9}  line "
                     f"{made['line']:>6}  {values:<20}  {line_text(data, made['line'])}")
    return lines + left(len(job.stack), most)


def range_text(job: Pictured, data: bytes, depth: int, first: int, last: int) -> list[str]:
    """The lines for the values of an entry from one place to another."""
    if depth >= len(job.stack):
        return [f"there is no entry {depth} on the stack: {len(job.stack)} entries"]
    entry = job.stack[-1 - depth]
    line = job.makers[entry.tag]
    head = (f"entry {depth}: {entry.kind.upper()}, {len(entry.words)} values, line {line}  {line_text(data, line)}")
    if first > len(entry.words):
        return [head, f"  there is no place {first}"]
    words = [word_text(entry.kind, word) for word in entry.words]
    rows = range(first, min(last + 1, len(words)), 8)
    return [head, *(f"  {place:>9}  {' '.join(words[place : min(place + 8, last + 1)])}" for place in rows)]


def range_data(job: Pictured, depth: int, first: int, last: int) -> dict[str, Any]:
    """The members for the values of an entry from one place to another."""
    if depth >= len(job.stack):
        return {"entries": len(job.stack), "entry": None}
    entry = job.stack[-1 - depth]
    values = " ".join(word_text(entry.kind, word) for word in entry.words[first : last + 1])
    return {"entries": len(job.stack), "entry": {"depth": depth, "kind": entry.kind.upper(), "length": len(entry.words),
                                                 "line": job.makers[entry.tag], "first": first, "values": values}}


# ---- looks

def jobs_of(data: bytes) -> list[tuple[int, Any, list[Function], batches.JobText, Any]]:
    """Of each job of a batch that runs its place, its signatures, functions and texts, and a maker of its run."""
    try:
        is_second, jobs = batches.jobs_of(data)
    except batches.BatchRefused:
        return []
    found = []
    for place, job in enumerate(jobs, 1):
        _, _, numbers, signatures, code = job
        try:
            functions = batches.verified(*signatures, *code)
        except Fault:
            continue
        known = kinds.read_signatures(signatures[1], signatures[0])
        found.append((place, known, functions, job, Pictured(known, functions, Limits(*numbers), is_second)))
    return found


def go_to(job: Pictured, count: int) -> bool:
    """Executes so many instructions; false if the job is over before."""
    try:
        for _ in range(count):
            if not job.calls:
                return False
            job.step()
    except runs.Ended:
        return False
    return bool(job.calls)


def length_of(job: Pictured) -> int | None:
    """How many instructions lead to the last state of a job, or None if they are too many."""
    try:
        for count in range(LONGEST_RUN):
            if len(job.calls) == 1 and job.calls[0][0].what == "Return":
                return count
            job.step()
    except runs.Ended:
        return job.executed
    return None


def last_picture(known: kinds.Signatures, functions: list[Function], limits: Limits, is_second: bool,
                 end: str) -> dict[str, Any]:
    """The members for the last state of a job, or none if it executes too many instructions."""
    job = Pictured(known, functions, limits, is_second)
    return {} if length_of(job) is None else picture(job, functions, end)


def made_text(job: Pictured, item: Any) -> list[str]:
    """The lines for what an instruction has made that was executed last."""
    count = 1 if item.what == "Const" else len(kinds_of(item.word, item.kind).results) if item.what == "Vector" else 0
    return [f"{'':30}{len(entry.words):>10}    {entry.kind.upper()} {values_text(entry.kind, entry.words)}"
            for entry in job.stack[len(job.stack) - count :]] if count else []


def all_made(job: Pictured, first: int, last: int) -> list[str]:
    """What the instructions of these numbers made."""
    lines: list[str] = []
    while job.calls and job.executed < last:
        item = job.calls[-1][0]
        try:
            job.step()
        except runs.Ended:
            break
        if job.executed >= first:
            lines += made_text(job, item)
    return lines


def looks(data: bytes, chance: random.Random) -> list[tuple[list[str], list[str]]]:
    """Options for the jobs of a batch that run, with lines that have to be printed one after another."""
    found: list[tuple[list[str], list[str]]] = []
    for (place, known, functions, text, job), (*_, again), (*_, third) in zip(*(jobs_of(data) for _ in range(3))):
        steps = length_of(job)
        if steps is None:
            continue
        count, head = chance.randint(0, steps), ["--job", str(place)]
        if not go_to(again, count):
            continue
        marks = names_at(functions, *text[4])
        most = chance.choice([24, 10**9])
        found.append(([*head, "--after", str(count), *(["--all"] if most > 24 else [])],
                      [*calls_text(again, marks), "", *stack_text(again, data, most)]))
        depth = chance.randint(0, len(again.stack))
        longest = len(again.stack[-1 - depth].words) if depth < len(again.stack) else 0
        first = chance.randint(0, longest + 1)
        last = first + chance.randint(0, 12)
        found.append(([*head, "--after", str(count), f"--values={depth}:{first}-{last}"],
                      range_text(again, data, depth, first, last)))
        found.append(([*head, f"--values={chance.randint(0, 3)}"], []))
        number = int(found[-1][0][-1].partition("=")[2])
        found[-1] = (found[-1][0], range_text(job, data, number, 0, 10**9))
        until = count + chance.randint(0, 6)
        made = all_made(third, max(count, 1), until)
        found.append(([*head, "--steps", "--values", "--from", str(max(count, 1)), "--to", str(until)], made))
    return found


def used_at(job: Pictured, goes_on: bool) -> dict[str, Any]:
    """The members for what a job has used up to a state, and for its next line."""
    return {"instructions": job.executed, "peak": job.peak, "next": job.calls[-1][0].line if goes_on else None}


def looks_at_data(data: bytes, chance: random.Random) -> list[tuple[list[str], dict[str, Any]]]:
    """Options for states of the jobs of a batch that run, as data, with the objects that have to be printed."""
    from profiles import end_of

    found: list[tuple[list[str], dict[str, Any]]] = []
    for (place, _, functions, text, job), (*_, again) in zip(jobs_of(data), jobs_of(data)):
        steps = length_of(job)
        if steps is None:
            continue
        names = {"job": place, "name": text[1]}
        depth, first = chance.randint(0, len(job.stack)), chance.choice([0, 0, 1, 5])
        last = chance.choice([first, first + 9, 10**9])
        values = f"--values={depth}" + ("" if (first, last) == (0, 10**9) else f":{first}-{last}")
        there, next_line = range_data(job, depth, first, last), job.calls[-1][0].line
        end, line = end_of(job)
        used = {"end": end, "line": line, **used_at(job, False), "next": next_line}
        found.append((["--job", str(place), "--json", values], {**names, **used, **there}))
        count = chance.randint(0, steps + 1)
        goes_on = go_to(again, count)
        options, used = ["--job", str(place), "--json", "--after", str(count)], used_at(again, goes_on)
        if not goes_on:
            ways: list[list[str]] = [options, [*options, "--all"], [*options, values]]
            found += [(way, {**names, **used}) for way in ways]
            continue
        found.append(([*options, values], {**names, **used, **range_data(again, depth, first, last)}))
        state: dict[str, Any] = {"functions": [function.name for function in functions]}
        state |= picture(again, functions, "")
        found.append((options, {**names, **used, **state}))
        whole = {**state["stack"], "left": 0, "list": entries_of(again)}
        found.append(([*options, "--all"], {**names, **used, **state, "stack": whole}))
    return found
