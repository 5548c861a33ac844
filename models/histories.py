"""The states of a run, recorded one after another, with the place of each instruction in the text: the second writing
of what a session of vjobs-dap goes over.

The code is read once more with each of its words on a line of its own. So the number that the reader gives an
instruction for its line says which word it begins with, and that says its line and its column in the batch."""
from __future__ import annotations

import re
from collections.abc import Callable, Iterator
from dataclasses import dataclass
from typing import Any, NamedTuple

import batches
import kinds
import pictures
import reader
import runs
import sources
import stops
from faults import Fault
from instructions import kinds_of
from notes import note_of
from runs import Entry, Limits

# Blanks and comments, or a word.
PIECE = re.compile(rb"[ \t\r\n]+|\{[^}]*\}|([()]|[!-'*-z|~]+)")


class Place(NamedTuple):
    """Where a word begins: its line in the batch, and its column in bytes, both counted from 1."""

    line: int
    column: int


class Columns(NamedTuple):
    """The columns at which an instruction begins and after which it ends in its first line, counted from 1, as the
    protocol counts them: in code units of UTF-16."""

    begin: int
    end: int


class Call(NamedTuple):
    """An active call: its function, where it goes on or where the CALL of the next one is, and how many entries are
    below its own."""

    name: str
    place: Place
    below: int


@dataclass
class State:
    """What there is after a number of instructions. The calls are outermost first, the entries bottom first."""

    executed: int
    peak: int
    calls: tuple[Call, ...]
    stack: tuple[Entry, ...]
    called: str | None
    names: tuple[str, ...]
    held: int
    makes: int
    demand: int

    @property
    def place(self) -> Place:
        """Where the next instruction is."""
        return self.calls[-1].place

    def owned(self, place: int) -> tuple[int, int]:
        """The depth of the first entry of the call at a place, and how many entries it has."""
        ends = [*(call.below for call in self.calls[1:]), len(self.stack)]
        return len(self.stack) - ends[place], ends[place] - self.calls[place].below


@dataclass
class Record:
    """The states of a job that go on, in their order, how it ended, as the report has it, and why."""

    text: batches.JobText
    is_second: bool
    limits: Limits
    states: list[State]
    end: str
    note: str
    functions: list[reader.Function]
    # Where each instruction of the code begins, in the order of the code, and its columns in that line.
    places: dict[Place, Columns]
    # The lines that made the entries, by their tags.
    makers: dict[int, int]
    # The places in the source of lines of the code, as `FILE:LINE`, and the marks that name them.
    sources: dict[int, str]
    marks: dict[int, tuple[bytes, int, bytes] | None]

    @property
    def last(self) -> int:
        """The number of the last state before the end."""
        return len(self.states) - 1

    @property
    def lines(self) -> list[int]:
        """The lines on which instructions begin."""
        return sorted({place.line for place in self.places})

    @property
    def shared(self) -> set[int]:
        """The lines with which a function begins, and on which an instruction of the one before it is."""
        pairs = zip(self.functions, self.functions[1:])
        return {after.items[0].line for before, after in pairs if before.items[-1].line == after.items[0].line}


def pieces(first: int, code: bytes) -> tuple[list[bytes], list[Place]]:
    """The words of a code, and where each begins."""
    words, places = list[bytes](), list[Place]()
    line, begin = first, 0
    for found in PIECE.finditer(code):
        if found[1]:
            words.append(found[1])
            places.append(Place(line, found.start() - begin + 1))
        elif b"\n" in found[0]:
            line += found[0].count(b"\n")
            begin = found.start() + found[0].rindex(b"\n") + 1
    return words, places


def word_count(item: reader.Item, rest: list[bytes]) -> int:
    """How many words an instruction has, which begins with the first of these."""
    if item.what == "Const":
        return rest.index(b")") + 1 if rest[2] == b"(" else 3
    if item.what == "Vector":
        return 2 if item.kind or rest[1:2] == [b"INT"] else 1
    return {"Move": 3, "Call": 2}.get(item.what, 1)


def units(text: bytes) -> int:
    """How many code units of UTF-16 a part of a line has, or how many bytes if it isn't UTF-8."""
    try:
        return len(text.decode().encode("utf-16-le")) // 2
    except UnicodeDecodeError:
        return len(text)


def extent(item: reader.Item, words: list[bytes], places: list[Place], rows: dict[int, bytes]) -> tuple[Place, Columns]:
    """Where an instruction begins, whose line is the number of its first word, and its columns in this line."""
    first = item.line - 1
    last = first + word_count(item, words[first : first + len(item.numbers) + 5]) - 1
    begin, (line, column) = places[first], places[last]
    row = rows[begin.line]
    end = row[: column - 1 + len(words[last])] if line == begin.line else row
    return begin, Columns(units(row[: begin.column - 1]) + 1, units(end) + 1)


def demand_of(job: runs.Run, item: Any, makes: int) -> int:
    """The words that are held and needed at an instruction. None is left out at one that moves entries."""
    operands = len(kinds_of(item.word, item.kind).operands) if item.what == "Vector" else int(item.what == "If")
    return job.words(operands, makes)


def state_of(job: pictures.Pictured, places: list[Place]) -> State:
    item = job.calls[-1][0]
    at = [places[number - 1] for number in (*job.callers, item.line)]
    makes = stops.makes_of(job, item)
    return State(job.executed, job.peak, tuple(map(Call, job.names, at, job.below)), tuple(job.stack),
                 item.word if item.what == "Call" else None, tuple(job.operand_names()), runs.held(job.stack), makes,
                 demand_of(job, item, makes))


def why(job: pictures.Pictured, end: str) -> str:
    """Why a job ends so before its next instruction."""
    if end == "BUDGET":
        return f"the budget of {job.limits.budget} instructions is spent"
    return note_of(job, job.calls[-1][0], re.sub(r" line \d+", "", end))[0]


def all_states(job: pictures.Pictured, places: list[Place], most: int) -> tuple[list[State], str, str] | None:
    """The states of a job that goes on, how it ends and why, or None if it has more states than the most."""
    states: list[State] = []
    try:
        while job.calls:
            if len(states) == most:
                return None
            states.append(state_of(job, places))
            job.step()
    except runs.Ended as end:
        text = re.sub(r"line (\d+)", lambda it: f"line {places[int(it[1]) - 1].line}", str(end))
        return states, text, why(job, str(end))
    return states, "RETURNED", "returns"


def record(job: batches.JobText, is_second: bool, most: int) -> Record | None:
    """What there is of a job that is verified; None if it has more states than the most."""
    _, _, numbers, signatures, code = job
    functions = batches.verified(*signatures, *code)
    known = kinds.read_signatures(signatures[1], signatures[0])
    words, places = pieces(*code)
    apart = reader.read(b"\n".join(words), 1)
    run = pictures.Pictured(known, apart, Limits(*numbers), is_second)
    found = all_states(run, places, most)
    if not found:
        return None
    items = [item for function in apart for item in function.items if item.what not in ("Else", "Endif")]
    makers = {tag: places[number - 1].line for tag, number in run.makers.items()}
    rows = dict(enumerate(code[1].split(b"\n"), code[0]))
    extents = dict(extent(item, words, places, rows) for item in items)
    named, marks = sources.names_at(functions, *code), sources.marks_of(functions, *code)
    return Record(job, is_second, Limits(*numbers), *found, functions, extents, makers, named, marks)


def records(data: bytes, most: int = 3_000) -> Iterator[tuple[int, Record]]:
    """Of each job of a batch that runs its place, and what there is of it, if it has no more states than the most."""
    try:
        is_second, jobs = batches.jobs_of(data)
    except batches.BatchRefused:
        return
    for place, job in enumerate(jobs, 1):
        try:
            found = record(job, is_second, most)
        except Fault:
            continue
        if found:
            yield place, found


# ---- stops

class Stop(NamedTuple):
    """What holds at some states: a line of the batch, a function that is called, or more than a number of something."""

    what: str
    value: Any

    def holds(self, state: State) -> bool:
        ways: dict[str, Callable[[], bool]] = {
            "line": lambda: state.place.line == self.value,
            "call": lambda: state.called == self.value,
            "words": lambda: state.held > self.value,
            "entries": lambda: len(state.stack) > self.value,
            "makes": lambda: state.makes > self.value,
        }
        return ways[self.what]()


def line_met(record: Record, line: int) -> int | None:
    """The line at which a breakpoint of a line of the batch is: that one, or the next with an instruction."""
    return next((other for other in record.lines if other >= line), None)


def lines_of_source(record: Record, file: str, line: int) -> list[int]:
    """The lines at which the code of a line of a source begins, whose file has this last component.

    It begins at an instruction's line if the line before, of the same function, is of another line of a source."""
    firsts = {function.items[0].line for function in record.functions}
    found, before = list[int](), None
    for number in record.lines:
        name, _, place = record.sources.get(number, "").rpartition(":")
        is_there = bool(place) and (name.rpartition("/")[2], int(place)) == (file, line)
        if is_there and (not before or number in firsts and number not in record.shared):
            found.append(number)
        before = is_there
    return found
