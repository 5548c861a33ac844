"""Where the requests of a session lead, from the second writing: the number of the state, and why it stops there."""
from __future__ import annotations

from dataclasses import dataclass, field, replace
from typing import Any

from client import MOVES
from histories import Record, Stop, line_met, lines_of_source

# Why a state stops, by what holds there.
REASONS = {"line": "breakpoint", "call": "function breakpoint", "words": "data breakpoint",
           "entries": "data breakpoint", "makes": "data breakpoint"}


@dataclass
class Breakpoint:
    """What a client asked for: the line of the answer, if it has one, and what holds where it stops.

    The program gives it its id. It isn't verified if nothing holds anywhere."""

    stops: list[Stop]
    line: int | None = None
    number: int = 0


@dataclass
class Came:
    """A state that a request leads to: its number, the reasons that are right, the ids of what holds there, and its
    description."""

    at: int
    reasons: set[str]
    ids: list[int] = field(default_factory=list)
    text: str = ""
    is_over: bool = False


class Session:
    """What is set, and where the run is."""

    def __init__(self, record: Record) -> None:
        self.record, self.at = record, 0
        self.by_file: dict[str, list[Breakpoint]] = {}
        self.of_functions: list[Breakpoint] = []
        # Whether the run has come to its end. From the last state before it a move forward ends the session then.
        self.knows_end = False

    # ---- breakpoints

    def at_line(self, line: int) -> Breakpoint:
        """A breakpoint of a line of the batch, at that line or at the next one that has an instruction."""
        met = line_met(self.record, line)
        return Breakpoint([] if met is None else [Stop("line", met)], met)

    def at_source(self, file: str, line: int) -> Breakpoint:
        """A breakpoint of a line of a source that comments name."""
        lines = lines_of_source(self.record, file, line)
        return Breakpoint([Stop("line", it) for it in lines], line if lines else None)

    def at_name(self, name: str) -> Breakpoint:
        """A breakpoint of a function, or of more than a number of something."""
        what, mark, most = name.partition(">")
        if mark and what in ("words", "entries", "makes") and most.isdigit():
            return Breakpoint([Stop(what, int(most))])
        names = [function.name for function in self.record.functions]
        return Breakpoint([Stop("call", name)] if name in names else [])

    def breakpoints(self) -> list[Breakpoint]:
        return [*(each for some in self.by_file.values() for each in some), *self.of_functions]

    def held(self, number: int) -> list[tuple[Breakpoint, str]]:
        """The breakpoints that hold at a state, each with its reason."""
        state = self.record.states[number]
        return [(each, REASONS[stop.what]) for each in self.breakpoints() for stop in each.stops if stop.holds(state)]

    # ---- moves

    def came(self, number: int, reason: str) -> Came:
        """A state that was come to. What holds there comes before the reason of the move."""
        held = self.held(number)
        ids = sorted({each.number for each, _ in held})
        return Came(number, {why for _, why in held} or {reason}, ids, f"state {number} of the run")

    def end(self) -> Came:
        """The last state, to which a move leads that would go past the end."""
        if self.knows_end and self.at == self.record.last:
            return Came(self.at, set(), is_over=True)
        return self.end_again()

    def later(self, calls: int) -> int | None:
        """The first later state with at most so many calls, or at which a breakpoint holds."""
        numbers = range(self.at + 1, len(self.record.states))
        return next((it for it in numbers if len(self.record.states[it].calls) <= calls or self.held(it)), None)

    def forward(self, command: str) -> Came:
        calls = len(self.record.states[self.at].calls)
        if command == "stepIn":
            number = self.at + 1 if self.at < self.record.last else None
        else:
            number = self.later({"next": calls, "stepOut": calls - 1, "continue": 0}[command])
        return self.end() if number is None else self.came(number, "step")

    def backward(self, command: str) -> Came:
        if command == "stepBack":
            number = max(self.at - 1, 0)
        else:
            number = next((it for it in reversed(range(self.at)) if self.held(it)), 0)
        return self.came(number, "step" if number else "entry")

    def go(self, command: str) -> Came:
        """Where a move leads."""
        assert command in MOVES
        came = self.backward(command) if command in ("stepBack", "reverseContinue") else self.forward(command)
        self.at = came.at
        return came

    def go_to(self, number: int) -> Came:
        """Where `at N` leads."""
        if number > self.record.last:
            came = self.end_again()
        else:
            came = replace(self.came(number, ""), reasons={"goto"})
        self.at = came.at
        return came

    def end_again(self) -> Came:
        """The last state, whether or not it is shown already."""
        self.knows_end = True
        came, has_returned = self.came(self.record.last, ""), self.record.end == "RETURNED"
        text = f"{came.text}: {'' if has_returned else f'{self.record.end}, '}{self.record.note}"
        return replace(came, reasons={"end" if has_returned else "exception"}, text=text)


def wrong_stop(found: dict[str, Any], wanted: Came) -> list[str]:
    """What is wrong with an event that says where the run came."""
    if wanted.is_over or found["event"] == "terminated":
        is_right = wanted.is_over and found["event"] == "terminated"
        return [] if is_right else [f"{found}, and not {wanted}"]
    body = found["body"]
    faults = []
    if body["reason"] not in wanted.reasons:
        faults.append(f"the reason is {body['reason']}, and not one of {wanted.reasons}")
    if sorted(body.get("hitBreakpointIds", [])) != wanted.ids:
        faults.append(f"the breakpoints are {body.get('hitBreakpointIds')}, and not {wanted.ids}")
    if (body["threadId"], body["allThreadsStopped"]) != (1, True):
        faults.append(f"what stopped is {body}")
    if body["description"] != wanted.text:
        faults.append(f"it is said to be at {body['description']!r}, and not at {wanted.text!r}")
    return faults
