"""What vjobs-dap has to show of a state of a run, from the second writing."""
from __future__ import annotations

from collections.abc import Iterator
from typing import Any

from client import Client, Refused
from histories import Record, State
from instructions import SEGDES
from pictures import values_text, word_text
from runs import Entry

# The most variables of an answer, and the most values in the text of an entry.
MOST_VARIABLES, MOST_VALUES = 65_536, 4_096
# A scope with more entries is said to be expensive.
MOST_CHEAP = 256


class Shown:
    """What a session shows of the states of a record. A client counts lines and columns from FIRST on."""

    def __init__(self, record: Record, path: str, first_line: int = 1, first_column: int = 1) -> None:
        self.record, self.path = record, path
        self.line_shift, self.column_shift = 1 - first_line, 1 - first_column
        # The reference of the values of the entry at a depth, once it was shown. It is the same at each state.
        self.references: dict[int, int] = {}

    # ---- calls

    def frame(self, state: State, place: int) -> dict[str, Any]:
        """A call as it is shown."""
        call = state.calls[place]
        line = call.place.line
        source, columns = self.record.sources.get(line), self.record.places[call.place]
        return {
            "id": place + 1,
            "name": call.name + (f" ({source})" if source else ""),
            "line": line - self.line_shift,
            "column": columns.begin - self.column_shift,
            "endLine": line - self.line_shift,
            "endColumn": columns.end - self.column_shift,
            "source": {"name": self.path.rpartition("/")[2], "path": self.path},
        }

    def frames(self, state: State) -> list[dict[str, Any]]:
        """All calls, the innermost first."""
        return [self.frame(state, place) for place in reversed(range(len(state.calls)))]

    # ---- entries

    def scopes(self, state: State, place: int) -> list[dict[str, Any]]:
        """The scopes of a call."""
        counts = {"Entries": state.owned(place)[1], "Stack": len(state.stack)}
        found: list[dict[str, Any]] = [{"name": name, "indexedVariables": count, "expensive": count > MOST_CHEAP}
                                       for name, count in counts.items()]
        return [*found, {"name": "Run", "indexedVariables": None, "expensive": False}]

    def value(self, state: State, depth: int) -> str:
        """What is shown of the values of an entry."""
        entry = state.stack[-1 - depth]
        above = [other.tag for other in state.stack[len(state.stack) - depth :][::-1]]
        copy = f"a copy of entry {above.index(entry.tag)} " if entry.tag in above else ""
        total = f", total {sum(entry.words)}" if entry.kind == SEGDES else ""
        return copy + values_text(entry.kind, entry.words) + total

    def kind(self, entry: Entry) -> dict[str, Any]:
        """What is shown of an entry beside its values."""
        count, line = len(entry.words), self.record.makers[entry.tag]
        return {
            "type": f"{entry.kind.upper()}, {count} value{'' if count == 1 else 's'}, line {line}",
            "indexedVariables": count or None,
        }

    def variable(self, state: State, depth: int) -> dict[str, Any]:
        """An entry as it is shown."""
        name = f"{depth} {state.names[depth]}" if depth < len(state.names) else f"{depth}"
        return {"name": name, "value": self.value(state, depth), "evaluateName": f"{depth}",
                **self.kind(state.stack[-1 - depth])}

    def elements(self, entry: Entry, depth: int) -> list[dict[str, Any]]:
        """The values of an entry, each as a variable."""
        return [{"name": str(place), "value": word_text(entry.kind, word), "evaluateName": f"{depth}:{place}",
                 "variablesReference": 0} for place, word in enumerate(entry.words)]

    def values(self, entry: Entry, first: int, last: int) -> str:
        """The values of an entry from one place to another, as a text."""
        words = [word_text(entry.kind, word) for word in entry.words[first : last + 1]]
        return " ".join([*words[:MOST_VALUES], *([".."] if len(words) > MOST_VALUES else [])])

    def wrong_reference(self, depth: int, entry: Entry, found: int) -> Iterator[str]:
        """What is wrong with the reference of the values of an entry: no other entry has it, at any state."""
        if not entry.words:
            yield from differ(f"the reference of entry {depth}, which has no values", found, 0)
            return
        yield from differ(f"the reference of entry {depth}", found, self.references.setdefault(depth, found))
        if found <= 0 or len(set(self.references.values())) < len(self.references):
            yield f"the reference of entry {depth} is {found}, and others are {self.references}"

    # ---- numbers

    def numbers(self, number: int) -> dict[str, str]:
        """The numbers of the run, by their names."""
        state, limits = self.record.states[number], self.record.limits
        return {
            "state": str(number),
            "instructions": f"{state.executed} of {limits.budget}",
            "peak": f"{state.peak} of {limits.words}",
            "words held": f"{state.held} of {limits.words}",
            "words at the next instruction": f"{state.demand} of {limits.words}",
            "words that it makes": str(state.makes),
            "entries": f"{len(state.stack)} of {limits.cells}",
            "calls": f"{len(state.calls)} of {limits.calls}",
        }


def differ(what: str, found: Any, wanted: Any) -> Iterator[str]:
    if found != wanted:
        yield f"{what}: {found}, and not {wanted}"


def compare_list(what: str, found: list[dict[str, Any]], wanted: list[dict[str, Any]]) -> Iterator[str]:
    """What differs in a list of objects, in the members that are wanted. None is one that is left out."""
    yield from differ(f"{what}: how many there are", len(found), len(wanted))
    for place, (one, other) in enumerate(zip(found, wanted)):
        yield from differ(f"{what} {place}", {name: one.get(name) for name in other}, other)


# ---- a state as a client sees it

def wrong_frames(client: Client, shown: Shown, state: State) -> Iterator[str]:
    body = client.ask("stackTrace", threadId=1)
    yield from compare_list("call", body["stackFrames"], shown.frames(state))
    yield from differ("totalFrames", body["totalFrames"], len(state.calls))


def wrong_page(client: Client, shown: Shown, state: State, first: int, count: int) -> Iterator[str]:
    """What is wrong with some of the calls."""
    body = client.ask("stackTrace", threadId=1, startFrame=first, levels=count)
    rows = shown.frames(state)[first:]
    yield from compare_list(f"calls from {first}, {count} of them, call", body["stackFrames"],
                            rows[:count] if count else rows)
    yield from differ("totalFrames", body["totalFrames"], len(state.calls))


def entry_faults(shown: Shown, state: State, found: list[dict[str, Any]], depths: range) -> Iterator[str]:
    """What is wrong with the entries at some depths."""
    yield from compare_list("entry", found, [shown.variable(state, depth) for depth in depths])
    for variable, depth in zip(found, depths):
        yield from shown.wrong_reference(depth, state.stack[-1 - depth], variable["variablesReference"])


def wrong_scopes(client: Client, shown: Shown, number: int, place: int) -> Iterator[str]:
    """What is wrong with the scopes of a call: its entries, the whole stack, and the numbers of the run."""
    state = shown.record.states[number]
    scopes = client.ask("scopes", frameId=place + 1)["scopes"]
    yield from compare_list("scope", scopes, shown.scopes(state, place))
    own, stack, run = (client.variables(scope["variablesReference"]) for scope in scopes)
    first, count = state.owned(place)
    yield from entry_faults(shown, state, own, range(first, first + count))
    yield from entry_faults(shown, state, stack, range(len(state.stack)))
    numbers = [{"name": name, "value": value, "variablesReference": 0} for name, value in shown.numbers(number).items()]
    yield from compare_list("number", run, numbers)


def wrong_values(client: Client, shown: Shown, state: State, depth: int, first: int, count: int) -> Iterator[str]:
    """What is wrong with the values of an entry, and with some of them."""
    entry = state.stack[-1 - depth]
    wanted = shown.elements(entry, depth)
    if not wanted:
        return
    reference = shown.references[depth]
    yield from compare_list(f"entry {depth}, value", client.variables(reference), wanted[:MOST_VARIABLES])
    found = client.variables(reference, start=first, count=count, filter="indexed")
    rows = wanted[first:]
    yield from compare_list(f"entry {depth}, from {first}, {count} values, value", found,
                            rows[: count or MOST_VARIABLES])


def wrong_expression(client: Client, shown: Shown, state: State, depth: int, first: int | None,
                     last: int | None) -> Iterator[str]:
    """What is wrong with the answer to an expression that names values."""
    expression = f"{depth}" + ("" if first is None else f":{first}") + ("" if last is None else f"-{last}")
    is_there = depth < len(state.stack)
    entry = state.stack[-1 - depth] if is_there else None
    begin = first or 0
    end = last if last is not None else begin if first is not None else 1 << 62
    is_there = is_there and begin <= len(entry.words) and begin <= end
    try:
        body = client.ask("evaluate", expression=expression, context="hover")
    except Refused as refused:
        if is_there:
            yield f"{expression} is refused: {refused}"
        return
    if not is_there:
        yield f"{expression} isn't refused, but answered with {body}"
        return
    yield from compare_list(expression, [body], [{"result": shown.values(entry, begin, end), **shown.kind(entry)}])
    yield from shown.wrong_reference(depth, entry, body["variablesReference"])


def wrong_exception(client: Client, record: Record, number: int, knows_end: bool) -> Iterator[str]:
    """What is wrong with what is said of an end: it is known at the last state, once the run has come to its end."""
    is_there = knows_end and number == record.last and record.end != "RETURNED"
    try:
        body = client.ask("exceptionInfo", threadId=1)
    except Refused as refused:
        if is_there:
            yield f"exceptionInfo is refused: {refused}"
        return
    if not is_there:
        yield f"exceptionInfo isn't refused, but answered with {body}"
    else:
        yield from differ("the exception", body, {"exceptionId": record.end, "description": record.note,
                                                  "breakMode": "always"})
