#!/usr/bin/env python3
"""Walks over the runs of random jobs, forward and back: python3 tests/dap/walks.py SEED COUNT [PROGRAM]

At each state what vjobs-dap shows has to be what the second writing has: the calls, the stack with its values, the
lines that made them and its copies, the numbers of the run, why it stopped, and which breakpoints held. The states of a
job are recorded once. If a walk differs, its number is printed: with it as the seed and a count of 1 it comes again."""
from __future__ import annotations

import random
import sys
import tempfile
from collections import Counter
from collections.abc import Callable, Iterator
from dataclasses import replace
from pathlib import Path
from typing import Any

sys.dont_write_bytecode = True
TOP = Path(__file__).resolve().parents[2]
sys.path[:0] = [str(TOP / "models"), str(TOP / "tests" / "dap")]

import call_codes  # noqa: E402
import sources  # noqa: E402
import wanted  # noqa: E402
from client import MOVES, UNWANTED, Client  # noqa: E402
from ends import is_said  # noqa: E402
from histories import Record, records  # noqa: E402
from random_batches import RandomBatches  # noqa: E402
from session import Breakpoint, Came, Session, wrong_stop  # noqa: E402

# The moves of a walk.
LONGEST_WALK = 40
# Sizes of the memory for states, in MB. With 0 each move back runs the job anew.
SIZES = [0, 1, 256]
# Examples on which some of the walks go, beside random batches.
EXAMPLES = ["four_ends", "quicksort", "endless_recursion", "swapped_division", "prime_sieve_second_rule",
            "reservation_too_small", "budget_spent", "lengths_differ", "second_rule", "run_lengths"]
# Comments before instructions of their lines, of which not all are UTF-8.
COMMENTS = ["{\u00e9\u4e2d\U0001f600}".encode(), b"{\xff\xc3}", b"{\xf0\x9f}"]
# Codes of call_codes.py in which each function takes a number and gives one.
SHAPES: list[Callable[..., bytes]] = [call_codes.chain, call_codes.backward_chain, call_codes.ring,
                                      call_codes.closed_ring, call_codes.closed_loops, call_codes.wheel,
                                      call_codes.random_calls]


class Walk:
    """A walk over the run of one job."""

    def __init__(self, client: Client, record: Record, path: str, chance: random.Random) -> None:
        self.client, self.record, self.path, self.chance = client, record, path, chance
        self.session = Session(record)
        self.first = chance.choice([1, 1, 1, 0])
        self.shown = wanted.Shown(record, path, self.first, self.first)
        self.log: list[str] = []
        self.faults: list[str] = []
        self.ids = set[int]()
        # How often it stopped.
        self.stops = 0

    # ---- breakpoints

    def asked_line(self) -> int:
        """A line near the code, or on it."""
        lines = self.record.lines
        return max(self.chance.choice(lines) + self.chance.choice([0, 0, 0, 1, -1, 3, 1000]), 1)

    def set_lines(self, path: str, made: list[Breakpoint], lines: list[int]) -> None:
        """Sets the breakpoints of a file, which have to be answered as they are made."""
        shift = 1 - self.first
        asked = [{"line": line - shift} for line in lines]
        answers = self.client.ask("setBreakpoints", source={"path": path}, breakpoints=asked)["breakpoints"]
        self.note(f"setBreakpoints {path} {lines}")
        self.take(made, answers)
        for each, answer in zip(made, answers):
            if each.line is not None and answer.get("line") != each.line - shift:
                self.fault(f"a breakpoint is at {answer}, and not at line {each.line}")
        self.session.by_file[path] = made

    def set_in_batch(self) -> None:
        lines = [self.asked_line() for _ in range(self.chance.randint(0, 2))]
        self.set_lines(self.path, [self.session.at_line(line) for line in lines], lines)

    def set_in_source(self) -> None:
        named = [mark for mark in self.record.marks.values() if mark]
        if not named:
            return
        file, line, _ = self.chance.choice(named)
        name, line = file.decode("latin1"), line + self.chance.choice([0, 0, 0, 1])
        last = name.rpartition("/")[2]
        path = self.chance.choice([name, f"/some/where/{last}"])
        for other in [it for it in self.session.by_file if it.rpartition("/")[2] == last]:
            path = other
        lines = [line] * self.chance.randint(0, 1)
        self.set_lines(path, [self.session.at_source(last, it) for it in lines], lines)

    def set_elsewhere(self) -> None:
        """A file that no comment names."""
        self.set_lines("/no/such.py", [Breakpoint([])], [1])

    def set_functions(self) -> None:
        names = [self.random_name() for _ in range(self.chance.randint(0, 2))]
        asked: list[Any] = [{"name": name} for name in names]
        answers = self.client.ask("setFunctionBreakpoints", breakpoints=asked)["breakpoints"]
        self.note(f"setFunctionBreakpoints {names}")
        made = [self.session.at_name(name) for name in names]
        self.take(made, answers)
        self.session.of_functions = made

    def random_name(self) -> str:
        state = self.chance.choice(self.record.states)
        more = {"words": state.held, "entries": len(state.stack), "makes": state.makes}
        what = self.chance.choice([*more])
        name = self.chance.choice(self.record.functions).name
        most = max(more[what] - self.chance.randint(0, 1), 0)
        return self.chance.choice([name, name, f"{what}>{most}", "nowhere", ">"])

    def take(self, made: list[Breakpoint], answers: list[dict[str, Any]]) -> None:
        """Gives breakpoints the ids of their answers, which no other ones had."""
        if len(made) != len(answers):
            self.fault(f"{len(made)} breakpoints have the answers {answers}")
        for each, answer in zip(made, answers):
            if answer["verified"] != bool(each.stops) or answer["id"] in self.ids:
                self.fault(f"a breakpoint is answered with {answer}, and its stops are {each.stops}")
            if not answer["verified"] and not answer.get("message"):
                self.fault(f"it isn't said why a breakpoint isn't verified: {answer}")
            each.number = answer["id"]
            self.ids.add(each.number)

    def look_for_places(self) -> None:
        """Asks on which lines instructions begin."""
        shift = 1 - self.first
        first = self.asked_line()
        last = first + self.chance.randint(0, 9)
        body = self.client.ask("breakpointLocations", source={"path": self.path}, line=first - shift,
                               endLine=last - shift)
        found = sorted({it["line"] + shift for it in body["breakpoints"]})
        lines = [line for line in self.record.lines if first <= line <= last]
        self.faults += wanted.differ(f"lines from {first} to {last}", found, lines)

    # ---- moves

    def note(self, text: str) -> None:
        self.log.append(text)

    def fault(self, text: str) -> None:
        self.faults.append(text)

    def arrive(self, event: dict[str, Any], came: Came) -> None:
        self.stops += event["event"] == "stopped"
        self.log[-1] += f" -> {came.at} {event.get('body', {}).get('reason')}"
        self.faults += wrong_stop(event, came)

    def move(self) -> bool:
        """Makes a move; false if the run is over."""
        command = self.chance.choice([*MOVES, "stepIn", "next", "stepBack"])
        self.note(f"{command} at {self.session.at}")
        came = self.session.go(command)
        self.arrive(self.client.move(command), came)
        return not came.is_over

    def go_to(self) -> bool:
        number = self.chance.choice([self.chance.randint(0, self.record.last), self.record.last, self.record.last + 1,
                                     0, 10**9, 2**64 - 1])
        self.note(f"at {number} at {self.session.at}")
        came = self.session.go_to(number)
        answer = self.client.ask("evaluate", expression=f"at {number}", context="repl")
        self.faults += wanted.differ("the answer", answer, {"result": "", "variablesReference": 0})
        self.arrive(self.client.event("stopped", "terminated"), came)
        return True

    def act(self) -> bool:
        """Does one thing; false if the run is over."""
        ways: list[Callable[[], Any]] = [self.set_in_batch, self.set_in_source, self.set_functions, self.set_elsewhere,
                                         self.look_for_places]
        if self.chance.random() < 0.2:
            self.chance.choice(ways)()
            return True
        return self.go_to() if self.chance.random() < 0.08 else self.move()

    # ---- what is shown

    def look(self) -> None:
        """Compares what is shown of the state with what is wanted."""
        number = self.session.at
        state, client, shown = self.record.states[number], self.client, self.shown
        place = self.chance.randrange(len(state.calls))
        found = [*wanted.wrong_frames(client, shown, state), *wanted.wrong_scopes(client, shown, number, place)]
        found += wanted.wrong_page(client, shown, state, self.chance.randint(0, 3), self.chance.randint(0, 3))
        depth, first = self.chance.randint(0, len(state.stack)), self.chance.randint(0, 5)
        if depth < len(state.stack):
            found += wanted.wrong_values(client, shown, state, depth, first, self.chance.randint(0, 4))
        first_or_none = self.chance.choice([None, first])
        last = self.chance.choice([None, first + self.chance.randint(-1, 9)]) if first_or_none is not None else None
        found += wanted.wrong_expression(client, shown, state, depth, first_or_none,
                                         None if last is None else max(last, 0))
        if self.chance.random() < 0.2:
            found += wanted.wrong_exception(client, self.record, number, self.session.knows_end)
        self.faults += [f"state {number}: {fault}" for fault in found]

    def look_at_events(self, is_over: bool) -> None:
        """Compares the events of the walk with what has to have come."""
        events = [it for it in self.client.messages if it["type"] == "event" and it["event"] != "output"]
        names = Counter(it["event"] for it in events)
        wanted_names = {"initialized": 1, "stopped": self.stops, **({"exited": 1, "terminated": 1} if is_over else {})}
        self.faults += wanted.differ("the events", dict(names), wanted_names)
        exits = [it["body"]["exitCode"] for it in events if it["event"] == "exited"]
        self.faults += wanted.differ("the exit", exits, [int(self.record.end != "RETURNED")] * is_over)
        texts = [it["body"] for it in self.client.messages if it.get("event") == "output"]
        self.faults += wanted.differ("how often the end is said", len(texts), int(self.session.knows_end))
        for it in texts:
            self.faults += wanted.differ("the category", it["category"], "console")
            if not is_said(self.record, it["output"]):
                self.fault(f"the end is said so: {it['output']}")

    def walk(self, job: int) -> None:
        self.client.launch(self.path, job=job, memory=self.chance.choice(SIZES),
                           client={"linesStartAt1": self.first == 1, "columnsStartAt1": self.first == 1})
        for _ in range(self.chance.randint(0, 3)):
            self.chance.choice([self.set_in_batch, self.set_in_source, self.set_functions])()
        self.note("begins")
        first = replace(self.session.came(0, ""), reasons={"entry"})
        self.arrive({"event": "stopped", "body": self.client.begin()}, first)
        self.look()
        is_over = False
        for _ in range(self.chance.randint(1, LONGEST_WALK)):
            is_over = not self.act()
            if self.faults or is_over:
                break
            self.look()
        self.client.quit()
        self.look_at_events(is_over)


def of_example(chance: random.Random) -> tuple[bytes, list[tuple[int, Record]]]:
    name = chance.choice(EXAMPLES)
    batch = (TOP / "examples" / f"{name}.vcode").read_bytes()
    return batch, [*records(batch)]


def of_random(chance: random.Random) -> tuple[bytes, list[tuple[int, Record]]]:
    """A random batch with a job that runs."""
    while True:
        batch = RandomBatches(chance).whole_batch()[0]
        if chance.random() < 0.5:
            batch = sources.with_marks(batch, chance)
        if chance.random() < 0.3:
            batch = batch.replace(b"{c}", chance.choice(COMMENTS)).replace(b"dir/b:c.py", b"dir/a.py")
        found = [*records(batch, 1_500)]
        if found:
            return batch, found


def of_calls(chance: random.Random) -> tuple[bytes, list[tuple[int, Record]]]:
    """A job of rings, chains and random graphs of calls. Each function takes a number and gives one."""
    shape, count = chance.choice(SHAPES), chance.randint(1, 8)
    code = shape(count).replace(b"CONST INT 2\n", b"CONST INT %d\nCALL f%d\n" % (
        chance.choice([0, 2]), count if shape is call_codes.backward_chain else 0), 1)
    names = [line.split()[1] for line in code.splitlines() if line.startswith(b"FUNC ")]
    signatures = b"".join(b"%s (INT) -> (INT)\n" % name for name in names if name != b"MAIN")
    limits = b"%d %d %d %d" % (chance.choice([2, 9, 90]), chance.randint(1, 90), chance.randint(1, 70),
                               chance.randint(0, 900))
    batch = b"JOB calls %s\nSIGNATURES\nMAIN () -> (INT INT)\n%sCODE\n%sEND\n" % (limits, signatures, code)
    return batch, [*records(batch, 1_500)]


def of_vectors(chance: random.Random) -> tuple[bytes, list[tuple[int, Record]]]:
    """A job of long vectors, of which a MB has only few, and an answer perhaps not all values."""
    length, depth = chance.choice([2_000] * 3 + [9_000] * 2 + [70_000]), 1
    lines = ["CONST INT 7", f"CONST INT {length}", "MAKE_SEGDES", "DIST INT"]
    for _ in range(chance.randint(3, 30)):
        ways = ["NOT INT", f"COPY 1 {chance.randrange(depth)}"]
        ways += ["+ INT", "* INT", "CPOP 1 1", "POP 1 0", "SELECT INT"] * (depth > 1)
        way = chance.choice(ways)
        if way == "SELECT INT":
            lines += ["COPY 1 0", "I_TO_B", "CPOP 2 1", way]
            depth -= 1
        else:
            lines.append(way)
            depth += way.startswith("COPY") - (way in ("+ INT", "* INT", "POP 1 0"))
    code = "".join(f"{line}\n" for line in ["FUNC MAIN", *lines, "RET", "END"])
    words = chance.choice([length * 2, length * 5, 1_048_576])
    head = f"JOB vectors {words} 90 4 100\nSIGNATURES\nMAIN () -> ({' '.join(['INT'] * depth)})\nCODE\n"
    batch = (head + code).encode()
    return batch, [*records(batch)]


def of_deep_stacks(chance: random.Random) -> tuple[bytes, list[tuple[int, Record]]]:
    """A job of hundreds of entries and states, of which a MB has only a part."""
    depth, lines = 1, ["CONST INT 1"]
    for place in range(chance.randint(300, 1_300)):
        is_growing = place < 250 or chance.random() < 0.5
        if not is_growing and depth > 3:
            way, change = chance.choice([("+ INT", -1), ("POP 1 0", -1), ("CPOP 1 2", 0), ("POP 2 1", -2)])
        else:
            count = min(chance.choice([1, 1, 1, 3]), depth)
            way, change = chance.choice([(f"CONST INT {place}", 1),
                                         (f"COPY {count} {chance.randint(0, min(depth - count, 40))}", count)])
        lines.append(way)
        depth += change
    code = "".join(f"{line}\n" for line in ["FUNC MAIN", *lines, f"POP {depth} 0", "RET", "END"])
    head = f"JOB deep 9000 {chance.choice([200, 1_900, 1_900])} 4 2000\nSIGNATURES\nMAIN () -> ()\nCODE\n"
    batch = (head + code).encode()
    return batch, [*records(batch)]


def walk_of(program: str, folder: Path, seed: int) -> Iterator[str]:
    """What is wrong on the walk of this number."""
    chance = random.Random(seed)
    batch, found = chance.choice(WAYS)(chance)
    job, record = chance.choice(found)
    path = folder / f"walk-{seed}.vcode"
    path.write_bytes(batch)
    with Client(program) as client:
        walk = Walk(client, record, str(path), chance)
        try:
            walk.walk(job)
        except UNWANTED as error:
            walk.fault(f"{type(error).__name__}: {error}{client.last_words()}")
    if walk.faults:
        yield f"walk {seed}, job {job}: {'; '.join(walk.log[-8:])}"
        yield from (f"  {fault}" for fault in walk.faults[:5])
    else:
        path.unlink()


# Where a walk goes, most of them over random batches.
WAYS: list[Callable[[random.Random], tuple[bytes, list[tuple[int, Record]]]]] = [
    of_example, of_example, of_calls, of_calls, of_vectors, of_deep_stacks,
    *[of_random] * 10]


def walks(program: str, seed: int, count: int, folder: Path) -> list[str]:
    """What is wrong on the walks from this number on."""
    return [fault for number in range(count) for fault in walk_of(program, folder, seed + number)]


def main(seed: int | str, count: int | str, program: str | None = None) -> None:
    path = Path(program or TOP / "crates" / "vjobs_dap" / "out" / "vjobs_dap").resolve()
    folder = Path(tempfile.mkdtemp(prefix="vjobs-dap-"))
    found = walks(str(path), int(seed), int(count), folder)
    print(*found[:60], sep="\n", end="\n" if found else "")
    wrong = sum(fault.startswith("walk ") for fault in found)
    print(f"walks: {count} from {seed} on, {wrong} differ" + (f"; their batches are in {folder}" if wrong else ""))
    if not wrong:
        folder.rmdir()
    sys.exit(bool(wrong))


if __name__ == "__main__":
    main(*sys.argv[1:])
