#!/usr/bin/env python3
"""Times the moves of a debugger: a state on and back, and runs from stop to stop, by vjobs-dap.

    python3 bench/dap.py [--wall] [--memory MB[,MB ..]] [PROGRAM]

Run it at the top of the repository, after `make dap`; PROGRAM stands in the place of bin/vjobs-dap. Each load is a job,
and each session of it makes all moves in the same order. The sessions take turns, with each size of the memory for
states, which is a column. The least of several times counts: the processor time that the program takes, which other
loads on the machine hardly change; with --wall the time until the client has the answer. Times of moves that are made
one after the other are those of a move, with its messages; times of long ways are those of a state on the way. The
first move back makes the run anew. A way is sought if a stop is set that never holds. A look is what an editor asks for
when it stops: 20 calls, the scopes of one, and 100 entries.
"""
import argparse
import re
import sys
import tempfile
import time
from collections.abc import Callable, Iterator
from pathlib import Path
from typing import Any

import steps

TOP = Path(__file__).resolve().parent.parent
sys.path.append(str(TOP / "tests" / "dap"))

from client import Client  # noqa: E402

RUNS = 3
# How many moves are made one after the other, how many stops are gone to, and the most seconds for these.
MOVES, STOPS, MOST = 300, 15, 1.0
# More words than a job may have, so that a stop there never holds.
NEVER = "words>1048576"
SECONDS = 600.0


def loads() -> Iterator[steps.Load]:
    """Short vectors at few calls, calls 900 deep, a deep stack, and long vectors."""
    yield steps.chain("a chain of one word", 3_000)
    recursion = steps.recursion()
    recursion.name, recursion.rounds = "calls 900 deep", 40
    yield recursion
    stack = steps.deep_stack()
    stack.name, stack.rounds = "4,000 entries", 3_000
    yield stack
    yield steps.sums(1_000, 1_000)
    yield steps.sums(100_000, 100)


class QuickClient(Client):
    """A client that doesn't look for a response among all messages so far, which takes longer with each of them."""

    def response(self, seq: int, seconds: float = SECONDS) -> dict[str, Any]:
        while (message := self.next_message(seconds))["type"] != "response":
            pass
        assert message["request_seq"] == seq
        return message


class Session:
    """A session of a load: what each move took, by its name, in seconds."""

    def __init__(self, client: Client, is_wall: bool) -> None:
        self.client, self.at, self.is_wall = client, 0, is_wall
        self.took: dict[str, float] = {}

    def clock(self) -> float:
        """The seconds of the processor that the program took so far, all its threads together, or those of the wall."""
        return time.perf_counter() if self.is_wall else time.clock_gettime(~self.client.process.pid << 3 | 2)

    def go(self, move: Callable[[], dict[str, Any]]) -> float:
        """Makes a move, and answers its seconds."""
        begin = self.clock()
        event = move()
        seconds = self.clock() - begin
        found = re.match(r"state (\d+)", event["body"]["description"])
        self.at = int(found[1]) if found else self.at
        return seconds

    def move(self, command: str) -> float:
        return self.go(lambda: self.client.move(command, seconds=SECONDS))

    def go_to(self, number: int) -> float:
        return self.go(lambda: self.client.go_to(number, seconds=SECONDS))

    def each(self, name: str, command: str, count: int = MOVES) -> None:
        """The time of one of as many moves, or of those that are made in MOST seconds."""
        seconds, made = 0.0, 0
        while made < count and seconds < MOST:
            seconds, made = seconds + self.move(command), made + 1
        self.took[name] = seconds / made

    def state(self, name: str, way: Callable[[], float]) -> None:
        """The time of a state on a way."""
        before = self.at
        self.took[name] = way() / max(abs(self.at - before), 1)

    def stop_at(self, *names: str) -> None:
        self.client.ask("setFunctionBreakpoints", breakpoints=[{"name": name} for name in names])

    def look(self) -> None:
        """What an editor asks for when it stops: the innermost 20 calls, and the entries of the first."""
        begin = self.clock()
        for _ in range(MOVES):
            frames = self.client.frames(levels=20)
            entries = self.client.scopes(frames[0]["id"])["Entries"]
            self.client.variables(entries["variablesReference"], start=0, count=100)
        self.took["look, us"] = (self.clock() - begin) / MOVES

    def stops(self) -> None:
        """From stop to stop on, and back to them."""
        self.go_to(0)
        self.stop_at("round")
        self.each("stop on, us", "continue", STOPS)
        self.state("stops on, ns a state", lambda: sum(self.move("continue") for _ in range(STOPS)))
        self.took["stop back, first, ms"] = self.move("reverseContinue")
        self.each("stop back, us", "reverseContinue", STOPS)

    def all_moves(self) -> None:
        self.each("state on, us", "stepIn")
        self.took["state back, first, ms"] = self.move("stepBack")
        self.each("state back, us", "stepBack", MOVES - 1)
        self.state("to the end, ns a state", lambda: self.move("continue"))
        self.took["back from the end, ms"] = self.move("stepBack")
        self.each("back near the end, us", "stepBack")
        self.look()
        self.state("to the start, ns a state", lambda: self.go_to(0))
        self.stop_at(NEVER)
        self.state("to the end, sought, ns a state", lambda: self.move("continue"))
        self.state("to the start, sought, ns a state", lambda: self.move("reverseContinue"))
        self.stops()


UNITS = {"us": 1e6, "ms": 1e3, "ns a state": 1e9}


def session(program: str, batch: Path, memory: int, is_wall: bool) -> dict[str, float]:
    with QuickClient(program) as client:
        client.launch(batch, memory=memory)
        client.begin()
        its = Session(client, is_wall)
        its.all_moves()
        client.quit()
        return its.took


def table(program: str, load: steps.Load, memories: list[int], is_wall: bool) -> None:
    least: dict[int, dict[str, float]] = {memory: {} for memory in memories}
    with tempfile.TemporaryDirectory() as room:
        batch = Path(room) / "load.vcode"
        batch.write_text(steps.batch(load, load.rounds))
        for _ in range(RUNS):
            for memory, found in least.items():
                for name, seconds in session(program, batch, memory, is_wall).items():
                    found[name] = min(seconds, found.get(name, seconds))
    print(f"{load.name:36}" + "".join(f"{memory:9} MB" for memory in memories))
    for name in least[memories[0]]:
        unit = UNITS[name.rpartition(", ")[2]]
        print(f"  {name:34}" + "".join(f"{found[name] * unit:12.1f}" for found in least.values()), flush=True)


def main() -> None:
    parser = argparse.ArgumentParser(description=(__doc__ or "").splitlines()[0])
    parser.add_argument("--wall", action="store_true")
    parser.add_argument("--memory", default="0,1,256")
    parser.add_argument("program", nargs="?", default=str(TOP / "bin" / "vjobs-dap"))
    told = parser.parse_args()
    for load in loads():
        table(told.program, load, [int(memory) for memory in told.memory.split(",")], told.wall)


if __name__ == "__main__":
    main()
