"""Long runs, wide stacks and long vectors, and what comes in while a job moves."""
from __future__ import annotations

import os
import random
import tempfile
import time
from collections.abc import Callable, Iterable, Iterator
from functools import cache
from pathlib import Path
from typing import Any

from client import Client
from page import Faults, case_faults, came, calls_of, end_of, numbers_of, stack_of

# How deep the calls of the long run go: it has 3 * 2 ** 16 instructions.
DEPTH = 15
# The random moves over the long run.
MOVES_IN_A_TREE = 40
# A job of this depth runs for longer than any test.
ENDLESS = 28
# How long a job may go on after a request that stops it, and after its client is gone: a second, and more if others use
# the processors, too.
SECONDS = 1.0 + os.getloadavg()[0] / (os.cpu_count() or 1)
# How long many requests may take that are sent at once. While a job moves each takes as long as thousands of states.
MANY_SECONDS = 120
# How often a move is stopped at random.
PAUSES = 8
# The megabytes for states of a job, and what the program may take beside these.
MEMORY, MORE = 16, 16


def tree(depth: int) -> str:
    """A job that counts the leaves of a tree of calls: a function calls the one below it twice, the last one adds 1.

    The function of a level executes 3 * 2 ** (level + 1) - 3 instructions, and the job three more."""
    names = [f"level{it}" for it in range(depth + 1)]
    bodies = "".join(f"FUNC {name}\nCALL {below}\nCALL {below}\nRET\n" for below, name in zip(names, names[1:]))
    signatures = "".join(f"{name} (INT) -> (INT)\n" for name in names)
    return (f"JOB tree 64 64 64 1000000000\nSIGNATURES\nMAIN () -> (INT)\n{signatures}CODE\nFUNC MAIN\nCONST INT 0\n"
            f"CALL {names[-1]}\nRET\nFUNC level0\nCONST INT 1\n+ INT\nRET\n{bodies}END\n")


def state_of_tree(depth: int, number: int) -> tuple[int, int, list[int]]:
    """Of a state of that job the line that is next, how many calls, and the values on its stack, top first."""
    if number < 2:
        return 7 + depth + number, 1, [0] * number
    level, leaves, left = depth, 0, number - 2
    while level and 0 < left <= 2 * instructions(level - 1) + 1:
        size = instructions(level - 1)
        if left == size + 1:
            break
        leaves += 2 ** (level - 1) * (left > size)
        level, left = level - 1, (left - 1) % (size + 1)
    calls = depth - level + 2
    if not level:
        return 11 + depth + left, calls, [[leaves], [1, leaves], [leaves + 1]][left]
    place = 0 if not left else 1 if left == instructions(level - 1) + 1 else 2
    return 15 + depth + 4 * (level - 1) + place, calls, [leaves + place * 2 ** (level - 1)]


@cache
def states_of_tree(depth: int) -> list[tuple[int, int, list[int]]]:
    """All states of that job, by their numbers."""
    ends = (9 + depth, 1, [2 ** depth])
    return [*(state_of_tree(depth, number) for number in range(2 + instructions(depth))), ends]


def wrong_state(client: Client, it: Faults, depth: int, number: int) -> None:
    """Compares what is shown of a state of that job with what there is."""
    line, count, values = state_of_tree(depth, number)
    found = calls_of(client)
    it.same(f"the calls at {number}", (found[0][1], len(found)), (line, count))
    it.same(f"the stack at {number}", [value for _, value, _ in stack_of(client)], [f"({it})" for it in values])


def wide() -> str:
    """A job with a vector of 200,000 values, and then as many entries as there may be."""
    entries = "".join(f"CONST INT {number}\n" for number in range(4_094))
    return ("JOB wide 1048576 4096 4 1000000\nSIGNATURES\nMAIN () -> (INT)\nCODE\nFUNC MAIN\nCONST INT 7\n"
            f"CONST INT 200000\nMAKE_SEGDES\nDIST INT\nCOPY 1 0\n{entries}POP 4095 0\nRET\nEND\n")


def instructions(level: int) -> int:
    return 3 * 2 ** (level + 1) - 3


# Where the first and the second call of the level below the highest are.
FIRST, SECOND, LAST = 2, 3 + instructions(DEPTH - 1), 2 + instructions(DEPTH)


def top(client: Client) -> str:
    """The value at the top of the stack."""
    return stack_of(client)[0][1]


def to_the_end_and_back(client: Client, it: Faults, path: Path, memory: int) -> None:
    """From the end back to calls, and here and there, with states kept or none."""
    client.launch(path, memory=memory)
    client.begin()
    it.same("the end", came(client.move("continue")), ("end", f"state {LAST}"))
    it.same("all leaves", top(client), f"({2 ** DEPTH})")
    client.ask("setFunctionBreakpoints", breakpoints=[{"name": f"level{DEPTH - 1}"}])
    it.same("the second call", came(client.move("reverseContinue")), ("function breakpoint", f"state {SECOND}"))
    it.same("half of the leaves", top(client), f"({2 ** (DEPTH - 1)})")
    for number in range(SECOND - 1, SECOND - 4, -1):
        it.same("a step back", came(client.move("stepBack")), ("step", f"state {number}"))
        it.same("its number", numbers_of(client)["instructions"], f"{number} of 1000000000")
    it.same("the first call", came(client.move("reverseContinue")), ("function breakpoint", f"state {FIRST}"))
    it.same("no leaf", top(client), "(0)")
    it.same("the whole call", came(client.move("next")), ("function breakpoint", f"state {SECOND}"))
    for number in (SECOND + 1, 7, LAST, 0, 100_000):
        it.same("a state by its number", came(client.go_to(number)), ("goto", f"state {number}"))
    client.ask("setFunctionBreakpoints", breakpoints=[])
    it.same("the way back", came(client.move("reverseContinue")), ("entry", "state 0"))
    it.same("the end again", came(client.move("continue")), ("end", f"state {LAST}"))
    client.ask("continue", threadId=1)
    it.same("over", end_of(client), ("exited terminated", 0))
    client.quit()


def here_and_there(client: Client, it: Faults, path: Path, memory: int) -> None:
    """Random moves over the tree, with states kept or none."""
    states, chance, at = states_of_tree(DEPTH), random.Random(memory), 0
    client.launch(path, memory=memory)
    client.begin()
    level = DEPTH - 4
    client.ask("setFunctionBreakpoints", breakpoints=[{"name": f"level{level}"}])
    lines = {15 + DEPTH + 4 * level, 16 + DEPTH + 4 * level}

    def first(numbers: Iterable[int], calls: int) -> int:
        return next((each for each in numbers if states[each][1] <= calls or states[each][0] in lines), 0)

    ways: dict[str, Callable[[int, range], int]] = {
        "stepBack": lambda calls, _: max(at - 1, 0),
        "stepIn": lambda calls, _: at + 1,
        "next": lambda calls, later: first(later, calls),
        "stepOut": lambda calls, later: first(later, calls - 1),
        "continue": lambda calls, later: first(later, 0),
        "reverseContinue": lambda calls, _: first(reversed(range(at)), 0),
        "at": lambda calls, _: chance.randrange(len(states) - 1),
    }
    for _ in range(MOVES_IN_A_TREE):
        way = chance.choice([*ways])
        to = ways[way](states[at][1], range(at + 1, len(states)))
        if to >= len(states) - 1 or not to and way in ("next", "stepOut", "continue"):
            continue
        event = client.go_to(to) if way == "at" else client.move(way)
        it.same(f"{way} at {at}", came(event)[1], f"state {to}")
        at = to
        wrong_state(client, it, DEPTH, at)
    client.quit()


def many_variables(client: Client, it: Faults, path: Path) -> None:
    """Pages of long vectors and of a whole stack."""
    client.launch(path)
    client.begin()
    client.go_to(4)
    [entry] = client.variables(client.scopes(1)["Stack"]["variablesReference"])
    it.same("the long one", (entry["value"], entry["type"], entry["indexedVariables"]),
            ("(7 7 7 7 7 7 ..)", "INT, 200000 values, line 9", 200_000))
    it.same("at most", len(client.variables(entry["variablesReference"])), 65_536)
    last = client.variables(entry["variablesReference"], start=199_990, count=100, filter="indexed")
    it.same("the last ones", [(each["name"], each["value"]) for each in last],
            [(str(place), "7") for place in range(199_990, 200_000)])
    it.same("named ones", client.variables(entry["variablesReference"], filter="named"), [])
    it.same("in a text", client.ask("evaluate", expression="0", context="hover")["result"], "7 " * 4_096 + "..")
    client.go_to(4 + 1 + 4_094)
    began = time.monotonic()
    stack = stack_of(client)
    it.same("all entries", (len(stack), stack[0][1], stack[-2][1], stack[4093][1]),
            (4_096, "(4093)", "(7 7 7 7 7 7 ..)", "(0)"))
    if time.monotonic() - began > 4 * SECONDS:
        it.found.append(f"a whole stack takes {time.monotonic() - began:.1f} seconds")
    client.quit()


# ---- while a job moves

def moving(client: Client, path: Path, **arguments: Any) -> None:
    """A job that moves, and would do so for long."""
    client.launch(path, **arguments)
    client.begin()
    client.ask("continue", threadId=1)
    time.sleep(0.2)


def in_time(it: Faults, what: str, began: float) -> None:
    took = time.monotonic() - began
    if took > SECONDS:
        it.found.append(f"{it.name}, {what}: it took {took:.1f} seconds")


def a_pause(client: Client, it: Faults, path: Path) -> None:
    """A pause stops it soon; other requests are answered, and it goes on."""
    moving(client, path)
    first = numbers_of(client)["state"]
    it.same("threads", client.ask("threads")["threads"], [{"id": 1, "name": "tree"}])
    it.same("the outermost call", calls_of(client)[-1], ("MAIN", 36))
    for command in ("continue", "next", "stepIn", "stepOut", "stepBack", "reverseContinue"):
        it.has(f"{command} meanwhile", client.refusal(command, threadId=1), " ")
    it.has("at meanwhile", client.refusal("evaluate", expression="at 5", context="repl"), " ")
    time.sleep(0.1)
    later = numbers_of(client)["state"]
    if not 0 < int(first) < int(later):
        it.found.append(f"it is at {first} and then at {later}")
    began = time.monotonic()
    client.ask("pause", threadId=1)
    event = client.event("stopped", "terminated", seconds=SECONDS)
    in_time(it, "a pause", began)
    it.same("why it stopped", event["body"]["reason"], "pause")
    it.same("where", f"state {numbers_of(client)['state']}", came(event)[1])
    it.same("a step after it", client.move("stepIn")["body"]["reason"], "step")
    it.same("a step back", came(client.move("stepBack")), ("step", came(event)[1]))
    client.ask("continue", threadId=1)
    client.ask("setFunctionBreakpoints", breakpoints=[{"name": "level0"}])
    stopped = client.event("stopped", seconds=SECONDS)["body"]
    it.same("a breakpoint that is set meanwhile", stopped["reason"], "function breakpoint")
    client.quit()


def pauses(client: Client, it: Faults, path: Path) -> None:
    """Moves that are stopped after times at random: the state is the one of its number, and so are those before it."""
    chance = random.Random(1)
    client.launch(path, memory=1)
    client.begin()
    for _ in range(PAUSES):
        client.ask("continue", threadId=1)
        time.sleep(chance.choice([0, 0.001, 0.03]))
        for _ in range(chance.randint(0, 2)):
            client.ask("threads")
        client.ask("pause", threadId=1)
        event = client.event("stopped", "terminated", seconds=SECONDS)
        number = int(numbers_of(client)["state"])
        it.same("a pause", came(event), ("pause", f"state {number}"))
        wrong_state(client, it, ENDLESS, number)
        for before in range(number - 1, number - 3, -1):
            it.same("a step back", came(client.move("stepBack")), ("step", f"state {before}"))
            wrong_state(client, it, ENDLESS, before)
        client.go_to(chance.randint(0, 1_000))
    client.quit()


def bounded(client: Client, it: Faults, path: Path) -> None:
    """The states that are kept take no more memory than was asked for."""
    moving(client, path, memory=MEMORY)
    time.sleep(1)
    client.ask("pause", threadId=1)
    client.event("stopped", seconds=SECONDS)
    it.same("a step back", client.move("stepBack")["body"]["reason"], "step")
    status = Path(f"/proc/{client.process.pid}/status").read_text()
    kilobytes = int(status.partition("VmHWM:")[2].split()[0])
    if kilobytes > 1_024 * (MEMORY + MORE):
        it.found.append(f"{it.name}: it took {kilobytes} kB")
    client.quit()


def a_quick_pause(client: Client, it: Faults, path: Path) -> None:
    """A pause that is sent with the move."""
    client.launch(path)
    client.begin()
    client.send("continue", {"threadId": 1})
    client.send("pause", {"threadId": 1})
    it.same("why it stopped", client.event("stopped", seconds=2 * SECONDS)["body"]["reason"], "pause")
    client.quit()


def all_at_once(client: Client, it: Faults, path: Path) -> None:
    """Many requests that are sent before one is answered: the answers come in their order, while it moves and then."""
    client.launch(path)
    client.begin()
    commands = ["continue", *["threads", "stackTrace", "stepBack", "exceptionInfo", "nothing"] * 12, "pause",
                *["stackTrace", "threads"] * 40, "stepIn", "stepBack", "threads"]
    first = client.send(commands[0], {"threadId": 1})
    for command in commands[1:]:
        client.send(command, {"threadId": 1})
    client.response(first + len(commands) - 1, MANY_SECONDS)
    answers = [each for each in client.messages if each["type"] == "response" and each["request_seq"] >= first]
    it.same("their order", [(each["request_seq"], each["command"]) for each in answers],
            [*enumerate(commands, first)])
    refused = ("stepBack", "exceptionInfo", "nothing")
    pause = commands.index("pause")
    it.same("which are followed", [each["success"] for each in answers[:pause]],
            [command not in refused for command in commands[:pause]])
    it.same("the others", {each["success"] for each in answers[pause:]}, {True})
    stops = [client.event("stopped", "terminated")["body"]["reason"] for _ in range(3)]
    it.same("where it stopped", stops, ["pause", "step", "step"])
    client.quit()


def a_disconnect(client: Client, it: Faults, path: Path) -> None:
    moving(client, path)
    began = time.monotonic()
    client.quit()
    in_time(it, "disconnect", began)


def a_terminate(client: Client, it: Faults, path: Path) -> None:
    moving(client, path)
    began = time.monotonic()
    client.ask("terminate")
    it.same("terminate", client.event("terminated", "stopped", seconds=SECONDS)["event"], "terminated")
    in_time(it, "terminate", began)
    client.quit()


def gone(client: Client, it: Faults, path: Path) -> None:
    """A client that goes away while the job moves."""
    moving(client, path)
    began = time.monotonic()
    client.process.stdout.close()
    client.close_input()
    status, _ = client.ended(2 * SECONDS)
    in_time(it, "its end", began)
    if status not in (0, 1):
        it.found.append(f"{it.name}: the exit is {status}")


def half_gone(client: Client, it: Faults, path: Path) -> None:
    """A client that sends no more, but reads on: the session ends."""
    moving(client, path)
    began = time.monotonic()
    client.close_input()
    client.rest(2 * SECONDS)
    it.same("the exit", client.ended(2 * SECONDS), (0, ""))
    in_time(it, "its end", began)


def deaf(client: Client, it: Faults, path: Path) -> None:
    """A client that sends on, but reads no more: the program ends at its next message."""
    moving(client, path)
    client.process.stdout.close()
    client.send("threads")
    it.same("the exit", client.ended(2 * SECONDS)[0], 1)


WHILE_MOVING: list[Callable[..., None]] = [a_pause, pauses, bounded, a_quick_pause, all_at_once,
                                          a_disconnect, a_terminate, gone, half_gone, deaf]


def faults_of_long(program: Any) -> Iterator[str]:
    """What is wrong with long runs and wide states."""
    with tempfile.TemporaryDirectory() as folder:
        for name, text in (("tree", tree(DEPTH)), ("wide", wide())):
            Path(folder, name).write_text(text)
        for case in (to_the_end_and_back, here_and_there):
            for memory in (0, 1):
                yield from case_faults(program, case, Path(folder, "tree"), memory)
        yield from case_faults(program, many_variables, Path(folder, "wide"))


def faults_while_moving(program: Any) -> Iterator[str]:
    """What is wrong while a job moves."""
    with tempfile.TemporaryDirectory() as folder:
        path = Path(folder, "tree")
        path.write_text(tree(ENDLESS))
        for case in WHILE_MOVING:
            yield from case_faults(program, case, path)
