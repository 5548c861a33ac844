"""Examples of docs/DEBUGGING.md, forward and back: what vjobs-dap shows of them was worked out by hand."""
from __future__ import annotations

import tempfile
from collections.abc import Callable, Iterator
from pathlib import Path
from typing import Any

from client import UNWANTED, Client
from protocol import CAPABILITIES

TOP = Path(__file__).resolve().parents[2]
EXAMPLES = TOP / "examples"

# The job of the page whose comments name the lines of a source.
MEAN = """JOB mean 40 10 4 100
SIGNATURES
MAIN () -> (INT)
mean (INT) -> (INT)
CODE
FUNC MAIN               {@ mean.py:5 mean([3, 4, 8])}
CONST INT (3 4 8)
CALL mean
RET
FUNC mean               {@ mean.py:1 def mean(v):}
COPY 1 0                {@ mean.py:2 total = sum(v)}
CONST INT 3
MAKE_SEGDES
+_REDUCE INT
CPOP 1 1                {@ mean.py:3 return total / len(v)}
POP 1 0
CONST INT 0
/ INT
RET
END
"""
# Two instructions on a line, an indented one, a name and a kind that look alike, and a line without an instruction.
CROWDED = """JOB crowded 40 10 4 100
SIGNATURES
MAIN () -> (INT INT)
CODE
FUNC MAIN
CONST INT 5 {f\u00fcnf \U0001f600} CONST INT (6 7)

   COPY 1
   1 POP 1 0 RET
END
"""

# Names that need escapes in JSON, or that are told apart with care.
ODD = """JOB "{\\ 40 10 4 100
SIGNATURES
MAIN () -> (INT)
a"b\\c (INT) -> (INT)
words>1 (INT) -> (INT)
CODE
FUNC MAIN
CONST INT 5
CALL a"b\\c         {@ d"\\/\x1b\xe9.py:7 a"\\}
RET
FUNC a"b\\c CALL words>1 RET
FUNC words>1 RET
END
"""


class Faults:
    """What was found, and what of it is wrong."""

    def __init__(self, name: str) -> None:
        self.name, self.found = name, list[str]()

    def same(self, what: str, found: Any, wanted: Any) -> None:
        if found != wanted:
            self.found.append(f"{self.name}, {what}: {found!r}, and not {wanted!r}")

    def has(self, what: str, found: str, wanted: str) -> None:
        if wanted not in found:
            self.found.append(f"{self.name}, {what}: {found!r} hasn't {wanted!r}")


def stack_of(client: Client) -> list[tuple[str, str, str]]:
    """The name, the value and the type of each entry, the top first."""
    frame = client.frames()[0]["id"]
    return [(it["name"], it["value"], it["type"])
            for it in client.variables(client.scopes(frame)["Stack"]["variablesReference"])]


def numbers_of(client: Client) -> dict[str, str]:
    """The numbers of the run, by the call of MAIN, which is there even while the job moves."""
    return {it["name"]: it["value"] for it in client.variables(client.scopes(1)["Run"]["variablesReference"])}


def calls_of(client: Client) -> list[tuple[str, int]]:
    return [(it["name"], it["line"]) for it in client.frames()]


def came(event: dict[str, Any]) -> tuple[str, str]:
    """The reason of a stop, and the state that it names."""
    return event["body"]["reason"], event["body"]["description"].partition(" of the run")[0]


def end_of(client: Client) -> tuple[str, int]:
    """The next two events, which say that the debuggee is over: their names, and its exit."""
    names = client.event("terminated", "exited"), client.event("terminated", "exited")
    exits = [it["body"]["exitCode"] for it in names if it["event"] == "exited"]
    return " ".join(sorted(it["event"] for it in names)), sum(exits)


FIVE, TEN = ("(5 0 3)", "INT, 3 values, line 33"), ("(10 20 30)", "INT, 3 values, line 32")


def a_fault(client: Client, it: Faults) -> None:
    """The third job of four_ends: a division by 0."""
    client.launch(EXAMPLES / "four_ends.vcode", job=3)
    first = client.begin()
    it.same("entry", first["reason"], "entry")
    it.same("threads", client.ask("threads")["threads"], [{"id": 1, "name": "ratio"}])
    it.same("calls at 0", calls_of(client), [("MAIN", 32)])
    it.same("stack at 0", stack_of(client), [])
    it.same("back at 0", came(client.move("stepBack")), ("entry", "state 0"))
    it.same("a step", came(client.move("stepIn")), ("step", "state 1"))
    it.same("stack at 1", stack_of(client), [("0", *TEN)])
    it.has("no exception yet", client.refusal("exceptionInfo", threadId=1), " ")
    it.same("the fault", came(client.move("continue")), ("exception", "state 2"))
    at_fault(client, it)
    it.same("a step back", came(client.move("stepBack")), ("step", "state 1"))
    it.same("calls at 1 again", calls_of(client), [("MAIN", 33)])
    it.same("stack at 1 again", stack_of(client), [("0", *TEN)])
    it.same("a second step back", came(client.move("stepBack")), ("entry", "state 0"))
    it.same("stack at 0 again", stack_of(client), [])
    it.same("the fault again", came(client.move("continue")), ("exception", "state 2"))
    it.same("the end is said once", client.outputs().count("FAULT line 34"), 1)
    client.ask("continue", threadId=1)
    it.same("the end", end_of(client), ("exited terminated", 1))
    it.has("a move after it", client.refusal("stepIn", threadId=1), " ")
    client.quit()


def at_fault(client: Client, it: Faults) -> None:
    it.same("calls", calls_of(client), [("MAIN", 34)])
    it.same("stack", stack_of(client), [("0 b", *FIVE), ("1 a", *TEN)])
    info = client.ask("exceptionInfo", threadId=1)
    it.same("the exception", [info[it] for it in ("exceptionId", "description", "breakMode")],
            ["FAULT line 34 F4 ZERO_DIVISOR", "at place 1 of 3, 20 is divided by 0", "always"])
    for text in ("FAULT line 34 F4 ZERO_DIVISOR, after 2 instructions",
                 "  words                    6 of            16"):
        it.has("the text of the end", client.outputs(), text)
    for expression, values in (("1:0-1", "10 20"), ("1:2", "30"), ("1", "10 20 30"), ("0", "5 0 3")):
        it.same(expression, client.ask("evaluate", expression=expression, context="watch")["result"], values)
    for expression in ("2", "1:4", "1:2-1", "b", "", "-1", "words"):
        it.has(f"evaluate {expression!r}", client.refusal("evaluate", expression=expression, context="watch"), " ")
    it.has("at in a watch", client.refusal("evaluate", expression="at 1", context="watch"), " ")
    it.same("the numbers", numbers_of(client), {
        "state": "2", "instructions": "2 of 100", "peak": "6 of 16", "words held": "6 of 16",
        "words at the next instruction": "9 of 16", "words that it makes": "3", "entries": "2 of 16",
        "calls": "1 of 4"})


def wrong_values(client: Client, it: Faults) -> None:
    """The mean of two groups, which divides by the sums."""
    client.launch(EXAMPLES / "swapped_division.vcode", stopOnEntry=False)
    path = {"path": str(EXAMPLES / "swapped_division.vcode")}
    answers = client.ask("setBreakpoints", source=path, breakpoints=[{"line": 16}, {"line": 1}, {"line": 18}])
    it.same("breakpoints", [(it["verified"], it.get("line")) for it in answers["breakpoints"][:2]],
            [(True, 16), (True, 7)])
    it.same("a line after the code", answers["breakpoints"][2]["verified"], False)
    first = client.begin()
    it.same("a breakpoint at state 0", (first["reason"], first["hitBreakpointIds"]),
            ("breakpoint", [answers["breakpoints"][1]["id"]]))
    it.same("the division", came(client.move("continue")), ("breakpoint", "state 9"))
    it.same("its operands", stack_of(client), [("0 b", "(10 6)", "INT, 2 values, line 12"),
                                               ("1 a", "(2 3)", "INT, 2 values, line 14")])
    it.same("at line 12 again", came(client.go_to(5)), ("goto", "state 5"))
    it.same("the stack there", stack_of(client), [
        ("0 S", "(2 3), total 5", "SEGDES, 2 values, line 9"), ("1 V", "(4 6 1 2 3)", "INT, 5 values, line 7"),
        ("2", "a copy of entry 0 (2 3), total 5", "SEGDES, 2 values, line 9")])
    it.same("the division again", came(client.move("continue")), ("breakpoint", "state 9"))
    it.same("the end", came(client.move("continue")), ("end", "state 10"))
    it.same("its result", stack_of(client), [("0", "(0 0)", "INT, 2 values, line 16")])
    it.has("no exception at a return", client.refusal("exceptionInfo", threadId=1), " ")
    for text in ("RETURNED after 11 instructions", "it returns: JOB means 9 3 1 11"):
        it.has("the text of the end", client.outputs(), text)
    it.same("back", came(client.move("reverseContinue")), ("breakpoint", "state 9"))
    it.same("back again", came(client.move("reverseContinue")), ("breakpoint", "state 0"))
    it.same("beyond the end", came(client.go_to(1000))[1], "state 10")
    client.ask("next", threadId=1)
    it.same("over", end_of(client), ("exited terminated", 0))
    client.quit()


def a_recursion(client: Client, it: Faults) -> None:
    """A factorial that calls itself until no more calls are left."""
    client.launch(EXAMPLES / "endless_recursion.vcode")
    client.begin()
    names = [{"name": "factorial"}, {"name": "MAIN"}, {"name": "entries>8"}, {"name": "nothing"}]
    answers = client.ask("setFunctionBreakpoints", breakpoints=names)["breakpoints"]
    it.same("which are verified", [each["verified"] for each in answers], [True, True, True, False])
    it.same("the first call", came(client.move("continue")), ("function breakpoint", "state 1"))
    it.same("before it", calls_of(client), [("MAIN", 9)])
    it.same("in it", came(client.move("stepIn")), ("step", "state 2"))
    it.same("its calls", calls_of(client), [("factorial", 12), ("MAIN", 9)])
    it.same("the next call", came(client.move("continue")), ("function breakpoint", "state 9"))
    it.same("its stack", stack_of(client), [("0", "(-2)", "INT, 1 value, line 18"),
                                            ("1", "(3)", "INT, 1 value, line 8")])
    client.ask("setFunctionBreakpoints", breakpoints=names[2:3])
    it.same("nine entries", came(client.move("continue")), ("data breakpoint", "state 55"))
    client.ask("setFunctionBreakpoints", breakpoints=[])
    it.same("the end", came(client.move("stepOut")), ("exception", "state 57"))
    it.same("eight calls", calls_of(client), [*[("factorial", 19)] * 7, ("MAIN", 9)])
    frames = client.frames(startFrame=0, levels=2)
    it.same("its entries", [len(client.variables(client.scopes(each["id"])["Entries"]["variablesReference"]))
                            for each in frames], [2, 1])
    it.same("what it is", client.ask("exceptionInfo", threadId=1)["description"],
            "8 calls are active now and 9 in it, and the limit is 8")
    it.has("the widest", client.outputs(),
           "Within the widest limits it ends so: MEMORY line 19 M3 CALLS, after 8185 instructions")
    it.same("all the way back", came(client.move("reverseContinue")), ("entry", "state 0"))
    it.same("in a deep call", came(client.go_to(8)), ("goto", "state 8"))
    it.same("line 18", stack_of(client)[2], ("2", "a copy of entry 0 (3)", "INT, 1 value, line 8"))
    client.quit()


def too_few_words(client: Client, it: Faults) -> None:
    """A sum for whose result there is no room."""
    client.launch(EXAMPLES / "reservation_too_small.vcode", memory=0)
    client.begin()
    client.ask("setFunctionBreakpoints", breakpoints=[{"name": "words>5"}, {"name": "makes>3"}])
    it.same("six words", came(client.move("continue")), ("data breakpoint", "state 2"))
    it.same("the end", came(client.move("stepIn")), ("exception", "state 2"))
    info = client.ask("exceptionInfo", threadId=1)
    it.same("the limit", (info["exceptionId"], info["description"]),
            ("MEMORY line 9 M1 WORDS", "6 words held and 3 needed are 9, and the limit is 8"))
    it.has("the least", client.outputs(), "Within these limits, and no less, it returns: JOB short 9 2 1 4")
    client.quit()


def a_budget(client: Client, it: Faults) -> None:
    """A job whose budget is spent."""
    client.launch(EXAMPLES / "budget_spent.vcode", stopOnEntry=False)
    first = client.begin()
    it.same("the end at once", (first["reason"], first["description"].partition(" of the run")[0]),
            ("exception", "state 2"))
    info = client.ask("exceptionInfo", threadId=1)
    it.same("what it is", (info["exceptionId"], info["description"]),
            ("BUDGET", "the budget of 2 instructions is spent"))
    client.quit()


def a_source(client: Client, it: Faults, path: Path) -> None:
    """A mean, whose comments name the lines of a source."""
    client.launch(path)
    client.begin()
    lines = [{"line": 2}, {"line": 3}, {"line": 1}, {"line": 9}]
    answers = client.ask("setBreakpoints", source={"path": "/elsewhere/mean.py"}, breakpoints=lines)["breakpoints"]
    it.same("which are verified", [each["verified"] for each in answers], [True, True, False, False])
    it.same("line 2 of the source", came(client.move("continue")), ("breakpoint", "state 2"))
    it.same("its calls", calls_of(client), [("mean (mean.py:2)", 11), ("MAIN (mean.py:5)", 8)])
    it.same("line 3 of the source", came(client.move("continue")), ("breakpoint", "state 6"))
    it.same("its calls", calls_of(client), [("mean (mean.py:3)", 15), ("MAIN (mean.py:5)", 8)])
    it.same("the stack", stack_of(client), [("0", "(15)", "INT, 1 value, line 14"),
                                            ("1", "(3 4 8)", "INT, 3 values, line 7")])
    # Line 16 pops the sum, and the division takes the mean and 0.
    it.same("the fault", came(client.move("continue"))[0], "exception")
    it.same("back in line 3", came(client.move("reverseContinue")), ("breakpoint", "state 6"))
    it.same("back in line 2", came(client.move("reverseContinue")), ("breakpoint", "state 2"))
    client.quit()


def columns(client: Client, it: Faults, path: Path) -> None:
    """Several instructions on a line, one on two lines, for a client that counts from 0."""
    client.launch(path, client={"linesStartAt1": False, "columnsStartAt1": False})
    client.begin()
    found = []
    for _ in range(5):
        [frame] = client.frames()
        found.append((frame["line"], frame["column"]))
        client.move("stepIn")
    it.same("where instructions begin", found, [(5, 0), (5, 22), (7, 3), (8, 5), (8, 13)])
    places = client.ask("breakpointLocations", source={"path": str(path)}, line=4, endLine=9)["breakpoints"]
    it.same("lines with instructions", sorted({each["line"] for each in places}), [5, 7, 8])
    client.quit()


def odd_names(client: Client, it: Faults, path: Path) -> None:
    """Names with quotes, backslashes and other bytes, which come as they are, or as vjobs-why shows them."""
    client.launch(path)
    client.begin()
    it.same("the job", client.ask("threads")["threads"], [{"id": 1, "name": '"{\\'}])
    client.ask("setFunctionBreakpoints", breakpoints=[{"name": 'a"b\\c'}, {"name": "words>1"}])
    it.same("a call", came(client.move("continue")), ("function breakpoint", "state 1"))
    [frame] = client.frames()
    it.same("the file", frame["source"], {"name": path.name, "path": str(path)})
    it.same("a place in a source", frame["name"], 'MAIN (d"\\/??.py:7)')
    it.same("a call of what looks like a number of words", came(client.move("continue")),
            ("function breakpoint", "state 2"))
    it.same("its caller", calls_of(client), [('a"b\\c', 11), ('MAIN (d"\\/??.py:7)', 9)])
    client.quit()


def refusals(client: Client, it: Faults) -> None:
    """Batches and jobs that are refused, after which another one can be launched."""
    client.ask("initialize", adapterID="vjobs")
    it.has("a second initialize", client.refusal("initialize", adapterID="vjobs"), " ")
    for command in ("continue", "stackTrace", "pause", "exceptionInfo"):
        it.has(f"{command} before launch", client.refusal(command, threadId=1), " ")
    four = EXAMPLES / "four_ends.vcode"
    launches: list[tuple[dict[str, Any], str]] = [
        ({"batch": str(four), "job": 2}, "JOB 2 flags REFUSED line 22 V2 WRONG_KIND"),
        ({"batch": str(four), "job": 9}, "no such job"),
        ({"batch": str(EXAMPLES / "batch_refused.vcode")}, "BATCH line 1 B1 BAD_JOB_LINE"),
        ({"batch": str(EXAMPLES / "none.vcode")}, "No such file"),
        ({"batch": str(TOP / "docs")}, "it is no regular file"), ({"batch": "/dev/zero"}, "it is no regular file"),
        ({"batch": 7}, " "), ({}, " "), ({"batch": str(four), "job": 0}, " "),
        ({"batch": str(four), "memory": 4097}, " "), ({"batch": str(four), "stopOnEntry": 1}, " ")]
    for arguments, wanted in launches:
        it.has(f"launch {arguments}", client.refusal("launch", **arguments), wanted)
    it.has("the text of a refusal", client.outputs(), "entries wanted: 2, on the stack of MAIN: 2")
    it.has("the text of a refused batch", client.outputs(), "expected: the 6 words JOB name words cells calls budget")
    client.ask("launch", batch=str(four), job=1)
    client.event("initialized")
    it.has("a second launch", client.refusal("launch", batch=str(four), job=1), " ")
    for command in ("attach", "restart", "goto", "setVariable", "strange \"name\n\x1b"):
        it.has(command, client.refusal(command), f"vjobs-dap has no request {command[:7]}")
    it.has("a move before configurationDone", client.refusal("stepIn", threadId=1), " ")
    client.begin()
    for frame in (0, 2, 2**53, -1, 0.5):
        it.has(f"frame {frame}", client.refusal("scopes", frameId=frame), " ")
    for reference in (0, 3, 2**31, -1, 65_537, 131_072):
        it.has(f"reference {reference}", client.refusal("variables", variablesReference=reference), " ")
    client.quit()


def conditions(client: Client, it: Faults) -> None:
    """Conditions, counts and messages, which aren't kept to, and so aren't taken."""
    path = EXAMPLES / "quicksort.vcode"
    client.launch(path, memory=4096)
    odd: list[dict[str, Any]] = [{"condition": "x"}, {"hitCondition": "2"}, {"logMessage": "here"}, {}]
    lines = [{"line": 68 + place} | more for place, more in enumerate(odd)]
    answers = client.ask("setBreakpoints", source={"path": str(path)}, breakpoints=lines)["breakpoints"]
    it.same("lines", [each["verified"] for each in answers], [False, False, False, True])
    names: list[dict[str, Any]] = [{"name": "split"} | more for more in odd[:2]]
    functions = client.ask("setFunctionBreakpoints", breakpoints=[*names, {"name": "joined"}])["breakpoints"]
    it.same("functions", [each["verified"] for each in functions], [False, False, True])
    unverified = [each for each in [*answers, *functions] if not each["verified"]]
    it.same("that it is said why", [bool(each.get("message")) for each in unverified], [True] * 5)
    client.ask("setExceptionBreakpoints", filters=[])
    client.begin()
    it.same("the first call", came(client.move("continue"))[0], "function breakpoint")
    it.same("no calls after the last", client.ask("stackTrace", threadId=1, startFrame=9, levels=1)["stackFrames"], [])
    client.quit()


def an_end_by_request(client: Client, it: Faults) -> None:
    """terminate ends the debuggee, disconnect the program."""
    client.launch(EXAMPLES / "quicksort.vcode")
    client.begin()
    client.ask("terminate")
    it.same("terminate", client.event("terminated", "stopped")["event"], "terminated")
    it.has("a move after it", client.refusal("continue", threadId=1), " ")
    client.quit()


def capabilities(client: Client, it: Faults) -> None:
    """What it can do, and that it ends where its input ends."""
    body = client.ask("initialize", adapterID="vjobs")
    it.same("what it can do", body, {f"supports{name}": True for name in CAPABILITIES})
    client.close_input()
    client.rest()
    it.same("an end of input", client.ended(), (0, ""))


CASES: list[Callable[..., None]] = [capabilities, a_fault, wrong_values, a_recursion, too_few_words, a_budget, refusals,
                                    conditions, an_end_by_request]
# Cases of batches that no example is.
MADE: list[tuple[Callable[..., None], bytes]] = [(a_source, MEAN.encode()), (columns, CROWDED.encode()),
                                                 (odd_names, ODD.encode("latin1"))]


def case_faults(program: Any, case: Callable[..., None], *more: Any) -> list[str]:
    it = Faults(case.__name__)
    with Client(program) as client:
        try:
            case(client, it, *more)
        except UNWANTED as error:
            it.found.append(f"{case.__name__}: {type(error).__name__}: {error}{client.last_words()}")
    return it.found


def faults(program: Any) -> Iterator[str]:
    """What is wrong with the examples."""
    for case in CASES:
        yield from case_faults(program, case)
    with tempfile.TemporaryDirectory() as folder:
        for case, text in MADE:
            path = Path(folder) / f'{case.__name__} "\u00e9\\\U0001f600.vcode'
            path.write_bytes(text)
            yield from case_faults(program, case, path)
