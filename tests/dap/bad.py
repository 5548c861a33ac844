"""Bad input for vjobs-dap: python3 tests/dap/bad.py PROGRAM, and a part of .ci/dap

Each input has the messages that are wanted, what is on standard error, and the exit. A program has 512 MB of address
space, and has to end within a time. A message is compared in short: `launch 2 ok` is the response to the request 2,
`launch 2: TEXT` its refusal, `output stderr: TEXT` an event that shows a text, and `stopped` another event. A wanted
text that ends in `..` is a beginning."""
from __future__ import annotations

import json
import os
import re
import resource
import shutil
import subprocess
import sys
import tempfile
import time
from collections.abc import Iterable, Iterator
from concurrent.futures import ThreadPoolExecutor
from pathlib import Path
from typing import Any

TOP = Path(__file__).resolve().parents[2]
sys.path[:0] = [str(TOP / "tests" / "files")]

from refused import built  # noqa: E402

BATCH = TOP / "examples" / "four_ends.vcode"
SECONDS = 60
ADDRESS_SPACE = 512 << 20
MOST_BODY = 16_777_216
# The most brackets and commas of a body.
MOST_MARKS = 262_144
# The most allocations of a session that are refused. Of more those are taken that lie evenly among them.
MOST_REFUSED = 300
FRAME = re.compile(rb"Content-Length: (\d+)\r\n\r\n")
COUNT = re.compile(rb"(\d+) allocations\n\Z")
NOT_JSON = "output stderr: a message is no JSON, or nests deeper than 127\n"
NOT_REQUEST = "a message is no request: it has to have the type request, a seq and a command"
TOO_LARGE = "output stderr: a message has more than 262144 brackets and commas\n"
NO_JOB = "no job is launched"


class Odd(Exception):
    """What came out is no list of messages."""


# ---- what goes in, and what comes out


def framed(body: bytes | str) -> bytes:
    data = body.encode() if isinstance(body, str) else body
    return b"Content-Length: %d\r\n\r\n%s" % (len(data), data)


def request(seq: int, command: str, **arguments: Any) -> bytes:
    return framed(json.dumps({"seq": seq, "type": "request", "command": command, "arguments": arguments}))


def messages_of(out: bytes) -> Iterator[dict[str, Any]]:
    """The messages that a program wrote: whole, and numbered from 1 on."""
    seq = 0
    while out:
        head = FRAME.match(out)
        body = out[head.end() : head.end() + int(head[1])] if head else b""
        if not head or len(body) != int(head[1]):
            raise Odd(f"this is no message: {out[:100]!r}")
        message = json.loads(body)
        seq += 1
        if message["seq"] != seq:
            raise Odd(f"the message after {seq - 1} has the number {message['seq']}")
        yield message
        out = out[head.end() + int(head[1]) :]


def short(message: dict[str, Any]) -> str:
    if message["type"] == "event":
        body = message.get("body", {})
        return f"output {body['category']}: {body['output']}" if message["event"] == "output" else message["event"]
    answer = f"{message['command']} {message['request_seq']}"
    return f"{answer} ok" if message["success"] else f"{answer}: {message['message']}"


def little_room() -> None:
    resource.setrlimit(resource.RLIMIT_AS, (ADDRESS_SPACE, ADDRESS_SPACE))


def run(words: Iterable[Any], data: bytes, **how: Any) -> tuple[int, bytes, str]:
    """The exit of a program that gets these bytes, and what it wrote on standard output and standard error."""
    how = {"stdout": subprocess.PIPE, "preexec_fn": little_room, "timeout": SECONDS, **how}
    ran = subprocess.run([*words], input=data, stderr=subprocess.PIPE, check=False, **how)
    return ran.returncode, ran.stdout, ran.stderr.decode(errors="replace")


def is_like(found: str, wanted: str) -> bool:
    return found.startswith(wanted[:-2]) if wanted.endswith("..") else found == wanted


def differ(name: str, program: Any, data: bytes, wanted: list[str], errors: str = "", status: int = 0) -> Iterator[str]:
    """How a session on these bytes differs from what is wanted."""
    try:
        found_status, out, found_errors = run([program], data)
        found = [short(message) for message in messages_of(out)]
    except (Odd, ValueError, KeyError, subprocess.TimeoutExpired) as odd:
        yield f"{name}: {odd}"
        return
    if (found_status, found_errors) != (status, errors):
        yield f"{name}: exit and errors are {(found_status, found_errors[-300:])}, and not {(status, errors)}"
    if len(found) != len(wanted) or not all(map(is_like, found, wanted)):
        cut = [text[:300] for text in found]
        yield f"{name}: the messages are {cut}, and not {wanted}"


# ---- headers


LONG_HEADER = "the header of a message has more than 4096 bytes"
NO_LENGTH = "the header of a message has no Content-Length"
MANY_LENGTHS = "the header of a message has several lengths"
BAD_LENGTH = "the Content-Length of a message is no number"
LONG_BODY = "a message has more than 16777216 bytes"
CUT_SHORT = "the input ends inside a message"
# After these bytes no message can be found, and the program says why.
BROKEN = [
    (b"hello", CUT_SHORT), (b"hello\r\n\r\n", NO_LENGTH), (b"\r\n", NO_LENGTH), (b"\n", NO_LENGTH),
    (b"X: y\r\n\r\n{}", NO_LENGTH), (b"Content-Length 2\r\n\r\n{}", NO_LENGTH),
    (b"Content-Length: \r\n\r\n{}", BAD_LENGTH), (b"Content-Length: -1\r\n\r\n", BAD_LENGTH),
    (b"Content-Length: +2\r\n\r\n{}", BAD_LENGTH), (b"Content-Length: 0x2\r\n\r\n{}", BAD_LENGTH),
    (b"Content-Length: 2 2\r\n\r\n{}", BAD_LENGTH), (b"Content-Length: \xd9\xa2\r\n\r\n{}", BAD_LENGTH),
    (b"Content-Length: 2\0\r\n\r\n{}", BAD_LENGTH), (b"Content-Length: 16777217\r\n\r\n", LONG_BODY),
    (b"Content-Length: %s\r\n\r\n" % (b"9" * 400), LONG_BODY),
    (b"Content-Length: 2\r\ncontent-length: 2\r\n\r\n{}", MANY_LENGTHS),
    (b"Content-Length: 2", CUT_SHORT), (b"Content-Length: 2\r\n", CUT_SHORT), (b"Content-Length: 2\r\r{}", CUT_SHORT),
    (b"Content-Length: 2\r\n\r\n{", CUT_SHORT), (b"Content-Length: 16777216\r\n\r\n{}", CUT_SHORT),
    (b"x" * 5_000, LONG_HEADER), (b"x" * 20_000_000, LONG_HEADER), (b"X: y\r\n" * 1_000 + b"\r\n", LONG_HEADER),
    (b"Content-Length: 2\r\nX: " + b"y" * 4_071 + b"\r\n\r\n{}", LONG_HEADER), (b"\0" * 100, CUT_SHORT),
]
INITIALIZE = b'{"seq":1,"type":"request","command":"initialize"}'
# Odd headers that are headers.
GOOD_HEADS = [
    b"Content-Length: 49\r\n\r\n", b"Content-Length: 49\n\n", b"content-length:49\r\n\n",
    b"CONTENT-LENGTH: \t49 \t\r\n\r\n",
    b"A: b\r\nContent-Length: 0049\r\nContent-Type: x; charset=utf-8\r\n\r\n",
    b"nothing\r\nContent-Length: 49\r\n\r\n",
    b"\xff\0: \x1b\r\nContent-Length: 49\r\n\r\n", b"Content-Length: 49\r\nX: " + b"y" * 4_069 + b"\r\n\r\n",
]


def wrong_headers(program: Any) -> Iterator[str]:
    for data, text in BROKEN:
        errors = f"vjobs-dap: standard input: {text}\n"
        yield from differ(f"{data[:60]!r}", program, data, [], errors, 1)
        yield from differ(f"{data[:60]!r} after a message", program, framed(INITIALIZE) + data, ["initialize 1 ok"],
                          errors, 1)
    for head in GOOD_HEADS:
        yield from differ(f"{head[:60]!r}", program, head + INITIALIZE, ["initialize 1 ok"])
    yield from differ("nothing", program, b"", [])


# ---- bodies


def filled(unit: bytes, count: int) -> bytes:
    """A request whose arguments have an array with a count of these items, which end in commas."""
    return (b'{"seq":1,"type":"request","command":"threads","arguments":{"x":[%s]}}' % (unit * count).rstrip(b","))


def whole(unit: bytes) -> bytes:
    """The same, as long as a body may be."""
    return filled(unit, (MOST_BODY - 100) // len(unit))


def most(unit: bytes) -> bytes:
    """The same with nearly as many brackets and commas as a body may have."""
    return filled(unit, (MOST_MARKS - 8) // sum(map(unit.count, (b"[", b"{", b","))))


def head(seq: str, kind: str = '"request"', command: str = '"threads"') -> str:
    return f'{{"seq":{seq},"type":{kind},"command":{command}}}'


NONE = f"output stderr: {NOT_REQUEST}\n"
REFUSED = f"threads 1: {NO_JOB}"
# Bodies, and what comes of each.
BODIES: list[tuple[bytes | str, str]] = [
    ("", NOT_JSON), (" \n", NOT_JSON), ("{", NOT_JSON), ("\0", NOT_JSON), (head("1") + "x", NOT_JSON),
    ("\ufeff" + head("1"), NOT_JSON), (head("1")[:-1], NOT_JSON), ("{'seq':1}", NOT_JSON), ("{\"seq\":1,}", NOT_JSON),
    (b'{"x":"\xff"}', NOT_JSON), (b'{"x":"\xed\xa0\x80"}', NOT_JSON), (r'{"x":"\ud800"}', NOT_JSON), ("NaN", NOT_JSON),
    ('{"x":"\n"}', NOT_JSON), (head("01"), NOT_JSON), (b"[" * 8_000_000, TOO_LARGE), (b"[" * 200_000, NOT_JSON),
    (b"[" * 128 + b"]" * 128, NOT_JSON), (b"[" * 127 + b"]" * 127, NONE), (b"9" * MOST_BODY, NOT_JSON),
    ("[]", NONE), ("null", NONE), ("5", NONE), ('"x"', NONE), ("{}", NONE), ('[{"seq":1}]', NONE),
    (head("1.5"), NONE), (head("1.0"), NONE), (head("1e3"), NONE), (head("-1"), NONE), (head('"1"'), NONE),
    (head("null"), NONE), (head("[1]"), NONE), (head("18446744073709551616"), NONE), (head("9" * 400), NOT_JSON),
    (head("18446744073709551615"), f"threads 18446744073709551615: {NO_JOB}"), (head("0"), f"threads 0: {NO_JOB}"),
    (head("1", command="5"), NONE), (head("1", command="null"), NONE), ('{"seq":1,"type":"request"}', NONE),
    (head("1", kind='"response"'), f"threads 1: {NOT_REQUEST}"), (head("1", kind="1"), f"threads 1: {NOT_REQUEST}"),
    ('{"seq":1,"command":"threads"}', f"threads 1: {NOT_REQUEST}"), ('{"seq":1,' + head('"x"')[1:], NONE),
    ('{"seq":"x",' + head("1")[1:], REFUSED),
    (head("1", command='"attach"'), "attach 1: vjobs-dap has no request attach"),
    (head("1", command='"restart"'), "restart 1: vjobs-dap has no request restart"),
    (head("1", command='"Threads"'), "Threads 1: vjobs-dap has no request Threads"),
    (head("1", command='""'), " 1: vjobs-dap has no request "), (head("1", command=r'"thr\u0065ads"'), REFUSED),
    (head("1", command=r'"a\u0000\u001b\n\"\\"'), "a\0\x1b\n\"\\ 1: vjobs-dap has no request a\0\x1b\n\"\\"),
    (head("1", command='"' + "a" * 4_000_000 + '"'), "aaaaaaaaaaa.."),
    (head("1", command='"' + r"\u0001" * 2_000_000 + '"'), "\1\1\1\1.."),
    (whole(b"1,"), TOO_LARGE), (whole(b"[1],"), TOO_LARGE), (whole(b'{"":1},'), TOO_LARGE), (whole(b'"",'), TOO_LARGE),
    (most(b"1,"), REFUSED), (most(b"[1],"), REFUSED), (most(b"[[[[1]]]],"), REFUSED), (most(b'{"":1},'), REFUSED),
    (most(b'{"":{"":{"":[]}}},'), REFUSED), (most(b'"%s",' % (b"x" * 60)), REFUSED),
    (most(b'{"%s":1},' % (b"x" * 60)), REFUSED), (filled(b'"%s",' % (b"x" * 16_000_000), 1), REFUSED),
]


def wrong_bodies(program: Any) -> Iterator[str]:
    """What is wrong if a body is no request that can be followed. Then the session goes on."""
    for body, text in BODIES:
        after = request(8, "initialize") + request(9, "disconnect")
        yield from differ(f"{body[:60]!r}", program, framed(body) + after, [text, "initialize 8 ok", "disconnect 9 ok"])


# ---- arguments


def has_to_be(name: str, shape: str) -> str:
    return f"the argument {name} has to be {shape}"


NUMBER = "a whole number, 0 or more"
PLACE = "a whole number, 1 or more"
SOURCE = {"path": "x.vcode"}
# Requests with arguments that are missing or of a wrong kind, and why they are refused.
ARGUMENTS: list[tuple[str, Any, str]] = [
    *(("launch", none, "the argument batch is missing") for none in ({}, None, {"batch": None})),
    ("launch", {"batch": 5}, has_to_be("batch", "a string")),
    ("launch", [], has_to_be("arguments", "an object")), ("launch", "x", has_to_be("arguments", "an object")),
    *(("launch", {"batch": "x", "job": job}, has_to_be("job", PLACE)) for job in (0, -1, 1.5, 2**64, "1", [], True)),
    *(("launch", {"batch": "x", "memory": memory}, has_to_be("memory", "a whole number from 0 to 4096"))
      for memory in (-1, 4097, 0.5, "256")),
    *(("launch", {"batch": "x", "stopOnEntry": stops}, has_to_be("stopOnEntry", "true or false"))
      for stops in (0, "true", [])),
    ("initialize", {"linesStartAt1": 1}, has_to_be("linesStartAt1", "true or false")),
    ("initialize", {"columnsStartAt1": "no"}, has_to_be("columnsStartAt1", "true or false")),
    ("setBreakpoints", {}, "the argument name is missing"),
    ("setBreakpoints", {"source": "x"}, has_to_be("source", "an object")),
    ("setBreakpoints", {"source": {"path": 1}}, has_to_be("path", "a string")),
    ("setBreakpoints", {"source": SOURCE, "breakpoints": {}}, has_to_be("breakpoints", "an array")),
    ("setBreakpoints", {"source": SOURCE, "breakpoints": [5]}, "the argument line is missing"),
    ("setBreakpoints", {"source": SOURCE, "breakpoints": [{}]}, "the argument line is missing"),
    ("setBreakpoints", {"source": SOURCE, "breakpoints": [{"line": -1}]}, has_to_be("line", NUMBER)),
    ("setBreakpoints", {"source": SOURCE, "breakpoints": [{"line": 1, "condition": 1}]},
     has_to_be("condition", "a string")),
    ("setFunctionBreakpoints", {"breakpoints": "x"}, has_to_be("breakpoints", "an array")),
    ("setFunctionBreakpoints", {"breakpoints": [{"name": 1}]}, has_to_be("name", "a string")),
    ("setFunctionBreakpoints", {"breakpoints": [None]}, "the argument name is missing"),
    ("breakpointLocations", {"source": SOURCE}, "the argument line is missing"),
    ("breakpointLocations", {"line": 1}, "the argument name is missing"),
    ("breakpointLocations", {"source": SOURCE, "line": 1, "endLine": "2"}, has_to_be("endLine", NUMBER)),
    ("stackTrace", {"startFrame": -1}, has_to_be("startFrame", NUMBER)),
    ("stackTrace", {"levels": 1.5}, has_to_be("levels", NUMBER)),
    ("scopes", {}, "the argument frameId is missing"), ("scopes", {"frameId": "1"}, has_to_be("frameId", NUMBER)),
    ("variables", {}, "the argument variablesReference is missing"),
    ("variables", {"variablesReference": -1}, has_to_be("variablesReference", NUMBER)),
    ("variables", {"variablesReference": 1, "start": "0"}, has_to_be("start", NUMBER)),
    ("variables", {"variablesReference": 1, "count": -1}, has_to_be("count", NUMBER)),
    ("variables", {"variablesReference": 1, "filter": 1}, has_to_be("filter", "a string")),
    ("evaluate", {}, "the argument expression is missing"),
    ("evaluate", {"expression": 0}, has_to_be("expression", "a string")),
    ("evaluate", {"expression": "0", "context": 1}, has_to_be("context", "a string")),
]
# Requests that ask for what isn't there, at the first state of a job.
NOT_THERE: list[tuple[str, dict[str, Any]]] = [
    *(("scopes", {"frameId": frame}) for frame in (0, 2, 2**53, 2**64 - 1)),
    *(("variables", {"variablesReference": number}) for number in (0, 2**31, 2**53, 2**63, 2**64 - 1)),
    *(("evaluate", {"expression": text, "context": context}) for context in ("hover", "repl") for text in (
        "", " ", "x", "0", "0:", ":", "-1", "0:0", "0:1-0", "0:0-", "18446744073709551616", "at", "at ", "at -1",
        "at x", "at 18446744073709551616", "at 1 1", "\0", "\x1b[2J", "0" * 1_000_000, "9" * 1_000_000, "\u0660")),
    ("exceptionInfo", {}),
]
# Requests that ask for more than is there, which is no fault.
MORE: list[tuple[str, dict[str, Any]]] = [
    ("stackTrace", {"startFrame": 2**64 - 1}), ("stackTrace", {"startFrame": 1, "levels": 2**64 - 1}),
    ("stackTrace", {"levels": 0}), ("threads", {"x": []}), ("setExceptionBreakpoints", {"filters": ["x"]}),
    ("setBreakpoints", {"source": {"path": ""}}), ("setBreakpoints", {"source": {"name": "\x1b\n"}, "breakpoints": []}),
    ("setBreakpoints", {"source": SOURCE, "breakpoints": [{"line": line} for line in (0, 1, 2**53, 2**64 - 1)]}),
    ("setBreakpoints", {"source": {"path": str(BATCH)}, "breakpoints": [{"line": 2**64 - 1}, {"line": 0}]}),
    ("setBreakpoints", {"source": {"path": str(BATCH)}, "breakpoints": [{"line": 33}] * 10_000}),
    ("setFunctionBreakpoints", {"breakpoints": [{"name": name} for name in (
        "", "none", "words>", "words>x", "words>18446744073709551616", "words>-1", ">", "\x1b[2J\n", "x" * 100_000)]}),
    ("setFunctionBreakpoints", {"breakpoints": [{"name": "words>5"}] * 10_000}),
    ("breakpointLocations", {"source": {"path": str(BATCH)}, "line": 2**64 - 1, "endLine": 0}),
    ("breakpointLocations", {"source": {"path": str(BATCH)}, "line": 0, "endLine": 2**64 - 1}), ("pause", {}),
]
BEGIN = (request(1, "initialize") + request(2, "launch", batch=str(BATCH), job=3) + request(3, "configurationDone"))
BEGUN = ["initialize 1 ok", "launch 2 ok", "initialized", "configurationDone 3 ok", "stopped"]
LEAVE = request(9, "disconnect")


def wrong_arguments(program: Any) -> Iterator[str]:
    for command, arguments, text in ARGUMENTS:
        body = {"seq": 1, "type": "request", "command": command, "arguments": arguments}
        yield from differ(f"{command} {arguments}", program, framed(json.dumps(body)) + request(9, "initialize"),
                          [f"{command} 1: {text}", "initialize 9 ok"])
    asked = list(enumerate(NOT_THERE, 10))
    data = b"".join(request(seq, command, **arguments) for seq, (command, arguments) in asked)
    yield from differ("what isn't there", program, BEGIN + data + LEAVE,
                      [*BEGUN, *(f"{command} {seq}: .." for seq, (command, _) in asked), "disconnect 9 ok"])
    asked = list(enumerate(MORE, 10))
    data = b"".join(request(seq, command, **arguments) for seq, (command, arguments) in asked)
    yield from differ("more than is there", program, BEGIN + data + LEAVE,
                      [*BEGUN, *(f"{command} {seq} ok" for seq, (command, _) in asked), "disconnect 9 ok"])


# ---- requests at a wrong time


MOVES = ["continue", "next", "stepIn", "stepOut", "stepBack", "reverseContinue"]
NEEDED: dict[str, dict[str, Any]] = {
    "scopes": {"frameId": 1}, "variables": {"variablesReference": 1}, "evaluate": {"expression": "0"},
    "setBreakpoints": {"source": SOURCE}, "breakpointLocations": {"source": SOURCE, "line": 1},
}
VIEWS = ["threads", "stackTrace", "scopes", "variables", "evaluate", "exceptionInfo", "pause"]
PLACED = ["setBreakpoints", "setFunctionBreakpoints", "breakpointLocations"]


def all_of(commands: list[str], first: int) -> bytes:
    return b"".join(request(seq, command, **NEEDED.get(command, {})) for seq, command in enumerate(commands, first))


def wrong_times(program: Any) -> Iterator[str]:
    early = [*MOVES, *VIEWS, *PLACED, "configurationDone"]
    yield from differ("before launch", program, all_of(early, 1),
                      [f"{it} {seq}: {NO_JOB}" for seq, it in enumerate(early, 1)])
    launched = request(1, "launch", batch=str(BATCH), job=3)
    yield from differ("before configurationDone", program, launched + all_of([*MOVES, "pause"], 2), [
        "launch 1 ok", "initialized", *(f"{it} {seq}: .." for seq, it in enumerate([*MOVES, "pause"], 2))])
    twice = ["initialize", "launch", "configurationDone"]
    NEEDED["launch"] = {"batch": str(BATCH)}
    yield from differ("twice", program, BEGIN + all_of(twice, 4) + LEAVE,
                      [*BEGUN, *(f"{it} {seq}: .." for seq, it in enumerate(twice, 4)), "disconnect 9 ok"])
    over = [*MOVES, "pause", "configurationDone", "launch"]
    ended = BEGIN + request(4, "terminate")
    yield from differ("after terminate", program, ended + all_of(over, 10) + LEAVE, [
        *BEGUN, "terminate 4 ok", "terminated", *(f"{it} {seq}: the job is over" for seq, it in enumerate(over, 10)),
        "disconnect 9 ok"])
    unbegun = request(4, "terminate") + all_of(over, 10) + LEAVE
    yield from differ("terminate before launch", program, unbegun, [
        "terminate 4 ok", "terminated", *(f"{it} {seq}: the job is over" for seq, it in enumerate(over, 10)),
        "disconnect 9 ok"])
    after = request(4, "disconnect") + request(5, "threads") + b"Content-Length: x\r\n\r\n"
    yield from differ("after disconnect", program, BEGIN + after, [*BEGUN, "disconnect 4 ok"])


# ---- files


JOB = "JOB a 9 9 9 9\nSIGNATURES\nMAIN () -> (INT)\nCODE\nFUNC MAIN\nCONST INT 1\nRET\nEND\n"


def made(folder: Path) -> Iterator[tuple[Any, str]]:
    """Names of files that can't be launched, and the first line that says why."""
    os.mkfifo(folder / "pipe")
    (folder / "link").symlink_to(folder / "pipe")
    (folder / "loop").symlink_to(folder / "loop")
    (folder / "empty").write_bytes(b"")
    (folder / "odd").write_bytes(bytes(range(256)) * 100)
    (folder / "cut").write_text(JOB[:-4])
    (folder / "refused").write_text(JOB.replace("CONST INT 1", "NONE"))
    (folder / "many").write_text(JOB * 65)
    (folder / "long").write_bytes(b"{" + b" " * 17_000_000)
    for name in ("pipe", "link", "."):
        yield folder / name, f"{folder / name}: it is no regular file"
    yield "/dev/zero", "/dev/zero: it is no regular file"
    yield "/dev/stdin", "/dev/stdin: it is no regular file"
    yield folder / "loop", f"{folder / 'loop'}: Too many levels of symbolic links (os error 40)"
    yield folder / "none", f"{folder / 'none'}: No such file or directory (os error 2)"
    yield "", ": No such file or directory (os error 2)"
    yield "-", "-: No such file or directory (os error 2)"
    yield "a\x1b[2J\n\u202e", "a\\u{1b}[2J\\n\\u{202e}: No such file or directory (os error 2)"
    yield "a\0b", "a\\u{0}b: .."
    yield "x" * 300, "x" * 300 + ": File name too long (os error 36)"
    for name in ("empty", "odd", "cut", "long", "many"):
        yield folder / name, ".."
    yield folder / "refused", "JOB 1 a REFUSED line 6 .."


def wrong_files(program: Any, folder: Path) -> Iterator[str]:
    for name, text in made(folder):
        data = request(1, "launch", batch=str(name)) + request(2, "launch", batch=str(BATCH)) + LEAVE
        shown = f"output stderr: {text.removesuffix('..')}.."
        yield from differ(f"launch of {str(name)[:60]!r}", program, data, [
            shown, f"launch 1: {text}", "launch 2 ok", "initialized", "disconnect 9 ok"])
    for job in (5, 65, 2**64 - 1):
        yield from differ(f"job {job}", program, request(1, "launch", batch=str(BATCH), job=job), [
            "output stderr: the batch has no such job\n", "launch 1: the batch has no such job"])


# ---- command lines and outputs


HINT = "\n\nFor more information, try '--help'.\n"
USAGE = "\n\nUsage: vjobs-dap" + HINT


def wrong_words(program: Any) -> Iterator[str]:
    words: list[tuple[list[Any], int, str]] = [
        (["--none"], 2, "error: unexpected argument '--none' found" + USAGE),
        (["x\x1b[2J\n"], 2, "error: unexpected argument 'x\\u{1b}[2J\\n' found" + USAGE),
        ([b"bad\xff"], 2, "error: argument 1 is no UTF-8: bad\\xff" + USAGE),
    ]
    for line, status, text in words:
        if (found := run([program, *line], INITIALIZE)) != (status, b"", text):
            yield f"{line}: exit, output and errors are {found}, and not {(status, b'', text)}"
    full = "vjobs-dap: standard output: No space left on device (os error 28)\n"
    outputs: list[tuple[list[str], bytes, int]] = [(["--help"], b"", 3), ([], framed(INITIALIZE), 1), ([], BEGIN, 1)]
    for ways, data, status in outputs:
        with open("/dev/full", "wb") as out:
            found_status, _, errors = run([program, *ways], data, stdout=out)
        if (found_status, errors) != (status, full):
            yield f"{ways} > /dev/full: exit and errors are {(found_status, errors)}, and not {(status, full)}"
    yield from wrong_pipes(program)


def wrong_pipes(program: Any) -> Iterator[str]:
    """What is wrong if there is nothing to read from, if nobody reads what is sent, or if bytes come one by one."""
    folder = os.open("/", os.O_RDONLY)
    ran = subprocess.run([program], stdin=folder, capture_output=True, check=False, timeout=SECONDS)
    os.close(folder)
    text = b"vjobs-dap: standard input: Is a directory (os error 21)\n"
    if (ran.returncode, ran.stdout, ran.stderr) != (1, b"", text):
        yield f"a folder as input: exit, output and errors are {(ran.returncode, ran.stdout, ran.stderr)}"
    read, write = os.pipe()
    os.close(read)
    found = run([program], BEGIN, stdout=write)
    os.close(write)
    wanted = (1, None, "vjobs-dap: standard output: Broken pipe (os error 32)\n")
    if found != wanted:
        yield f"a pipe without a reader: exit, output and errors are {found}, and not {wanted}"
    with subprocess.Popen([program], stdin=subprocess.PIPE, stdout=subprocess.PIPE, bufsize=0) as process:
        for byte in framed(INITIALIZE):
            process.stdin.write(bytes([byte]))
            time.sleep(0.001)
        out = process.communicate(timeout=SECONDS)[0]
    if [short(message) for message in messages_of(out)] != ["initialize 1 ok"]:
        yield f"bytes one by one: the output is {out!r}"


# ---- refused memory


# A session of which each allocation is refused in turn. Its moves are short, and so its messages come in one order.
WALK: list[tuple[str, dict[str, Any]]] = [
    ("initialize", {}), ("launch", {"batch": str(BATCH), "job": 3, "memory": 1}),
    ("setBreakpoints", {"source": {"path": str(BATCH)}, "breakpoints": [{"line": 33}, {"line": 34, "condition": "x"}]}),
    ("setFunctionBreakpoints", {"breakpoints": [{"name": "words>5"}, {"name": "none"}]}),
    ("breakpointLocations", {"source": {"path": str(BATCH)}, "line": 1, "endLine": 40}), ("configurationDone", {}),
    ("threads", {}), ("stepIn", {}), ("stackTrace", {}), ("scopes", {"frameId": 1}), ("evaluate", {"expression": "0"}),
    ("variables", {"variablesReference": 1}), ("continue", {}), ("continue", {}), ("exceptionInfo", {}),
    ("evaluate", {"expression": "0:0-1"}), ("stepBack", {}), ("reverseContinue", {}),
    ("evaluate", {"expression": "at 1", "context": "repl"}), ("next", {}), ("none", {}), ("disconnect", {}),
]
NO_MEMORY = ("vjobs-dap: out of memory\n", "vjobs-dap: standard input: out of memory\n",
             "vjobs-dap: standard output: out of memory\n")


# A job with a vector of 100,000 words that is made 300 times, and a walk to its end and back, for which there is less
# address space than it may keep states in.
LARGE = """JOB large 1000000 1000 1024 100000\nSIGNATURES\nMAIN () -> (INT)\nloop (INT INT) -> (INT)\nCODE\nFUNC MAIN
CONST INT 300 CONST INT 7 CONST INT 100000 MAKE_SEGDES DIST INT CALL loop RET\nFUNC loop
COPY 1 1 CONST INT 0 > INT IF COPY 1 0 + INT CPOP 1 1 CONST INT 1 - INT CPOP 1 1 CALL loop ELSE CPOP 1 1 POP 1 0 ENDIF
RET\nEND\n"""
LONG_WALK = ["continue", *["stepBack"] * 8, "reverseContinue", "disconnect"]
LITTLE = [30 << 20, 60 << 20, 100 << 20, 200 << 20]


def wrong_walk(requests: int, status: int, out: bytes, errors: str) -> Iterator[str]:
    """What is wrong with a walk of which memory was refused: it answers all requests, or ends by that."""
    try:
        messages = [*messages_of(out)]
    except (Odd, ValueError) as odd:
        yield str(odd)
        return
    answered = [message["request_seq"] for message in messages if message["type"] == "response"]
    if answered != [*range(1, len(answered) + 1)]:
        yield f"the requests that were answered are {answered}"
        return
    is_whole = status == 0 and not errors and len(answered) == requests
    if not is_whole and not (status in (1, 3) and errors in NO_MEMORY):
        yield f"exit {status}, {errors[-200:]!r} after {len(answered)} answers"


def wrong_refusals(program: Any, folder: Path) -> Iterator[str]:
    """What is wrong if an allocation of a session is refused."""
    library = built(folder)
    if not library:
        print("dap: skipped: no allocation is refused, since there is no C compiler")
        return
    data = b"".join(request(seq, command, **arguments) for seq, (command, arguments) in enumerate(WALK, 1))
    there = {**os.environ, "LD_PRELOAD": str(library)}
    status, out, errors = run([program], data, env={**there, "COUNTED": "1"})
    count = int(COUNT.search(errors.encode())[1])
    yield from wrong_walk(len(WALK), status, out, COUNT.sub(b"", errors.encode()).decode())

    def wrong(number: int) -> list[str]:
        try:
            found = run([program], data, env={**there, "REFUSED": str(number)})
        except subprocess.TimeoutExpired:
            return [f"allocation {number} of {count}: it doesn't end"]
        return [f"allocation {number} of {count}: {text}" for text in wrong_walk(len(WALK), *found)]

    places = sorted({1 + place * count // MOST_REFUSED for place in range(MOST_REFUSED)} if count > MOST_REFUSED
                    else range(1, count + 1))
    with ThreadPoolExecutor(os.cpu_count()) as workers:
        for texts in workers.map(wrong, places):
            yield from texts


def wrong_sizes(program: Any, folder: Path) -> Iterator[str]:
    """What is wrong if there is too little memory for all states that are to be kept, or for the job."""
    batch = folder / "large"
    batch.write_text(LARGE)
    data = request(1, "launch", batch=str(batch), memory=4096) + request(2, "configurationDone") + all_of(LONG_WALK, 3)
    for size in LITTLE:
        def before(size: int = size) -> None:
            resource.setrlimit(resource.RLIMIT_AS, (size, size))
        try:
            found = run([program], data, preexec_fn=before)
        except subprocess.TimeoutExpired:
            yield f"with {size} bytes it doesn't end"
            continue
        yield from (f"with {size} bytes: {text}" for text in wrong_walk(len(LONG_WALK) + 2, *found))


def faults(program: Path) -> Iterator[str]:
    """All that is wrong."""
    for wrong in (wrong_headers, wrong_bodies, wrong_arguments, wrong_times, wrong_words):
        yield from wrong(program)
    folder = Path(tempfile.mkdtemp())
    try:
        yield from wrong_files(program, folder)
        yield from wrong_sizes(program, folder)
        yield from wrong_refusals(program, folder)
    finally:
        shutil.rmtree(folder)


def main() -> None:
    found = [*faults(Path(sys.argv[1]).resolve())]
    print(*found, f"bad input: {len(found)} faults", sep="\n")
    sys.exit(bool(found))


if __name__ == "__main__":
    main()
