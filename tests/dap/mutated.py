"""Sessions with changes at random: vjobs-dap has to end, by itself, with messages that are whole."""
from __future__ import annotations

import json
import random
import re
import subprocess
from collections.abc import Iterator
from pathlib import Path
from typing import Any

TOP = Path(__file__).resolve().parents[2]
SECONDS = 20
SESSIONS, LONGEST = 400, 25
JOBS = [("four_ends", 1), ("four_ends", 3), ("quicksort", 1), ("endless_recursion", 1)]
SOURCE = {"source": {"path": "quicksort.vcode"}}
REQUESTS: list[tuple[str, dict[str, Any]]] = [
    *((move, {"threadId": 1}) for move in ("continue", "next", "stepIn", "stepOut", "stepBack", "reverseContinue")),
    ("setBreakpoints", {**SOURCE, "breakpoints": [{"line": 40}, {"line": 3, "condition": "x"}]}),
    ("setFunctionBreakpoints", {"breakpoints": [{"name": "split"}, {"name": "words>3"}]}),
    ("stackTrace", {"threadId": 1, "startFrame": 1, "levels": 3}), ("scopes", {"frameId": 1}),
    ("variables", {"variablesReference": 1, "start": 0, "count": 5, "filter": "indexed"}),
    ("evaluate", {"expression": "at 5", "context": "repl"}), ("evaluate", {"expression": "0:1-2", "context": "hover"}),
    ("breakpointLocations", {**SOURCE, "line": 3, "endLine": 40}), ("exceptionInfo", {"threadId": 1}), ("threads", {}),
    ("pause", {"threadId": 1}), ("configurationDone", {}), ("terminate", {}), ("disconnect", {}),
]
VALUES = [b"-1", b"1.5", b"1e3", b"18446744073709551615", b"18446744073709551616", b"null", b"true", b'"x"', b"[]",
          b"{}"]


def framed(body: bytes) -> bytes:
    return b"Content-Length: %d\r\n\r\n" % len(body) + body


def session(chance: random.Random) -> list[bytes]:
    """The bodies of a session's requests."""
    name, job = chance.choice(JOBS)
    batch = str(TOP / "examples" / f"{name}.vcode")
    requests = [("initialize", {"adapterID": "x"}), ("launch", {"batch": batch, "job": job, "memory": 1}),
                ("configurationDone", {}), *(chance.choice(REQUESTS) for _ in range(chance.randint(3, LONGEST)))]
    return [json.dumps({"seq": seq, "type": "request", "command": command, "arguments": arguments}).encode()
            for seq, (command, arguments) in enumerate(requests, 1)]


def changed(chance: random.Random, body: bytes) -> bytes:
    """A body with a change, and its header."""
    place = chance.randrange(len(body))
    match chance.randint(0, 5):
        case 0:
            return framed(body[:place] + bytes([chance.choice(b'{}[]",:0129eE.-\\ntu\x00\xff ')]) + body[place + 1 :])
        case 1:
            return framed(body[:place] + body[place + chance.randint(1, 8) :])
        case 2:
            found = chance.choice([*re.finditer(rb"\d+", body)])
            return framed(body[: found.start()] + chance.choice(VALUES) + body[found.end() :])
        case 3:
            name = chance.choice([b"arguments", b"command", b"seq", b"line", b"name"])
            return framed(body.replace(name, b"other", 1))
        case 4:
            return framed(body)[:place]
    header = bytearray(framed(body))
    header[chance.randrange(20)] = chance.choice(b"0123456789: \r\nCc\xff")
    return bytes(header)


def odd_messages(out: bytes) -> Iterator[str]:
    """What is wrong with the messages of an output."""
    count = 0
    while out:
        head, _, rest = out.partition(b"\r\n\r\n")
        found, count = re.fullmatch(rb"Content-Length: (\d+)", head), count + 1
        length = int(found[1]) if found else 0
        try:
            is_right = len(rest) >= length and json.loads(rest[:length])["seq"] == count
        except ValueError:
            is_right = False
        if not found or not is_right:
            yield f"message {count} is {out[:200]!r}"
            return
        out = rest[length:]


def wrong_session(program: Path, seed: int) -> Iterator[str]:
    """What is wrong with the session of this number."""
    chance = random.Random(seed)
    parts = session(chance)
    wrong = {chance.randrange(len(parts)) for _ in range(chance.randint(0, 3))}
    data = b"".join(changed(chance, body) if place in wrong else framed(body) for place, body in enumerate(parts))
    try:
        ran = subprocess.run([program], input=data, capture_output=True, check=False, timeout=SECONDS)
    except subprocess.TimeoutExpired:
        yield f"session {seed} doesn't end"
        return
    errors = ran.stderr.decode(errors="replace")
    is_quiet = (ran.returncode, errors) == (0, "")
    is_said = ran.returncode == 1 and re.fullmatch(r"vjobs-dap: [^\n]+\n", errors)
    if not is_quiet and not is_said:
        yield f"session {seed}: exit {ran.returncode}: {errors[-300:]}"
    yield from (f"session {seed}: {fault}" for fault in odd_messages(ran.stdout))


def faults(program: Path, first: int = 1, count: int = SESSIONS) -> Iterator[str]:
    for seed in range(first, first + count):
        yield from wrong_session(program, seed)
