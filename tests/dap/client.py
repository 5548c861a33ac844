"""A client of the debug adapter protocol: it starts vjobs-dap, asks, and waits for answers and events."""
from __future__ import annotations

import json
import os
import select
import subprocess
import time
from collections.abc import Callable
from typing import Any

from protocol import faults_of_form

# How long a client waits for a message.
SECONDS = 20.0
# The requests that move the job, which are answered at once and followed by the event `stopped` or `terminated`.
MOVES = ("continue", "next", "stepIn", "stepOut", "stepBack", "reverseContinue")
THREAD = 1


class Wrong(Exception):
    """What the program did isn't what the protocol allows, or isn't what is wanted."""


class Gone(Wrong):
    """The program closed its output."""


class Late(Wrong):
    """A message didn't come in time."""


class Refused(Exception):
    """A request was refused, with this message."""


# What a test that asks for something may raise if the program is wrong.
UNWANTED = (Wrong, Refused, KeyError, IndexError, TypeError, ValueError)


class Client:
    """A session with one program. All messages that come in are kept in `messages`, in their order."""

    def __init__(self, program: Any, *words: str, before: Callable[[], None] | None = None,
                 variables: dict[str, str] | None = None) -> None:
        """BEFORE is called in the new process before the program begins; VARIABLES are added to its environment."""
        self.process = subprocess.Popen([program, *words], stdin=subprocess.PIPE, stdout=subprocess.PIPE,
                                        stderr=subprocess.PIPE, bufsize=0, preexec_fn=before,
                                        env={**os.environ, **(variables or {})})
        self.seq, self.came = 0, b""
        self.messages: list[dict[str, Any]] = []
        # How many messages were taken as events.
        self.taken = 0

    def __enter__(self) -> Client:
        return self

    def __exit__(self, *_: object) -> None:
        self.kill()

    # ---- bytes

    def write(self, data: bytes) -> None:
        """Writes bytes as they are. A program that is gone doesn't matter here."""
        try:
            while data:
                data = data[os.write(self.process.stdin.fileno(), data) :]
        except BrokenPipeError:
            pass

    def write_body(self, body: bytes) -> None:
        self.write(b"Content-Length: %d\r\n\r\n" % len(body) + body)

    def read_more(self, until: float) -> None:
        """Reads what comes next, or raises Late or Gone."""
        out = self.process.stdout.fileno()
        if not select.select([out], [], [], max(until - time.monotonic(), 0))[0]:
            raise Late(f"nothing came in time; the last messages were {self.messages[-3:]}")
        more = os.read(out, 1 << 16)
        if not more:
            raise Gone(f"the output ended, with {self.came!r} left")
        self.came += more

    def message_in(self) -> dict[str, Any] | None:
        """The first message of what came, or None if it isn't whole yet."""
        head, mark, rest = self.came.partition(b"\r\n\r\n")
        if not mark:
            return None
        name, _, number = head.partition(b": ")
        if name != b"Content-Length" or not number.isdigit():
            raise Wrong(f"a header is {head!r}")
        if len(rest) < int(number):
            return None
        self.came = rest[int(number) :]
        message = json.loads(rest[: int(number)])
        if message["seq"] != len(self.messages) + 1:
            raise Wrong(f"message {len(self.messages) + 1} has the seq {message['seq']}")
        self.messages.append(message)
        if faults := [*faults_of_form(message)]:
            raise Wrong(f"{faults[:5]} in {str(message)[:300]}")
        return message

    def next_message(self, seconds: float = SECONDS) -> dict[str, Any]:
        """The next message that comes in."""
        until = time.monotonic() + seconds
        while (message := self.message_in()) is None:
            self.read_more(until)
        return message

    # ---- requests

    def send(self, command: str, arguments: dict[str, Any] | None = None) -> int:
        """Sends a request; answers its seq."""
        self.seq += 1
        request: dict[str, Any] = {"seq": self.seq, "type": "request", "command": command}
        if arguments is not None:
            request["arguments"] = arguments
        self.write_body(json.dumps(request).encode())
        return self.seq

    def response(self, seq: int, seconds: float = SECONDS) -> dict[str, Any]:
        """The response to the request of this seq. What comes before stays in `messages`: events, and responses to
        requests before."""
        until = time.monotonic() + seconds
        while True:
            message = self.next_message(until - time.monotonic())
            if message["type"] == "response":
                if message["request_seq"] > seq:
                    raise Wrong(f"{message} came, and no response to {seq}")
                if message["request_seq"] == seq:
                    return message

    def ask(self, command: str, **arguments: Any) -> dict[str, Any]:
        """The body of the response to a request, or raises Refused with its message."""
        response = self.response(self.send(command, arguments))
        if response["command"] != command:
            raise Wrong(f"the response to {command} is {response}")
        if not response["success"]:
            raise Refused(response["message"])
        return response.get("body", {})

    def refusal(self, command: str, **arguments: Any) -> str:
        """The message with which a request is refused."""
        try:
            body = self.ask(command, **arguments)
        except Refused as refused:
            return str(refused)
        raise Wrong(f"{command} {arguments} isn't refused, but answered with {body}")

    # ---- events

    def event(self, *names: str, seconds: float = SECONDS) -> dict[str, Any]:
        """The next event of one of these names that wasn't taken before. Events of other names are passed over."""
        until = time.monotonic() + seconds
        while True:
            while self.taken < len(self.messages):
                message = self.messages[self.taken]
                self.taken += 1
                if message["type"] == "event" and message["event"] in names:
                    return message
            self.next_message(until - time.monotonic())

    def outputs(self) -> str:
        """The texts of all `output` events so far."""
        return "".join(message["body"]["output"] for message in self.messages
                       if message["type"] == "event" and message["event"] == "output")

    # ---- sessions

    def launch(self, batch: Any, **arguments: Any) -> None:
        """Begins a session up to the event `initialized`."""
        self.ask("initialize", adapterID="vjobs", **arguments.pop("client", {}))
        self.ask("launch", batch=str(batch), **arguments)
        self.event("initialized")

    def begin(self) -> dict[str, Any]:
        """Ends the configuration; answers the body of the first event `stopped`."""
        self.ask("configurationDone")
        return self.event("stopped")["body"]

    def move(self, command: str, seconds: float = SECONDS) -> dict[str, Any]:
        """Moves the job; answers the event `stopped` or `terminated`."""
        self.ask(command, threadId=THREAD)
        return self.event("stopped", "terminated", seconds=seconds)

    def go_to(self, number: int, seconds: float = SECONDS) -> dict[str, Any]:
        """Goes to the state of a number; answers the event."""
        self.ask("evaluate", expression=f"at {number}", context="repl")
        return self.event("stopped", "terminated", seconds=seconds)

    def frames(self, **arguments: Any) -> list[dict[str, Any]]:
        return self.ask("stackTrace", threadId=THREAD, **arguments)["stackFrames"]

    def scopes(self, frame: int) -> dict[str, dict[str, Any]]:
        """The scopes of a frame by their names."""
        return {scope["name"]: scope for scope in self.ask("scopes", frameId=frame)["scopes"]}

    def variables(self, reference: int, **arguments: Any) -> list[dict[str, Any]]:
        return self.ask("variables", variablesReference=reference, **arguments)["variables"]

    # ---- the end

    def close_input(self) -> None:
        self.process.stdin.close()

    def ended(self, seconds: float = SECONDS) -> tuple[int, str]:
        """The exit status of the program, once it has ended by itself, and what it wrote on standard error."""
        try:
            status = self.process.wait(seconds)
        except subprocess.TimeoutExpired:
            raise Late("the program doesn't end") from None
        return status, self.process.stderr.read().decode(errors="replace")

    def rest(self, seconds: float = SECONDS) -> None:
        """Takes all messages up to the end of the output."""
        try:
            while True:
                self.next_message(seconds)
        except Gone:
            if self.came:
                raise

    def quit(self) -> None:
        """Ends the session; raises Wrong unless the program ends quietly."""
        self.ask("disconnect")
        if (found := self.ended()) != (0, ""):
            raise Wrong(f"after disconnect the exit and the errors are {found}")

    def last_words(self) -> str:
        """How the program ended and what it wrote on standard error, if it is over, as text to be added to a fault."""
        if self.process.poll() is None:
            return ""
        return f" (exit {self.process.returncode}: {self.process.stderr.read().decode(errors='replace')[-300:]})"

    def kill(self) -> None:
        if self.process.poll() is None:
            self.process.kill()
        self.process.wait()
        for stream in (self.process.stdin, self.process.stdout, self.process.stderr):
            try:
                stream.close()
            except BrokenPipeError:
                pass
