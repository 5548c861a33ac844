"""A line of progress on standard error."""
from __future__ import annotations

import sys
import time

from .collecting import ANSWERED, Ending

# How often the line is written, in seconds: on a terminal, and elsewhere.
TERMINAL, ELSEWHERE = 0.5, 60.0


def clock(seconds: float) -> str:
    """Hours, minutes and seconds."""
    whole = int(seconds)
    return f"{whole // 3600}:{whole // 60 % 60:02}:{whole % 60:02}"


class Progress:
    """Writes how far a run is: on a terminal one line again and again, elsewhere a line a minute."""

    def __init__(self, jobs: int, is_quiet: bool):
        self.jobs, self.is_quiet = jobs, is_quiet
        self.is_terminal = sys.stderr.isatty()
        self.begun_at = self.shown_at = time.monotonic()
        self.done_before: int | None = None
        self.width = 0

    def say(self, text: str) -> None:
        """Shows a text in place of the line, on a terminal."""
        if self.is_terminal and not self.is_quiet:
            self._write(text)

    def show(self, endings: dict[int, Ending], running: int) -> None:
        """Writes the line if it is time for it."""
        now, done = time.monotonic(), len(endings)
        if self.done_before is None:
            self.done_before, self.begun_at = done, now
        if self.is_quiet or now - self.shown_at < (TERMINAL if self.is_terminal else ELSEWHERE):
            return
        self.shown_at = now
        failures = sum(it.end != ANSWERED for it in endings.values())
        left = max(0, self.jobs - done - running)
        gained = done - self.done_before
        togo = clock((self.jobs - done) * (now - self.begun_at) / gained) if gained else "unknown"
        self._write(f"{done} of {self.jobs} jobs done, {running} running, {left} left, {togo} to go; {failures} failures")

    def _write(self, text: str) -> None:
        if self.is_terminal:
            sys.stderr.write("\r" + text.ljust(self.width))
            self.width = len(text)
        else:
            sys.stderr.write(f"vjobs-spread: {text}\n")
        sys.stderr.flush()

    def end(self) -> None:
        """Ends the line."""
        if self.width:
            sys.stderr.write("\n")
            self.width = 0
