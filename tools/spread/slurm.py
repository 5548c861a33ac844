"""Slurm: the lanes of a sending are the tasks of job arrays, whose name says the run and the sending."""
from __future__ import annotations

import re
import subprocess
import sys
import time
from typing import Any

from .engines import Sending
from .folder import Folder, Settings, Stopped
from .task import SECONDS_TO_KILL

# What a task takes besides its batch: memory in bytes, and seconds to be started.
TASK_MEMORY, TASK_SECONDS = 100_000_000, 60
# How often the queue is looked at, and how long Slurm may be without an answer, in seconds.
LOOK_EVERY, PATIENCE = 2.0, 300.0
# The states of a job that will still do something.
ALIVE = "PENDING,RUNNING,SUSPENDED,CONFIGURING"
QUEUE = ["squeue", "--noheader", "--me", f"--states={ALIVE}", "--format=%j"]
TEXT: dict[str, Any] = {"text": True, "errors": "replace", "check": False}
# What Slurm's commands say if its controller can't be reached; it may be started again.
UNREACHED = re.compile(r"Unable to contact|Connection refused|timed out|Socket|controller|Zero Bytes", re.I)


class Slurm:
    """Slurm by its own commands."""

    def __init__(self, folder: Folder, settings: Settings, slots: int, options: list[str], patience: float = PATIENCE):
        self.folder, self.settings, self.most, self.options = folder, settings, slots, options
        self.patience = patience
        self.sent: dict[int, str] = {}
        self.there: set[int] = set()
        self.looked, self.answered = 0.0, time.monotonic()
        self.failure = ""
        self.largest_array = 0

    def _run(self, words: list[str]) -> subprocess.CompletedProcess:
        try:
            ran = subprocess.run(words, stdin=subprocess.DEVNULL, capture_output=True, timeout=120, **TEXT)
        except FileNotFoundError as error:
            raise Stopped(f"there is no {words[0]} here") from error
        except subprocess.TimeoutExpired:
            return subprocess.CompletedProcess(words, 1, "", f"{words[0]} timed out")
        if ran.returncode:
            self.failure = ran.stderr.strip()
        return ran

    def _asked(self, words: list[str]) -> str:
        """What a command says. It is tried again while the controller can't be reached, as long as patience lasts."""
        until = time.monotonic() + self.patience
        while True:
            ran = self._run(words)
            if not ran.returncode:
                return ran.stdout
            if not UNREACHED.search(ran.stderr) or time.monotonic() > until:
                raise Stopped(f"{words[0]} failed: {self.failure}")
            time.sleep(LOOK_EVERY)

    def slots(self) -> int:
        """The processors that work or are idle, of all partitions."""
        counts = [line.split("/") for line in self._asked(["sinfo", "--noheader", "--format=%C"]).split()]
        found = sum(int(working) + int(idle) for working, idle, *_ in counts)
        if not found:
            raise Stopped("Slurm has no node that works")
        return min(found, self.most or found)

    def _name(self, sending: Sending) -> str:
        return f"vjobs-{self.folder.token}-{sending.round}-{sending.number}"

    def send(self, sending: Sending) -> None:
        if not self.largest_array:
            found = re.search(r"MaxArraySize\s*=\s*(\d+)", self._asked(["scontrol", "show", "config"]))
            self.largest_array = int(found[1]) - 1 if found else 1000
        self.sent[sending.number] = self._name(sending)
        for first in range(0, sending.lanes, self.largest_array):
            self._send_array(sending, first, min(self.largest_array, sending.lanes - first))
        self.there.add(sending.number)
        self.looked = self.answered = time.monotonic()

    def _send_array(self, sending: Sending, first: int, count: int) -> None:
        settings = self.settings
        minutes = -(-(settings.lane_seconds + settings.time + SECONDS_TO_KILL + TASK_SECONDS) // 60)
        throttle = f"%{self.most}" if self.most else ""
        name = f"{self._name(sending)}-{first}"
        words = ["sbatch", "--parsable", "--no-requeue", f"--job-name={name}", f"--array=0-{count - 1}{throttle}"]
        words += ["--ntasks=1", f"--cpus-per-task={settings.cores}", f"--time={minutes}"]
        words += [f"--mem={-(-(settings.memory + TASK_MEMORY) // 2**20)}M", f"--chdir={self.folder.path}"]
        words += ["--input=/dev/null", "--output=/dev/null", "--error=/dev/null", *self.options]
        words += [str(self.folder.path / "task.py"), str(sending.round), str(sending.first + first), "--array"]
        until = time.monotonic() + self.patience
        while self._run(words).returncode:
            if not UNREACHED.search(self.failure) or time.monotonic() > until:
                raise Stopped(f"sbatch failed: {self.failure}")
            time.sleep(LOOK_EVERY)
            if name in self._names():  # It was taken, though the answer was lost.
                return

    def _names(self) -> set[str]:
        """The names of our jobs in the queue that will still do something."""
        return set(self._asked(QUEUE).split())

    def _numbers(self, names: set[str]) -> set[int]:
        return {number for number, name in self.sent.items() if any(it.startswith(name + "-") for it in names)}

    def adopt(self, sending: Sending) -> bool:
        self.sent[sending.number] = self._name(sending)
        self.there |= self._numbers(self._names()) & {sending.number}
        self.answered = time.monotonic()
        return sending.number in self.there

    def alive(self) -> set[int]:
        """Slurm is asked now and then. While it doesn't answer, what was there is taken to be there."""
        now = time.monotonic()
        if self.there and now - self.looked >= LOOK_EVERY:
            ran = self._run(QUEUE)
            self.looked = time.monotonic()
            if not ran.returncode:
                self.answered = self.looked
                self.there &= self._numbers(set(ran.stdout.split()))
            elif self.looked - self.answered > self.patience:
                raise Stopped(f"Slurm doesn't answer: {self.failure}")
        return set(self.there)

    def stop(self) -> None:
        """Cancels all tasks of this run, if Slurm answers."""
        ran = self._run(QUEUE)
        names = [it for it in set(ran.stdout.split()) if it.startswith(f"vjobs-{self.folder.token}-")]
        for name in names:
            self._run(["scancel", f"--name={name}"])
        if ran.returncode:
            print("vjobs-spread: what waits or runs in Slurm couldn't be cancelled", file=sys.stderr)
        elif names:
            print("vjobs-spread: what waited or ran in Slurm is cancelled", file=sys.stderr)

    def said(self) -> str:
        return self.failure
