"""What starts tasks: processes on this machine, and GNU parallel over ssh."""
from __future__ import annotations

import os
import re
import signal
import subprocess
import sys
from dataclasses import dataclass, field
from pathlib import Path
from typing import Any, Protocol

from .folder import Folder, Refused, Stopped

# How ssh finds out that a host is dead: it can't connect for so long, or hears nothing for three times so long.
CONNECT, ALIVE = 5, 5
SSH = ["ssh", "-oBatchMode=yes", f"-oConnectTimeout={CONNECT}", f"-oServerAliveInterval={ALIVE}"]
SSH += ["-oServerAliveCountMax=3", "-oLogLevel=ERROR"]
# This machine, among hosts.
HERE = ":"


@dataclass
class Sending:
    """Lanes that were given to an engine together."""

    round: int
    number: int
    first: int
    lanes: int
    waiting: list[int] = field(default_factory=list)

    def numbers(self) -> range:
        """The numbers of the lanes."""
        return range(self.first, self.first + self.lanes)


class Engine(Protocol):
    """Starts tasks. Whether they do what they are to is seen by what they publish."""

    def slots(self) -> int:
        """How many tasks run at once."""

    def send(self, sending: Sending) -> None:
        """Starts the tasks of lanes, or queues them."""

    def adopt(self, sending: Sending) -> bool:
        """Whether tasks that an earlier process sent still run or wait, and are watched from now on."""

    def alive(self) -> set[int]:
        """The numbers of the sendings of which tasks run or wait."""

    def stop(self) -> None:
        """Ends all tasks."""

    def said(self) -> str:
        """What the engine said last about a failure."""


def processors() -> int:
    """The processors that this process may use."""
    return len(os.sched_getaffinity(0))


def tasks_on(count: int, cores: int) -> int:
    """How many tasks of so many processors each are at once on a machine that has COUNT."""
    return max(1, count // cores)


class Here:
    """Processes on this machine, as many at once as it has processors."""

    def __init__(self, folder: Folder, slots: int, cores: int = 1):
        self.folder, self.most = folder, slots or tasks_on(processors(), cores)
        self.sendings: list[Sending] = []
        self.running: dict[subprocess.Popen, Sending] = {}

    def slots(self) -> int:
        return self.most

    def adopt(self, sending: Sending) -> bool:
        return False

    def send(self, sending: Sending) -> None:
        sending.waiting = list(sending.numbers())
        self.sendings.append(sending)
        self._start()

    def _start(self) -> None:
        for sending in self.sendings:
            while sending.waiting and len(self.running) < self.most:
                words = [sys.executable, "task.py", str(sending.round), str(sending.waiting.pop(0))]
                # A session of its own: an interrupt at the terminal reaches this process alone, which then ends them.
                task = subprocess.Popen(
                    words,
                    cwd=self.folder.path,
                    stdin=subprocess.DEVNULL,
                    stdout=subprocess.DEVNULL,
                    stderr=subprocess.DEVNULL,
                    start_new_session=True,
                )
                self.running[task] = sending

    def alive(self) -> set[int]:
        self.running = {task: sending for task, sending in self.running.items() if task.poll() is None}
        self._start()
        self.sendings = [it for it in self.sendings if it.waiting or it in self.running.values()]
        return {sending.number for sending in self.sendings}

    def stop(self) -> None:
        end_groups(list(self.running))

    def said(self) -> str:
        return ""


def end_groups(processes: list[subprocess.Popen]) -> None:
    """Ends processes that lead groups, with their groups."""
    for process in processes:
        if process.poll() is None:
            os.killpg(process.pid, signal.SIGTERM)
    for process in processes:
        try:
            process.wait(10)
        except subprocess.TimeoutExpired:
            os.killpg(process.pid, signal.SIGKILL)
            process.wait()


class Parallel:
    """GNU parallel: on this machine, and over ssh on hosts that have the folder of the run."""

    def __init__(self, folder: Folder, slots: int, hosts: str, cores: int = 1):
        self.folder, self.cores = folder, cores
        self.asked = hosts_of(hosts, slots)
        own = slots or tasks_on(processors(), cores)
        self.hosts = dict.fromkeys(self.asked, own) if list(self.asked) == [HERE] else {}
        self.running: dict[int, subprocess.Popen] = {}
        self.is_looked_at = False
        self.home = folder.path / "parallel"
        self.home.mkdir(exist_ok=True)

    def slots(self) -> int:
        self._look()
        return sum(self.hosts.values())

    def _look(self) -> None:
        """Asks each host for its processors. Those that don't answer are left out until they are asked again."""
        self.is_looked_at = True
        words = {host: [*SSH, host, "nproc"] if host != HERE else ["nproc"] for host in self.asked}
        asked = {host: subprocess.Popen(it, stdin=subprocess.DEVNULL, **QUIET) for host, it in words.items()}
        self.hosts = {}
        for host, process in asked.items():
            try:
                said = process.communicate(timeout=4 * CONNECT)[0].strip()
            except subprocess.TimeoutExpired:
                process.kill()
                said = b""
            if said.isdigit():
                self.hosts[host] = self.asked[host] or tasks_on(int(said), self.cores)
            else:
                print(f"vjobs-spread: {host} doesn't answer, and is left out", file=sys.stderr)
        if not self.hosts:
            raise Stopped("no host answers")

    def send(self, sending: Sending) -> None:
        if not self.is_looked_at:
            self._look()
        self.is_looked_at = False
        lanes = self.home / f"lanes-{sending.number}"
        lanes.write_bytes(b"".join(b"%d\0" % lane for lane in sending.numbers()))
        words = ["parallel", "--plain", "--will-cite", "--quote", "--null", "--halt", "never"]
        # Where this machine alone works nothing is tried again: a task that fails would fail as before.
        words += ["--retries", "3" if len(self.hosts) > 1 else "1", "--ssh", " ".join(SSH)]
        words += ["--sshlogin", ",".join(f"{slots}/{host}" for host, slots in self.hosts.items())]
        words += ["--arg-file", str(lanes), "--workdir", str(self.folder.path)]
        words += ["python3", "task.py", str(sending.round), "{}"]
        with open(self.home / f"said-{sending.number}", "wb") as said:
            self.running[sending.number] = subprocess.Popen(
                words,
                cwd=self.folder.path,
                env={**os.environ, "PARALLEL_HOME": str(self.home), "PARALLEL": "", "TMPDIR": str(self.home)},
                stdin=subprocess.DEVNULL,
                stdout=said,
                stderr=said,
                start_new_session=True,
            )

    def adopt(self, sending: Sending) -> bool:
        return False

    def alive(self) -> set[int]:
        self.running = {number: it for number, it in self.running.items() if it.poll() is None}
        return set(self.running)

    def stop(self) -> None:
        end_groups(list(self.running.values()))

    def said(self) -> str:
        return last_lines(sorted(self.home.glob("said-*"), key=lambda path: path.stat().st_mtime))


QUIET: dict[str, Any] = {"stdout": subprocess.PIPE, "stderr": subprocess.DEVNULL}


def hosts_of(text: str, slots: int) -> dict[str, int]:
    """Hosts of a list such as `4/first,second,:`, each with its tasks at once, or 0 for as many as it has processors."""
    found = {}
    for word in text.split(",") if text else [HERE]:
        match = re.fullmatch(r"(?:(\d+)/)?(:|[A-Za-z0-9_][A-Za-z0-9_.@-]*)", word)
        if not match:
            raise Refused(f"--hosts: {word!r} is no host")
        found[match[2]] = int(match[1] or slots)
    return found


def last_lines(paths: list[Path]) -> str:
    """The last lines of the last of these files that has any."""
    for path in reversed(paths):
        lines = path.read_text("utf-8", "replace").strip().splitlines()
        if lines:
            return "\n".join(lines[-5:])
    return ""
