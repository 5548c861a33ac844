"""What the tests of vjobs-spread share: counts, a run of the tool and its checks, a Slurm of one's own, its faults."""
from __future__ import annotations

import json
import os
import shutil
import signal
import subprocess
import sys
import time
from collections import Counter
from collections.abc import Callable
from dataclasses import dataclass
from pathlib import Path
from typing import Any

import strangers
from strangers import ANSWERED

TOP = Path(__file__).resolve().parent.parent.parent
TOOL, OWN_SLURM = TOP / "tools" / "vjobs-spread", TOP / "tools" / "own-slurm"
LIMITS = ["--memory", str(strangers.MEMORY), "--output", str(strangers.OUTPUT)]
# How long a state or the end of a run is waited for, in seconds. Only what doesn't come at all takes so long.
WAIT, WAIT_FOR_RUN = 300, 1500
# The limit of time is this multiple of what the slowest job takes alone, within these bounds in seconds.
TIMES, LEAST_TIME, MOST_TIME = 15, 8, 40
# How long something that is asked to end may take, in seconds.
SECONDS_TO_END = 30
# Names the folder of the tests in the environment of everything that they start.
MARK = "VJOBS_CLUSTER_TEST"
sys.path.insert(0, str(TOP / "tools"))

from spread.folder import shown  # noqa: E402


class Counts:
    """Counts what passed and what failed."""

    def __init__(self) -> None:
        self.passed = self.failed = 0
        self.begun_at = time.monotonic()

    def check(self, name: str, is_good: object, detail: object = "") -> None:
        """Counts a check, and says which one failed."""
        self.passed += bool(is_good)
        self.failed += not is_good
        if not is_good:
            print(f"FAILED: {name}: {detail}", flush=True)

    def step(self, text: str) -> None:
        """Says what was done, and when."""
        print(f"{time.monotonic() - self.begun_at:6.1f} s  {text}", flush=True)

    def end(self) -> int:
        """Prints the last line. Returns the exit status."""
        print(f"{self.passed} passed, {self.failed} failed")
        return 1 if self.failed else 0


def wait_until(what: Callable[[], Any], seconds: float = WAIT) -> Any:
    """What a function returns as soon as it is something, or what it returns at the end."""
    until = time.monotonic() + seconds
    while True:
        found = what()
        if found or time.monotonic() > until:
            return found
        time.sleep(0.05)


def tree(folder: Path, but: set[str]) -> dict[bytes, tuple]:
    """All paths in a folder, with what would change if they were written to."""
    found = {}
    for place, folders, files in os.walk(os.fsencode(folder)):
        if place == os.fsencode(folder):
            folders[:] = [name for name in folders if os.fsdecode(name) not in but]
        for name in folders + files:
            path = os.path.join(place, name)
            at = os.lstat(path)
            found[path] = (at.st_size, at.st_mtime_ns, at.st_mode) if name in files else (at.st_mode,)
    return found


@dataclass
class Wanted:
    """What a file's line of the table and its report have to be."""

    end: str
    exit: int = -1
    report: bytes = b""


class Trial:
    """Files of strangers in a folder, and runs of the tool over them, each in a folder beside."""

    def __init__(self, root: Path, programs: Path, counts: Counts, count: int, slow: int):
        self.root, self.programs, self.counts = root, programs, counts
        for name in ("strangers", "runs", "home", "cwd"):
            (root / name).mkdir()
        self.found = strangers.strangers(count, slow)
        self.paths = strangers.write(root / "strangers", self.found)
        self.list = b"".join(path + b"\0" for path in self.paths)
        alike, slowest = {}, 0.0
        for content in {it.content for it in self.found if it.end == ANSWERED}:
            begun_at = time.monotonic()
            alike[content] = self._alone(content)
            slowest = max(slowest, time.monotonic() - begun_at)
        self.seconds = int(min(MOST_TIME, max(LEAST_TIME, TIMES * slowest)))
        self.wanted = [Wanted(it.end, *alike[it.content]) if it.end == ANSWERED else Wanted(it.end)
                       for it in self.found]
        self.begun: list[subprocess.Popen] = []
        self.freezer = Freezer()
        self.before = self._tree()

    def _alone(self, content: bytes) -> tuple[int, bytes]:
        """How vjobs exits for a file alone, and what it prints. The file's own name doesn't matter, nor may it."""
        alone = self.root / "alone"
        alone.write_bytes(content)
        ran = subprocess.run([self.programs / "vjobs", "--workers", "1", alone], capture_output=True, check=False)
        alone.unlink()
        return ran.returncode, ran.stdout

    def _tree(self) -> dict[bytes, tuple]:
        return tree(self.root, {"runs", "slurm", "hosts"})

    def begin(self, name: str, *options: str, env: dict | None = None,
              programs: Path | None = None) -> subprocess.Popen:
        """Starts the tool on all files."""
        words: list[Any] = [sys.executable, TOOL, "--run", self.root / "runs" / name, "--programs", programs
                            or self.programs]
        words += ["--batch", "8", "--time", str(self.seconds), *LIMITS, *options, "--files-from", "-"]
        process = subprocess.Popen(
            list(map(os.fspath, words)),
            cwd=self.root / "cwd",
            env={**os.environ, "HOME": str(self.root / "home"), **(env or {})},
            stdin=subprocess.PIPE,
            stdout=subprocess.PIPE,
            stderr=subprocess.PIPE,
        )
        process.stdin.write(self.list)
        process.stdin.close()
        process.stdin = None
        self.begun.append(process)
        return process

    def stop(self) -> None:
        """Ends what was begun and goes on."""
        self.freezer.thaw()
        for process in self.begun:
            if process.poll() is None:
                process.terminate()
                try:
                    process.communicate(timeout=SECONDS_TO_END)
                except subprocess.TimeoutExpired:
                    process.kill()

    def end(self, process: subprocess.Popen, name: str, wanted: int) -> str:
        """Waits for the tool, and checks how it exits. Returns what it wrote to standard error."""
        try:
            said, errors = process.communicate(timeout=WAIT_FOR_RUN)
        except subprocess.TimeoutExpired:
            process.kill()
            said, errors = process.communicate()
        text = errors.decode(errors="replace")
        self.counts.check(f"{name}: exit {wanted}", process.returncode == wanted, (process.returncode, text, said))
        if process.returncode in (0, 1):
            counted = Counter(it.end for it in self.found)
            lines = dict(line.split() for line in said.decode().splitlines())
            self.counts.check(f"{name}: summary", lines == {end: str(many) for end, many in counted.items()}, said)
        return text

    def compare(self, name: str) -> None:
        """Checks the table, each report byte for byte, and that nothing was written elsewhere."""
        run, counts = self.root / "runs" / name, self.counts
        if not (run / "table.tsv").exists():
            counts.check(f"{name}: there is a table", False)
            return
        text = (run / "table.tsv").read_text("utf-8")
        lines = text.splitlines()[1:]
        counts.check(f"{name}: a line for each file", len(lines) == len(self.found), len(lines))
        is_plain = text.replace("\n", "").replace("\t", "").isprintable()
        counts.check(f"{name}: nothing in the table acts on a terminal", is_plain)
        reports = set()
        for it, path, wanted, line in zip(self.found, self.paths, self.wanted, lines):
            cells = line.split("\t")
            counts.check(f"{name}: the name of {it.name!r}", cells[0] == shown(path), cells)
            counts.check(f"{name}: the end of {it.name!r}", cells[1] == wanted.end, cells)
            if wanted.end == ANSWERED and cells[1] == ANSWERED:
                reports.add(cells[5])
                is_same = (run / cells[5]).read_bytes() == wanted.report and cells[2] == str(wanted.exit)
                counts.check(f"{name}: the report of {it.name!r}", is_same, cells)
        there = {f"reports/{file.name}" for file in (run / "reports").iterdir()}
        counts.check(f"{name}: each report once, and no other", there == reports, there ^ reports)
        after = self._tree()
        changed = {path for path in after.keys() | self.before.keys() if after.get(path) != self.before.get(path)}
        counts.check(f"{name}: nothing is written elsewhere", not changed, changed)

    def remove(self, name: str) -> None:
        """Removes what a run wrote."""
        shutil.rmtree(self.root / "runs" / name)


# ---- a Slurm of one's own, and its faults


class Freezer:
    """Stops tasks, which don't notice that they are taken to be dead, and lets them go on."""

    def __init__(self) -> None:
        self.frozen: list[int] = []

    def freeze(self, run: Path, node: str, attempt: str) -> bool:
        """Stops a task in the middle of an attempt. Returns whether it hadn't published it before, else lets it go on."""
        pid = int(attempt.split("+")[3])
        try:
            os.kill(pid, signal.SIGSTOP)
        except ProcessLookupError:
            return False
        wait_until(lambda: state_of(pid) in "TtZ", 5)
        if attempt in trying_on(run, node):
            self.frozen.append(pid)
            return True
        os.kill(pid, signal.SIGCONT)
        return False

    def thaw(self) -> None:
        """Lets the frozen processes go on."""
        for pid in self.frozen:
            try:
                os.kill(pid, signal.SIGCONT)
            except ProcessLookupError:
                pass
        self.frozen = []


class OwnSlurm:
    """A Slurm of three nodes, started from nothing."""

    def __init__(self, folder: Path, *options: str):
        self.folder = folder
        words = [sys.executable, OWN_SLURM, "start", folder, *options]
        subprocess.run(list(map(str, words)), check=True, stdout=subprocess.DEVNULL)
        self.env = {"SLURM_CONF": f"{folder}/slurm.conf"}

    def processes(self, node: str = "") -> list[int]:
        """The processes of jobs of this Slurm, by what is in their environment: of a node, or of all."""
        wanted = {b"SLURM_CONF=" + os.fsencode(self.env["SLURM_CONF"])}
        found = []
        for folder in Path("/proc").glob("[0-9]*"):
            try:
                words = set((folder / "environ").read_bytes().split(b"\0"))
            except OSError:
                continue
            of_node = b"SLURMD_NODENAME=" + node.encode() in words if node else any(
                word.startswith(b"SLURMD_NODENAME=") for word in words
            )
            if wanted <= words and of_node:
                found.append(int(folder.name))
        return found

    def daemon(self, name: str) -> int:
        """The number of a process that was started as a part of this Slurm."""
        return json.loads((self.folder / "processes.json").read_text())[name]["pid"]

    def kill_daemon(self, name: str) -> None:
        """Kills slurmctld or the slurmd of a node."""
        kill(self.daemon(name))

    def steps(self, node: str) -> list[int]:
        """The slurmstepd of a node: those that are above its jobs' processes."""
        found = {parent_of(pid) for pid in self.processes(node)}
        return [pid for pid in found if b"slurmstepd" in command_of(pid)]

    def kill_node(self, node: str) -> None:
        """A node dies at once, with all that runs on it."""
        running, steps = self.processes(node), self.steps(node)
        self.kill_daemon(node)
        for pid in steps + running:
            kill(pid)

    def stop(self) -> None:
        """Stops all, and what it ran."""
        left, steps = self.processes(), {parent_of(pid) for pid in self.processes()}
        subprocess.run([sys.executable, OWN_SLURM, "stop", self.folder], check=True)
        for pid in left + [pid for pid in steps if b"slurmstepd" in command_of(pid)]:
            kill(pid)


def started_below(folder: Path | str) -> list[int]:
    """The processes that tests in a folder started, by the mark in their environment."""
    found, mark = [], os.fsencode(f"{MARK}={folder}")
    for process in Path("/proc").glob("[0-9]*"):
        try:
            words = (process / "environ").read_bytes().split(b"\0")
        except OSError:
            continue
        if any(word.startswith(mark) for word in words) and state_of(int(process.name)) != "Z":
            found.append(int(process.name))
    return found


def end_all(folder: Path | str) -> list[bytes]:
    """Kills what tests in a folder started and what goes on though it was told to end. Returns its command lines."""
    wait_until(lambda: not started_below(folder), SECONDS_TO_END)
    left = started_below(folder)
    said = [command_of(pid) for pid in left]
    for pid in left:
        kill(pid)
    return said


def kill(pid: int) -> None:
    """Kills a process if it is there."""
    try:
        os.kill(pid, signal.SIGKILL)
    except ProcessLookupError:
        pass


def parent_of(pid: int) -> int:
    """The parent of a process, or 0."""
    try:
        return int(Path(f"/proc/{pid}/stat").read_text().rpartition(")")[2].split()[1])
    except OSError:
        return 0


def state_of(pid: int) -> str:
    """The state of a process, as a letter; Z if it has ended."""
    try:
        return Path(f"/proc/{pid}/stat").read_text().rpartition(")")[2].split()[0]
    except OSError:
        return "Z"


def command_of(pid: int) -> bytes:
    """The command line of a process."""
    try:
        return Path(f"/proc/{pid}/cmdline").read_bytes() if pid else b""
    except OSError:
        return b""


def trying_on(run: Path, node: str, round_number: int = 1) -> list[str]:
    """The attempts of a node that have begun and aren't published."""
    folder = run / "rounds" / str(round_number) / "trying"
    names = os.listdir(folder) if folder.is_dir() else []
    return [name for name in names if name.split("+")[2] == node]


def slow_on(trial: Trial, run: Path, node: str) -> str:
    """An attempt of a node at a batch that takes about a second, if it has begun one."""
    for attempt in trying_on(run, node):
        group, _, number = batch_of(attempt).rpartition("-")
        manifest = run / "rounds" / "1" / "packed" / group / f"batch-{number}.manifest"
        files = [int(entry.split(b" ", 3)[3]) for entry in manifest.read_bytes().split(b"\0")[1:] if entry]
        if any(trial.found[file - 1].name.startswith(b"slow/") for file in files):
            return attempt
    return ""


def batch_of(attempt: str) -> str:
    """The batch of an attempt."""
    return attempt.split("+")[0]
