"""The folder of a run: what it is to do, and where everything lies in it."""
from __future__ import annotations

import fcntl
import json
import os
import secrets
import shutil
from dataclasses import asdict, dataclass
from pathlib import Path

TASK = Path(__file__).with_name("task.py")
# A lane begins no batch after so many times the limit of time of a batch, and after a minute at least.
LANE_TIMES, LANE_LEAST = 2, 60


class Refused(Exception):
    """The command line can't be obeyed."""


class Stopped(Exception):
    """The run can't go on: the engine failed, or a program did what it never may."""


def shown(name: bytes) -> str:
    """A name of a stranger's file, as it may be printed: no character of it acts on a terminal or ends a column."""
    text = name.decode("utf-8", "surrogateescape")
    plain = {"\\": "\\\\", "\n": "\\n", "\t": "\\t", "\r": "\\r"}
    return "".join(plain.get(char) or (char if char.isprintable() else escaped(char)) for char in text)


def escaped(char: str) -> str:
    """A character that isn't printed, by the numbers of its bytes."""
    return "".join(f"\\x{byte:02x}" for byte in char.encode("utf-8", "surrogateescape"))


def write_whole(path: Path, data: bytes) -> None:
    """Writes a file so that it is there whole or not at all."""
    part = path.with_name(path.name + ".part")
    part.write_bytes(data)
    part.replace(path)


@dataclass(frozen=True)
class Settings:
    """What stays the same when a run is started again."""

    time: int
    memory: int
    output: int
    batch: int
    cores: int

    @property
    def lane_seconds(self) -> int:
        """How long a lane works before it begins no more batch."""
        return max(LANE_LEAST, LANE_TIMES * self.time)


class Folder:
    """The folder of a run, held by one process at a time."""

    def __init__(self, path: Path):
        self.path = path
        self.files: list[bytes] = []
        self.token = ""
        self._lock = -1

    @property
    def inputs(self) -> Path:
        """Copies of the files, by number."""
        return self.path / "in"

    @property
    def reports(self) -> Path:
        """The reports, by the numbers of the files."""
        return self.path / "reports"

    def report(self, number: int) -> Path:
        """Where the report of a file is once there is one."""
        return self.reports / f"{number:06}.report"

    def round(self, number: int) -> Path:
        """The folder of a round."""
        return self.path / "rounds" / str(number)

    def open(self, settings: Settings, files: list[bytes], vjobs: Path) -> None:
        """Begins a run, or goes on with it if the folder has the same one."""
        self.path.mkdir(mode=0o700, parents=True, exist_ok=True)
        kept = self.path / "settings.json"
        if not kept.exists() and not set(os.listdir(self.path)) <= {*OWN, kept.name}:
            raise Refused("the folder of a new run has to be empty")
        self._hold()
        if kept.exists():
            self._go_on(settings, files, json.loads(kept.read_text("utf-8")))
        else:
            self._begin(settings, files, vjobs, kept)
        self.files = files

    def _hold(self) -> None:
        self._lock = os.open(self.path / "lock", os.O_RDWR | os.O_CREAT | os.O_CLOEXEC, 0o600)
        try:
            fcntl.flock(self._lock, fcntl.LOCK_EX | fcntl.LOCK_NB)
        except BlockingIOError as error:
            raise Refused(f"another vjobs-spread works in {shown(os.fsencode(self.path))}") from error

    def _go_on(self, settings: Settings, files: list[bytes], kept: dict) -> None:
        wanted = asdict(settings)
        for name, value in wanted.items():
            # (a run that knew no cores had one)
            if kept.get(name, 1) != value:
                raise Refused(f"the run in this folder was begun with --{name} {kept.get(name, 1)}")
        is_relative = any(not name.startswith(b"/") for name in files)
        if (self.path / "files").read_bytes() != joined(files) or is_relative and kept["where"] != os.getcwd():
            raise Refused("the run in this folder was begun with other files")
        self.token = kept["token"]

    def _begin(self, settings: Settings, files: list[bytes], vjobs: Path, kept: Path) -> None:
        for name in ("in", "rounds", "reports", "cut"):
            (self.path / name).mkdir(exist_ok=True)
        shutil.copy(TASK, self.path / "task.py")
        shutil.copy(vjobs, self.path / "vjobs")
        write_whole(self.path / "files", joined(files))
        self.token = secrets.token_hex(4)
        what = {**asdict(settings), "lane_seconds": settings.lane_seconds, "token": self.token, "where": os.getcwd()}
        write_whole(kept, json.dumps(what).encode())


# What a run that was killed at its very beginning may have left.
OWN = {"lock", "in", "rounds", "reports", "cut", "task.py", "vjobs", "files", "files.part", "settings.json.part"}


def joined(names: list[bytes]) -> bytes:
    """A list of names, with a NUL after each."""
    return b"".join(name + b"\0" for name in names)
