"""Files become batches: copies of them by number, and vjobs-pack over these. No name of a stranger gets further."""
from __future__ import annotations

import errno
import json
import os
import re
import resource
import shutil
import stat
import subprocess
import time
from concurrent.futures import ThreadPoolExecutor
from dataclasses import dataclass
from pathlib import Path

from .engines import processors
from .folder import Folder, Settings, Stopped
from .task import SECONDS_TO_KILL, allowed

# What vjobs-pack takes of a file. One byte more shows that it is too large.
MOST_BYTES = 16_777_216
LEFT_OUT_FILE = "left-out.json"
# Faults of this process and its machine, for which no file can do anything.
OWN_FAULTS = (errno.EMFILE, errno.ENFILE, errno.ENOMEM)


@dataclass(frozen=True)
class LeftOut:
    """Why a file is in no batch: the end that it has by this, and the line and the reason."""

    end: str
    line: int
    reason: str


def copy_regular(name: bytes, target: Path) -> str:
    """Copies a file if it is a regular one. Returns why not, or nothing. An OSError is a fault of this machine."""
    try:
        source = os.open(name, os.O_RDONLY | os.O_NONBLOCK | os.O_CLOEXEC | os.O_NOCTTY)
        if not stat.S_ISREG(os.fstat(source).st_mode):
            os.close(source)
            return "not a regular file"
        with open(source, "rb") as file:
            content = file.read(MOST_BYTES + 1)
    except OSError as error:
        if error.errno in OWN_FAULTS:
            raise
        return error.strerror or "not readable"
    target.write_bytes(content)
    return ""


class Packer:
    """Packs groups of files into the folder of a round."""

    def __init__(self, folder: Folder, settings: Settings, pack: Path):
        self.folder, self.settings, self.pack = folder, settings, pack

    def groups(self, packed: Path, numbers: list[int], size: int, copies: bool) -> None:
        """Packs files into groups of so many, and copies them before if asked to. What is packed is left as it is."""
        packed.mkdir(parents=True, exist_ok=True)
        groups = [numbers[first : first + size] for first in range(0, len(numbers), size)]
        with ThreadPoolExecutor(processors()) as pool:
            for _ in pool.map(lambda group: self._group(packed, f"{group[0]:06}", group, copies), groups):
                pass

    def _group(self, packed: Path, name: str, numbers: list[int], copies: bool) -> None:
        if (packed / name).is_dir():
            return
        left_out = self._copied(numbers) if copies else {}
        there = [number for number in numbers if number not in left_out]
        part = packed / f".{name}"
        shutil.rmtree(part, ignore_errors=True)
        part.mkdir()
        if there and not self._packs(part, there, left_out):
            for file in part.iterdir():
                file.unlink()
            for number in there:
                self._group(packed, f"{name}.{number:06}", [number], False)
        kept = {str(number): vars(why) for number, why in left_out.items()}
        (part / LEFT_OUT_FILE).write_text(json.dumps(kept), "utf-8")
        part.rename(packed / name)

    def _copied(self, numbers: list[int]) -> dict[int, LeftOut]:
        """Copies files. Returns those that can't be copied."""
        reasons = {
            number: copy_regular(self.folder.files[number - 1], self.folder.inputs / f"{number:06}")
            for number in numbers
        }
        return {number: LeftOut("LEFT_OUT", 1, reason) for number, reason in reasons.items() if reason}

    def _packs(self, part: Path, numbers: list[int], left_out: dict[int, LeftOut]) -> bool:
        """Packs files that are there. Returns whether they are packed or left out; else they have to be packed alone."""
        words = ["prlimit", "--core=0", f"--as={allowed(resource.RLIMIT_AS, self.settings.memory)}", "timeout"]
        words += ["--foreground", f"--kill-after={SECONDS_TO_KILL}", str(self.settings.time), str(self.pack)]
        words += ["--out", os.path.relpath(part, self.folder.inputs), "--files-from", "-"]
        names = b"".join(b"%06d\0" % number for number in numbers)
        begun_at = time.monotonic()
        ran = subprocess.run(words, cwd=self.folder.inputs, input=names, capture_output=True, check=False)
        is_late = time.monotonic() - begun_at >= self.settings.time
        if ran.returncode in (0, 1):
            in_batch = {number for batch in batches_of(part).values() for number in batch}
            reasons = reasons_of(ran.stderr)
            for number in set(numbers) - in_batch:
                left_out[number] = reasons.get(number, LeftOut("LEFT_OUT", 1, "left out by vjobs-pack"))
            return True
        if len(numbers) > 1:
            return False
        if ran.returncode == 124 or ran.returncode == 137 and is_late:
            left_out[numbers[0]] = LeftOut("TIME", 1, "checking it takes too long")
            return True
        # 137 before its time: the system killed it, which has less memory than the limit.
        if b"out of memory" in ran.stderr or ran.returncode == 137:
            left_out[numbers[0]] = LeftOut("MEMORY", 1, "checking it takes too much memory")
            return True
        raise Stopped(f"vjobs-pack ended with {ran.returncode}: {ran.stderr.decode(errors='replace').strip()}")


def add_witness(packed: Path) -> None:
    """Adds a batch without jobs. If only this one is published, the engine works, and the jobs are what fails."""
    group = packed / "witness"
    group.mkdir(exist_ok=True)
    for name in ("batch-0.vcode", "batch-0.manifest"):
        (group / name).touch()


def reasons_of(said: bytes) -> dict[int, LeftOut]:
    """What vjobs-pack says of the files that it leaves out. Their names are numbers, so each line is one of them."""
    found = {}
    for line in said.decode("utf-8", "replace").splitlines():
        match = re.fullmatch(r"(\d+):(\d+): (.*)", line)
        if match:
            found[int(match[1])] = LeftOut("LEFT_OUT", int(match[2]), match[3])
    return found


def batches_of(group: Path) -> dict[str, list[int]]:
    """The batches of a group by their numbers there, each with the numbers of its files in the order of their places."""
    found = {}
    for manifest in group.glob("batch-*.manifest"):
        number = manifest.name[len("batch-") : -len(".manifest")]
        found[number] = files_of(manifest)
    return found


def files_of(manifest: Path) -> list[int]:
    """The numbers of the files of a manifest, in the order of their places. The first entry is that of the batch."""
    entries = [entry for entry in manifest.read_bytes().split(b"\0") if entry]
    return [int(entry.split(b" ", 3)[3]) for entry in entries[1:]]


def batches_in(round_folder: Path) -> dict[str, list[int]]:
    """All batches of a round, by the name of the group and the number there."""
    found = {}
    for group in sorted((round_folder / "packed").iterdir()):
        if not group.name.startswith("."):
            for number, files in sorted(batches_of(group).items()):
                found[f"{group.name}-{number}"] = files
    return found


def left_out_in(round_folder: Path) -> dict[int, LeftOut]:
    """The files that are in no batch of a round, with the reasons."""
    found = {}
    for kept in (round_folder / "packed").glob("*/" + LEFT_OUT_FILE):
        if not kept.parent.name.startswith("."):
            for number, why in json.loads(kept.read_text("utf-8")).items():
                found[int(number)] = LeftOut(**why)
    return found
