#!/usr/bin/env python3
"""Runs vjobs-spread on 1,000 files under hard faults, and prints a table: python3 tests/cluster/hard.py [NAME..]

For root alone. The hosts are network namespaces on this machine: nodes of Slurm, and hosts with sshd. The programs are
those of the folder that VJOBS_PROGRAMS names, or of bin. A name chooses a row of the table. It isn't a part of the gate.
VJOBS_FILES=N takes N files."""
from __future__ import annotations

import os
import signal
import subprocess
import sys
import tempfile
import time
from collections.abc import Callable
from pathlib import Path

sys.dont_write_bytecode = True

from run import COMMANDS, PACKAGES, install, programs_folder, skip  # noqa: E402
from trial import MARK, OWN_SLURM, Counts, OwnSlurm, Trial, batch_of  # noqa: E402
from trial import end_all, kill, slow_on, trying_on, wait_until  # noqa: E402

HOSTS, FILES = 3, int(os.environ.get("VJOBS_FILES", "1000"))
SLOW = FILES // 16
NET, PREFIX = "10.77.0", "vjc"
SSHD = """Port 2222
HostKey {folder}/host
AuthorizedKeysFile {folder}/user.pub
StrictModes no
PermitRootLogin prohibit-password
PasswordAuthentication no
KbdInteractiveAuthentication no
UsePAM no
UseDNS no
MaxSessions 100
MaxStartups 100
"""
SSH = """Host h*
 Port 2222
 User root
 IdentityFile {folder}/user
 IdentitiesOnly yes
 UserKnownHostsFile {folder}/known
 StrictHostKeyChecking no
"""


def run(*words: object) -> str:
    """Runs a command that has to succeed."""
    return subprocess.run(list(map(str, words)), check=True, capture_output=True, text=True).stdout


# ---- hosts


class Nets:
    """Hosts as network namespaces on a bridge."""

    def __enter__(self) -> Nets:
        run("ip", "link", "add", f"{PREFIX}0", "type", "bridge")
        run("ip", "addr", "add", f"{NET}.1/24", "dev", f"{PREFIX}0")
        run("ip", "link", "set", f"{PREFIX}0", "up")
        for number in range(1, HOSTS + 1):
            space, cable = f"{PREFIX}{number}", f"{PREFIX}{number}a"
            run("ip", "netns", "add", space)
            run("ip", "link", "add", cable, "type", "veth", "peer", "name", "eth0", "netns", space)
            run("ip", "link", "set", cable, "master", f"{PREFIX}0", "up")
            run("ip", "-n", space, "addr", "add", f"{NET}.{10 + number}/24", "dev", "eth0")
            for device in ("eth0", "lo"):
                run("ip", "-n", space, "link", "set", device, "up")
        return self

    def __exit__(self, *_: object) -> None:
        for number in range(1, HOSTS + 1):
            self.kill(number)
            run("ip", "netns", "del", f"{PREFIX}{number}")
        run("ip", "link", "del", f"{PREFIX}0")

    def kill(self, number: int) -> None:
        """A host dies with all that runs on it."""
        for pid in run("ip", "netns", "pids", f"{PREFIX}{number}").split():
            kill(int(pid))

    def cable(self, number: int, state: str) -> None:
        """Cuts the cable of a host, by down, or mends it, by up."""
        run("ip", "link", "set", f"{PREFIX}{number}a", state)


class Sshds:
    """An sshd on each host, and a command ssh that reaches them."""

    def __init__(self, folder: Path):
        self.folder = folder
        folder.mkdir(mode=0o700)
        Path("/run/sshd").mkdir(exist_ok=True)
        for key in ("host", "user"):
            run("ssh-keygen", "-q", "-t", "ed25519", "-N", "", "-f", folder / key)
        (folder / "sshd_config").write_text(SSHD.format(folder=folder))
        hosts = "".join(f"Host h{at}\n HostName {NET}.{10 + at}\n" for at in range(1, HOSTS + 1))
        (folder / "config").write_text(hosts + SSH.format(folder=folder))
        (folder / "bin").mkdir()
        (folder / "bin" / "ssh").write_text(f'#!/bin/sh\nexec /usr/bin/ssh -F {folder}/config "$@"\n')
        (folder / "bin" / "ssh").chmod(0o755)
        self.env = {"PATH": f"{folder}/bin:{os.environ['PATH']}"}
        for number in range(1, HOSTS + 1):
            self.start(number)

    def start(self, number: int) -> None:
        """Starts the sshd of a host."""
        words = ["ip", "netns", "exec", f"{PREFIX}{number}", "unshare", "--uts", "sh", "-c"]
        words += [f'hostname h{number}; exec "$@"', "sh", "/usr/sbin/sshd", "-f", f"{self.folder}/sshd_config"]
        words += ["-o", f"ListenAddress={NET}.{10 + number}", "-o", f"PidFile={self.folder}/h{number}.pid"]
        run(*words, "-E", f"{self.folder}/h{number}.log")


# ---- the rows


class Hard:
    """The rows of the table, each a run with a fault."""

    def __init__(self, trial: Trial, nets: Nets):
        self.trial, self.nets, self.counts = trial, nets, trial.counts
        self.slurm: OwnSlurm | None = None
        self.sshds: Sshds | None = None
        self.table: list[str] = []

    def row(self, name: str, options: list[str], fault: Callable[[Path], str], hosts: bool = False) -> None:
        """Runs the tool with a fault, and adds a line to the table."""
        engine = "parallel" if hosts else options[1]
        env = self.sshds.env if hosts else self.slurm.env
        run_folder = self.trial.root / "runs" / name
        failed, begun_at = self.counts.failed, time.monotonic()
        self.begin = lambda: self.trial.begin(name, *options, env=env)
        self.process = self.begin()
        what = fault(run_folder)
        self.trial.end(self.process, name, 1)
        seconds = time.monotonic() - begun_at
        self.trial.compare(name)
        rounds = len([it for it in (run_folder / "rounds").iterdir() if it.name.isdigit()])
        ends = ", ".join(f"{end} {many}" for end, many in self._ends(run_folder).items())
        state = "the same" if failed == self.counts.failed else "DIFFERS"
        self.table.append(f"{engine:9} {name:34} {seconds:5.0f} s  {rounds} rounds  {state:8}  {ends}  {what}")
        self.counts.step(self.table[-1])
        self.trial.remove(name)

    def _ends(self, run_folder: Path) -> dict[str, int]:
        if not (run_folder / "table.tsv").exists():
            return {}
        ends = [line.split("\t")[1] for line in (run_folder / "table.tsv").read_text("utf-8").splitlines()[1:]]
        return {end: ends.count(end) for end in sorted(set(ends))}

    def in_the_middle(self, run_folder: Path, node: str, fault: Callable[[], object]) -> str:
        """Does something when a node has begun a batch, and checks that the batch wasn't published before."""
        attempt = wait_until(lambda: self.begun(run_folder, node))
        fault()
        self.counts.check(f"{run_folder.name}: in the middle of a batch", attempt in trying_on(run_folder, node),
                          attempt)
        self.trial.freezer.thaw()
        return f"in the middle of {batch_of(attempt)}" if attempt else "no batch"

    def begun(self, run_folder: Path, node: str) -> str:
        """An attempt of a node at a slow batch, whose task is stopped in the middle."""
        attempt = slow_on(self.trial, run_folder, node)
        return attempt if attempt and self.trial.freezer.freeze(run_folder, node, attempt) else ""

    def cut_and_mend(self, run_folder: Path, node: str, number: int) -> str:
        """Cuts a cable in the middle of a batch, and mends it when the next round has begun."""
        what = self.in_the_middle(run_folder, node, lambda: self.nets.cable(number, "down"))
        wait_until(lambda: (run_folder / "rounds" / "2").exists())
        self.nets.cable(number, "up")
        return what

    def controller(self, run_folder: Path) -> str:
        """The controller dies when some batches are done, and is started again after 15 seconds."""
        wait_until(lambda: self.done(run_folder) >= 20)
        self.slurm.kill_daemon("slurmctld")
        done = self.done(run_folder)
        time.sleep(15)
        run(sys.executable, OWN_SLURM, "again", self.slurm.folder)
        return f"after {done} batches"

    def done(self, run_folder: Path) -> int:
        """How many batches of the first round are published."""
        folder = run_folder / "rounds" / "1" / "done"
        return len(os.listdir(folder)) if folder.is_dir() else 0

    def killed_twice(self, run_folder: Path) -> str:
        """The tool is killed twice in the middle, and started again."""
        found = []
        for more in (10, 40):
            wait_until(lambda: self.done(run_folder) >= more)
            self.process.kill()
            self.process.communicate()
            found.append(str(self.done(run_folder)))
            time.sleep(1)
            self.process = self.begin()
        return f"after {' and '.join(found)} batches"

    def all(self, chosen: list[str]) -> None:
        """All rows, or those that were chosen."""
        slurm, here = ["--engine", "slurm"], ["--engine", "here"]
        hosts = ["--engine", "parallel", "--slots", "2", "--hosts", "h1,h2,h3"]
        rows = {
            "no fault": lambda it: self.row(it, slurm, lambda _: ""),
            "a node dies": lambda it: self.row(
                it, slurm, lambda run: self.in_the_middle(run, "n3", lambda: self.slurm.kill_node("n3"))
            ),
            "a cable is cut": lambda it: self.row(it, slurm, lambda run: self.cut_and_mend(run, "n2", 2)),
            "slurmctld is killed": lambda it: self.row(it, slurm, self.controller),
            "the tool is killed twice": lambda it: self.row(it, slurm, self.killed_twice),
            "the tool is killed twice, here": lambda it: self.row(it, here, self.killed_twice),
            "no fault, ssh": lambda it: self.row(it, hosts, lambda _: "", True),
            "a cable is cut, ssh": lambda it: self.row(
                it,
                hosts,
                lambda run: self.in_the_middle(run, "h2", lambda: self.nets.cable(2, "down")),
                True,
            ),
            "a host dies, ssh": lambda it: self.row(
                it, hosts, lambda run: self.in_the_middle(run, "h3", lambda: self.nets.kill(3)), True
            ),
        }
        for name, row in rows.items():
            if chosen and name not in chosen:
                continue
            if name.endswith("ssh"):
                self.sshds = self.sshds or Sshds(self.trial.root / "hosts")
                row(name)
                self.nets.cable(2, "up")
            else:
                row_on_slurm(self, name, row)


def row_on_slurm(hard: Hard, name: str, row: Callable[[str], None]) -> None:
    """Runs a row with a Slurm of its own."""
    folder = hard.trial.root / "slurm" / name.replace(" ", "-").replace(",", "")
    options = ["--nodes", str(HOSTS), "--cpus", "2", "--net", NET, "--namespace", PREFIX]
    hard.slurm = OwnSlurm(folder, *options)
    try:
        row(name)
    finally:
        hard.slurm.stop()


def main() -> int:
    """Runs all, and prints the table."""
    if os.geteuid():
        skip("make cluster-hard is for root, who may make network namespaces")
    install([*PACKAGES, "openssh-server", "iproute2"], [*COMMANDS, "sshd", "ip"])
    signal.signal(signal.SIGTERM, lambda *_: sys.exit(143))
    counts = Counts()
    with tempfile.TemporaryDirectory(prefix="vjobs-cluster-") as room:
        root = Path(room)
        os.environ[MARK] = room
        root.chmod(0o755)  # munged wants that every user can enter.
        (root / "slurm").mkdir()
        with Nets() as nets:
            hard = Hard(Trial(root, programs_folder(), counts, FILES, SLOW), nets)
            counts.step(f"{FILES} files, and what vjobs prints for each alone; a limit of {hard.trial.seconds} s")
            try:
                hard.all(sys.argv[1:])
            finally:
                hard.trial.stop()
        left = end_all(room)
        counts.check("nothing that was begun goes on", not left, left)
    print("\nengine    fault                              seconds  rounds   results   ends", *hard.table, sep="\n")
    return counts.end()


if __name__ == "__main__":
    sys.exit(main())
