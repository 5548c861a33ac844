#!/usr/bin/env python3
"""Tests vjobs-spread on engines that really run: python3 tests/cluster/run.py [--gate]

It installs Slurm and GNU parallel if they are missing and it may, and starts a Slurm of three nodes from nothing as a
user who isn't root. The programs are those of the folder that VJOBS_PROGRAMS names, or of bin. Whatever happens, it
ends after a quarter of an hour, and stops what it began. With --gate it fails only by a check that failed: if the
machine can't start a Slurm, or hasn't done all in time, it says that the rest is skipped."""
from __future__ import annotations

import os
import pty
import pwd
import re
import resource
import shutil
import signal
import subprocess
import sys
import tempfile
import time
from pathlib import Path
from typing import Any

sys.dont_write_bytecode = True

from trial import MARK, SECONDS_TO_END, TOP, WAIT, Counts, OwnSlurm, Trial, batch_of  # noqa: E402
from trial import end_all, slow_on, started_below, wait_until  # noqa: E402

# How long packages may take, all tests, and to end them: together a quarter of an hour.
UPDATE_SECONDS, INSTALL_SECONDS, SECONDS, MORE_SECONDS = 60, 120, 660, 60
# What the files and runs take of the disk.
DISK_BYTES = 2_000_000_000
IS_GATE = "--gate" in sys.argv[1:]
PACKAGES = ["slurm-wlm", "munge", "parallel"]
COMMANDS = ["sbatch", "slurmctld", "slurmd", "munged", "parallel"]
PROGRAMS = ["vjobs", "vjobs-pack", "vjobs-split"]
FILES, SLOW = 200, 16


# ---- before


def skip(why: str) -> None:
    """Says why nothing is tested."""
    print(f"skipped: {why}")
    sys.exit(0)


def install(packages: list[str], commands: list[str]) -> None:
    """Installs packages if a command is missing."""
    os.environ["PATH"] += ":/usr/sbin:/sbin"
    if all(map(shutil.which, commands)):
        return
    if os.geteuid() or not shutil.which("apt-get"):
        skip("Slurm and GNU parallel aren't here, and can't be installed by this user")
    how: dict[str, Any] = {"env": {**os.environ, "DEBIAN_FRONTEND": "noninteractive"}, "capture_output": True,
                           "check": False}
    try:
        subprocess.run(["apt-get", "-q", "update"], timeout=UPDATE_SECONDS, **how)
        words = ["apt-get", "-q", "install", "-y", "--no-install-recommends", *packages]
        subprocess.run(words, timeout=INSTALL_SECONDS, **how)
    except subprocess.TimeoutExpired:
        pass
    if not all(map(shutil.which, commands)):
        skip("the packages " + ", ".join(packages) + " can't be had")


def programs_folder() -> Path:
    """The folder of the three programs."""
    folder = Path(os.environ.get("VJOBS_PROGRAMS") or TOP / "bin").resolve()
    missing = [name for name in PROGRAMS if not os.access(folder / name, os.X_OK)]
    if missing:
        sys.exit(f"{folder} has no {', '.join(missing)}: run make all packing, or name a folder by VJOBS_PROGRAMS")
    return folder


def can_work_in(room: str) -> None:
    """Skips all if a folder has no place, or may not have programs."""
    if shutil.disk_usage(room).free < DISK_BYTES:
        skip(f"{room} has less than {DISK_BYTES} bytes")
    program = shutil.copy(programs_folder() / PROGRAMS[-1], room)
    try:
        subprocess.run([program], capture_output=True, check=False)
    except OSError as error:
        skip(f"a program can't be run in {room}: {error.strerror}")
    os.remove(program)


def as_another_user() -> int:
    """Copies what the tests need to where the user nobody can read it, and runs them as this user."""
    try:
        nobody = pwd.getpwnam("nobody")
    except KeyError:
        skip("there is no user nobody")
    with tempfile.TemporaryDirectory(prefix="vjobs-cluster-") as room:
        for name in ("tools", "tests"):
            shutil.copytree(TOP / name, Path(room) / name)
        (Path(room) / "bin").mkdir()
        for name in PROGRAMS:
            shutil.copy(programs_folder() / name, Path(room) / "bin")
        for path in Path(room).rglob("*"):
            path.chmod(0o755 if path.is_dir() or os.access(path, os.X_OK) else 0o644)
        os.chown(room, nobody.pw_uid, nobody.pw_gid)
        who: dict[str, Any] = {"user": nobody.pw_uid, "group": nobody.pw_gid, "extra_groups": [], "cwd": room}
        words = [python_for(who), "-B", f"{room}/tests/cluster/run.py", *sys.argv[1:]]
        env = {**os.environ, "VJOBS_PROGRAMS": f"{room}/bin", "HOME": room, "TMPDIR": room, MARK: room}
        child = subprocess.Popen(words, env=env, **who)
        try:
            return child.wait(SECONDS + MORE_SECONDS)
        except subprocess.TimeoutExpired:
            return too_late(f"more than {SECONDS + MORE_SECONDS} seconds")
        finally:
            child.terminate()
            end_all(room)


def too_late(why: object) -> int:
    """Says that the time is over. Returns the exit status."""
    print(f"skipped: the rest, after {why}" if IS_GATE else f"FAILED: {why}", flush=True)
    return 0 if IS_GATE else 1


def python_for(who: dict) -> str:
    """A Python that this user may run."""
    for folder in [os.path.dirname(sys.executable), *os.get_exec_path()]:
        python = os.path.join(folder, "python3")
        try:
            if not subprocess.run([python, "-c", ""], stderr=subprocess.DEVNULL, check=False, **who).returncode:
                return python
        except OSError:
            pass
    skip("the user nobody can run no Python")
    return ""


# ---- the tests


def on_slurm(trial: Trial, folder: Path) -> None:
    """One node dies in the middle of a batch. Another is thought dead, and publishes late."""
    counts, name = trial.counts, "slurm"
    run = trial.root / "runs" / name
    try:
        slurm = OwnSlurm(folder, "--nodes", "3", "--cpus", "2", "--dead-after", "10")
    except subprocess.CalledProcessError as error:
        if IS_GATE:
            print("skipped: Slurm, which doesn't start here")
        counts.check("Slurm starts", IS_GATE, error)
        return
    counts.step("Slurm has three nodes")
    try:
        process = trial.begin(name, "--engine", "slurm", "--lane", "2", env=slurm.env)
        late, killed = faults(slurm, trial, run)
        counts.check("a node died in the middle of a batch", bool(killed), os.listdir(run))
        counts.check("a task was cut off in the middle of a batch", bool(late))
        counts.step(f"n3 died with {killed}; n2 was cut off with {late}")
        wait_until(lambda: (run / "rounds" / "2" / "sent" / "1.json").exists())
        counts.check("what was cut off wasn't published before the next round", not is_done(run, late))
        trial.freezer.thaw()
        counts.check("what was cut off was published late", wait_until(lambda: is_done(run, late)), late)
        trial.end(process, name, 1)
        counts.check("what died was never published", not is_done(run, killed), killed)
        trial.compare(name)
        again = trial.begin(name, "--engine", "slurm", "--lane", "2", env=slurm.env)
        trial.end(again, "slurm, started again when all is done", 1)
        trial.compare(name)
    finally:
        trial.freezer.thaw()
        slurm.stop()
    wait_until(lambda: not slurm.processes())
    counts.check("nothing of Slurm is left", not slurm.processes(), slurm.processes())
    counts.step("200 files by Slurm")


def is_done(run: Path, batch: str) -> bool:
    return bool(batch) and (run / "rounds" / "1" / "done" / batch).exists()


def faults(slurm: OwnSlurm, trial: Trial, run: Path) -> tuple[str, str]:
    """When n2 and n3 have begun slow batches, cuts n2 off, and kills n3. Returns the two batches, if they were begun."""
    found = {"n2": "", "n3": ""}
    until = time.monotonic() + WAIT
    while time.monotonic() < until and not all(found.values()):
        for node in [name for name, batch in found.items() if not batch]:
            attempt = slow_on(trial, run, node)
            if attempt and trial.freezer.freeze(run, node, attempt):
                found[node] = batch_of(attempt)
                (slurm.kill_daemon if node == "n2" else slurm.kill_node)(node)
        time.sleep(0.02)
    return found["n2"], found["n3"]


def by_parallel(trial: Trial) -> None:
    """GNU parallel on this machine, with a host that doesn't answer, in a folder whose name a shell would act on."""
    name = "by $(touch owned) parallel's `touch owned` \"\\n"
    room = trial.root / "runs" / "ssh"
    room.mkdir()
    (room / "ssh").write_text("#!/bin/sh\nexit 255\n")
    (room / "ssh").chmod(0o755)
    env = {"PATH": f"{room}:{os.environ['PATH']}"}
    process = trial.begin(name, "--engine", "parallel", "--hosts", "no.such.host,:", env=env)
    said = trial.end(process, name, 1)
    trial.counts.check("the host that doesn't answer is named", "no.such.host doesn't answer" in said, said)
    trial.compare(name)
    trial.counts.step("200 files by GNU parallel")


def killed_and_started_again(trial: Trial) -> None:
    """The tool is killed in the middle, and goes on where it was."""
    name = "here"
    run = trial.root / "runs" / name
    done = run / "rounds" / "1" / "done"
    reports = run / "reports"
    process = trial.begin(name, "--engine", "here")
    wait_until(lambda: done.is_dir() and len(os.listdir(done)) >= 5 and any(reports.iterdir()))
    process.kill()
    process.communicate()
    before = set(os.listdir(done))
    trial.counts.check("some batches were done and some weren't", 5 <= len(before) < 25, before)
    other = trial.begin(name, "--engine", "here", "--output", "6000000")
    said = trial.end(other, "other limits", 2)
    trial.counts.check("other limits are refused", "begun with --output" in said, said)
    kept = {it: (done / it / "result.json").stat().st_mtime_ns for it in before}
    # A report may be so after a crash of the machine.
    next(reports.iterdir()).write_bytes(b"")
    sent = len(os.listdir(run / "rounds/1/sent"))
    process = trial.begin(name, "--engine", "here")
    wait_until(lambda: len(os.listdir(run / "rounds/1/sent")) > sent)
    second = trial.begin(name, "--engine", "here")
    said = trial.end(second, "a second tool in the same folder", 2)
    trial.counts.check("a second tool is refused", "another vjobs-spread" in said, said)
    trial.end(process, name, 1)
    is_kept = all((done / it / "result.json").stat().st_mtime_ns == at for it, at in kept.items())
    trial.counts.check("what was done isn't done again", is_kept)
    trial.compare(name)
    trial.counts.step("200 files here, with the tool killed in the middle")


def engines_that_fail(trial: Trial) -> None:
    """Nothing is sent one by one if the engine itself fails; the run goes on by another engine."""
    counts = trial.counts
    nowhere = {"SLURM_CONF": str(trial.root / "runs" / "none.conf")}
    (trial.root / "runs" / "none.conf").write_text(
        "ClusterName=none\nSlurmctldHost=localhost(127.0.0.1)\nSlurmctldPort=1\nNodeName=n1\nPartitionName=p Nodes=n1\n"
        "MessageTimeout=2\n"
    )
    process = trial.begin("failing", "--engine", "slurm", "--patience", "1", env=nowhere)
    trial.end(process, "a Slurm that doesn't answer", 3)
    counts.check("no second round", not (trial.root / "runs/failing/rounds/2").exists())
    room = trial.root / "runs" / "bad parallel"
    room.mkdir()
    (room / "parallel").write_text("#!/bin/sh\necho parallel is broken >&2\nexit 1\n")
    (room / "parallel").chmod(0o755)
    process = trial.begin("failing", "--engine", "parallel", env={"PATH": f"{room}:{os.environ['PATH']}"})
    said = trial.end(process, "a parallel that fails", 3)
    counts.check("what it said is shown", "parallel is broken" in said, said)
    counts.check("no second round", not (trial.root / "runs/failing/rounds/2").exists())
    counts.step("engines that fail")


def programs_that_fail(trial: Trial) -> None:
    """A job whose task dies each time is lost alone; a batch that vjobs refuses stops all."""
    files = trial.root / "runs" / "three"
    files.mkdir()
    one = "JOB {} 5 16 4 100\nSIGNATURES\nMAIN () -> ()\nCODE\nFUNC MAIN\nRET\nEND\n"
    for at in ("good", "poison", "fine"):
        (files / at).write_text(one.format(at))
    real = trial.programs / "vjobs"
    # Its parent is timeout, and the parent of this the task.
    poison = f'#!/bin/sh\nif grep -q poison "$3"; then kill -9 $(ps -o ppid= -p $PPID); exit 1; fi\nexec "{real}" "$@"\n'
    refuses = "#!/bin/sh\necho BATCH line 1 B1 BAD_JOB_LINE\nexit 2\n"
    broken = "#!/bin/sh\nexit 127\n"
    hungry = "#!/bin/sh\necho vjobs: out of memory >&2\nexit 3\n"
    cases = [
        ("poison", poison, 1, ["ANSWERED", "LOST", "ANSWERED"]),
        ("refuses", refuses, 3, ["NOT_RUN"] * 3),
        ("broken", broken, 3, ["NOT_RUN"] * 3),
        ("hungry", hungry, 1, ["MEMORY"] * 3),
    ]
    for name, text, wanted, ends in cases:
        programs = trial.root / "runs" / f"programs {name}"
        shutil.copytree(trial.programs, programs)
        (programs / "vjobs").write_text(text)
        words = [sys.executable, TOP / "tools" / "vjobs-spread", "--programs", programs]
        words += ["--run", trial.root / "runs" / name]
        words += ["--batch", "1" if name == "poison" else "3", "--memory", "2000000000"]
        words += [files / at for at in ("good", "poison", "fine")]
        ran = subprocess.run(list(map(str, words)), capture_output=True, text=True, cwd=trial.root / "cwd", check=False)
        lines = (trial.root / "runs" / name / "table.tsv").read_text().splitlines()[1:]
        found = [line.split("\t")[1] for line in lines]
        trial.counts.check(f"{name}: exit and ends", (ran.returncode, found) == (wanted, ends), (ran, found))
    trial.counts.step("programs that fail")


def command_lines(trial: Trial) -> None:
    """Command lines that are refused."""
    cases: list[list[str]] = [[], ["--run", "x"], ["--run", "x", "--batch", "65", "f"],
                              ["--run", "x", "--time", "0", "f"]]
    cases += [["--run", "x", "--hosts", "a", "f"],
              ["--run", "x", "--engine", "parallel", "--hosts", "-oProxyCommand=x", "f"]]
    cases += [["--run", "x", "--slurm-option=--nice", "f"], ["--run", "x", "--files-from", "none"]]
    refused = ("--wait", "-Jx", "--array=1-2", "x")
    cases += [["--run", "x", "--engine", "slurm", f"--slurm-option={it}", "f"] for it in refused]
    cases += [["--run", "strange", "f"]]
    strange = trial.root / "runs" / "strange"
    strange.mkdir()
    (strange / "file").touch()
    for options in cases:
        words = [sys.executable, TOP / "tools" / "vjobs-spread", "--programs", trial.programs, *options]
        ran = subprocess.run(list(map(str, words)), capture_output=True, cwd=trial.root / "runs", check=False)
        trial.counts.check(f"{options}: exit 2", ran.returncode == 2 and ran.stderr, ran)
    trial.counts.check("a folder that isn't a run's stays as it is", os.listdir(strange) == ["file"])
    trial.counts.check("nothing is begun", not (trial.root / "runs" / "x").exists())
    trial.counts.step("command lines")


def machine_that_fails(trial: Trial) -> None:
    """If a file can't be copied, that isn't the file's fault: the run stops, and no file is left out."""
    large = trial.root / "runs" / "large"
    large.write_bytes(b"{" + b" " * 8_000_000 + b"}\n")
    words = [sys.executable, TOP / "tools" / "vjobs-spread", "--programs", trial.programs]
    words += ["--run", trial.root / "runs" / "no room", large]

    def limit() -> None:
        resource.setrlimit(resource.RLIMIT_FSIZE, (4_000_000, 4_000_000))

    ran = subprocess.run(list(map(str, words)), capture_output=True, preexec_fn=limit, check=False)
    trial.counts.check("no room: exit 3", (ran.returncode, ran.stdout) == (3, b"NOT_RUN 1\n"), ran)
    trial.counts.step("a machine that fails")


def on_slow_files(trial: Trial, name: str, count: int, *options: str) -> list[str]:
    """The command line of a run of slow files, one after another."""
    slow = [os.fsdecode(path) for it, path in zip(trial.found, trial.paths) if it.name.startswith(b"slow/")]
    words = [sys.executable, TOP / "tools" / "vjobs-spread", "--run", trial.root / "runs" / name]
    words += ["--programs", trial.programs, "--slots", "1", "--batch", "1", "--time", "600", *options, *slow[:count]]
    return list(map(str, words))


def interrupted(trial: Trial) -> None:
    """At an interrupt the tool ends its tasks and writes the table. The same command goes on."""
    counts, run, words = trial.counts, trial.root / "runs" / "interrupted", on_slow_files(trial, "interrupted", 6)
    process = subprocess.Popen(words, stdout=subprocess.PIPE, stderr=subprocess.PIPE)
    trial.begun.append(process)
    done = run / "rounds" / "1" / "done"
    wait_until(lambda: done.is_dir() and os.listdir(done))
    process.send_signal(signal.SIGINT)
    said = process.communicate()
    is_good = process.returncode == 3 and b"NOT_RUN" in said[0] and b"interrupted" in said[1]
    counts.check("interrupted: exit 3", is_good, (process.returncode, said))
    counts.check("interrupted: there is a table", (run / "table.tsv").exists())
    wait_until(lambda: not started_below(trial.root), SECONDS_TO_END)
    counts.check("interrupted: no task goes on", not started_below(trial.root))
    ran = subprocess.run(words, capture_output=True, check=False)
    counts.check("interrupted: it goes on", (ran.returncode, ran.stdout) == (0, b"ANSWERED 6\n"), ran)
    counts.step("the tool interrupted")


def progress(trial: Trial) -> None:
    """The line of progress on a terminal; none with --quiet."""
    ways: list[list[str]] = [[], ["--quiet"]]
    for options in ways:
        words = on_slow_files(trial, f"progress {options}", 3, *options)
        leader, terminal = pty.openpty()
        process = subprocess.Popen(words, stdout=subprocess.DEVNULL, stderr=terminal)
        os.close(terminal)
        said = b""
        while data := read_of(leader):
            said += data
        os.close(leader)
        trial.counts.check("progress: exit 0", process.wait() == 0, said)
        line = rb"\r\d of 3 jobs done, \d running, \d left, (unknown|\d:\d\d:\d\d) to go; 0 failures *"
        is_good = not said if options else re.search(line, said)
        trial.counts.check(f"progress: the lines, {options}", is_good, said)
    trial.counts.step("lines of progress")


def read_of(leader: int) -> bytes:
    """What comes from a terminal; nothing once nobody can write to it."""
    try:
        return os.read(leader, 4096)
    except OSError:
        return b""


def all_tests(trial: Trial) -> None:
    """Runs all."""
    trial.counts.step(f"{FILES} files, and what vjobs prints for each alone; a limit of {trial.seconds} s")
    command_lines(trial)
    machine_that_fails(trial)
    progress(trial)
    interrupted(trial)
    programs_that_fail(trial)
    engines_that_fail(trial)
    by_parallel(trial)
    killed_and_started_again(trial)
    on_slurm(trial, trial.root / "slurm")


def tests() -> int:
    """Runs all as the user who isn't root, and ends what it began."""
    counts, status = Counts(), 0
    with tempfile.TemporaryDirectory(prefix="vjobs-cluster-", dir=os.environ.get(MARK)) as room:
        os.environ[MARK] = room
        can_work_in(room)
        try:
            trial = Trial(Path(room), programs_folder(), counts, FILES, SLOW)
            try:
                all_tests(trial)
            finally:
                signal.alarm(0)
                trial.stop()
        except TimeoutError as error:
            status = too_late(error)
        left = end_all(room)
        counts.check("nothing that was begun goes on", not left, left)
    return counts.end() or status


def too_long(*_: object) -> None:
    raise TimeoutError(f"more than {SECONDS} seconds")


def main() -> int:
    signal.signal(signal.SIGTERM, lambda *_: sys.exit(143))
    install(PACKAGES, COMMANDS)
    if os.geteuid() == 0:
        return as_another_user()
    signal.signal(signal.SIGALRM, too_long)
    signal.alarm(SECONDS)
    return tests()


if __name__ == "__main__":
    sys.exit(main())
