#!/usr/bin/env python3
"""Times vjobs-spread on light jobs, by processes here, by GNU parallel and by a Slurm of one's own: python3 bench/spread.py

Run it at the top of the repository, after `make all packing`, with slurm-wlm, munge and parallel installed; the folder
VJOBS_PROGRAMS may have the programs. Each line has the wall time of a whole run, and what it is for a job, a batch and
a task. The last line has the processor time of the tool itself for a batch. bench/spread_model.py takes these as options."""
from __future__ import annotations

import os
import resource
import subprocess
import sys
import tempfile
import time
from pathlib import Path

TOP = Path(__file__).resolve().parent.parent
TOOL, OWN_SLURM = TOP / "tools" / "vjobs-spread", TOP / "tools" / "own-slurm"
PROGRAMS = Path(os.environ.get("VJOBS_PROGRAMS") or TOP / "bin").resolve()
JOB = "JOB light 100 16 4 100\nSIGNATURES\nMAIN () -> (INT)\nCODE\nFUNC MAIN\nCONST INT {}\nCONST INT 2\n+ INT\nRET\nEND\n"
# The engine, its nodes, the batch, the lane, and how many batches.
RUNS = [
    ("here", 1, 1, 1, 48),
    ("here", 1, 1, 16, 192),
    ("here", 1, 16, 16, 192),
    ("here", 1, 64, 16, 96),
    ("parallel", 1, 16, 1, 24),
    ("parallel", 1, 16, 16, 96),
    ("slurm", 1, 16, 1, 12),
    ("slurm", 1, 16, 16, 64),
    ("slurm", 3, 16, 1, 36),
    ("slurm", 3, 16, 16, 192),
    ("slurm", 3, 64, 16, 96),
]


def timed(room: Path, engine: str, nodes: int, batch: int, lane: int, batches: int, env: dict) -> None:
    """Runs the tool, and prints a line."""
    jobs, slots = batch * batches, nodes
    names = b"".join(os.fsencode(room / "jobs" / str(at)) + b"\0" for at in range(jobs))
    words = [sys.executable, TOOL, "--run", room / f"{engine}-{nodes}-{batch}-{lane}", "--programs", PROGRAMS]
    words += ["--engine", engine, "--batch", batch, "--lane", lane, "--slots", slots, "--files-from", "-", "--quiet"]
    begun_at = time.monotonic()
    subprocess.run(list(map(str, words)), input=names, check=True, stdout=subprocess.DEVNULL, env={**os.environ, **env})
    seconds = time.monotonic() - begun_at
    tasks = -(-batches // lane)
    each = f"{1000 * seconds / jobs:9.1f} {1000 * seconds * slots / batches:12.0f} {1000 * seconds * slots / tasks:12.0f}"
    print(f"{engine:9}{nodes:6}{batch:6}{lane:6}{jobs:7}{seconds:9.1f}  {each} {3600 * jobs / seconds:14,.0f}",
          flush=True)


def main() -> None:
    """Runs all, each kind of engine in turn."""
    print("engine   slots batch  lane   jobs  seconds     ms/job  ms/batch*slot ms/task*slot   jobs an hour")
    with tempfile.TemporaryDirectory(prefix="vjobs-bench-") as folder:
        room = Path(folder)
        room.chmod(0o755)
        (room / "jobs").mkdir()
        for at in range(max(batch * batches for *_, batch, _, batches in RUNS)):
            (room / "jobs" / str(at)).write_text(JOB.format(at))
        words = [sys.executable, OWN_SLURM, "start", room / "own", "--nodes", "3"]
        begun_at = time.monotonic()
        subprocess.run(list(map(str, words)), check=True, stdout=subprocess.DEVNULL)
        print(f"Slurm of three nodes, from nothing: {time.monotonic() - begun_at:.1f} s")
        try:
            for run in RUNS:
                timed(room, *run, {"SLURM_CONF": f"{room}/own/slurm.conf"})
        finally:
            subprocess.run([sys.executable, OWN_SLURM, "stop", str(room / "own")], check=True)
    spent = resource.getrusage(resource.RUSAGE_CHILDREN)
    batches = sum(run[-1] for run in RUNS)
    print(f"processor time of the tool and of what it waits for: {1000 * (spent.ru_utime + spent.ru_stime) / batches:.1f} ms a batch")


if __name__ == "__main__":
    main()
