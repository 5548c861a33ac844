#!/usr/bin/env python3
"""Runs the batches of one lane, one after another, and publishes each: task.py ROUND LANE, in the folder of a run.

Under Slurm the number of the array's task is added to LANE. A batch is one process of vjobs under timeout, with limits
of memory and output. Its attempt is a folder of its own, and one rename of this folder publishes it. A folder can't be
renamed onto one that has files: of two attempts at a batch the first that ends counts, whole.

A lane ends before its last batch if it has worked for long, or if its list is gone. What it leaves is sent again.
This file is copied into the folder of the run, and uses nothing else of the tool.
"""
import json
import os
import resource
import shutil
import signal
import socket
import subprocess
import sys
import time
import traceback

# How long a process that ignores the end of its time goes on.
SECONDS_TO_KILL = 5


def allowed(kind: int, value: int) -> int:
    """A limit, or the one that this process has already if that is lower."""
    hard = resource.getrlimit(kind)[1]
    return value if hard == resource.RLIM_INFINITY else min(value, hard)


def lower(kind: int, value: int) -> None:
    """Lowers a limit of this process."""
    value = allowed(kind, value)
    resource.setrlimit(kind, (value, value))


class Task:
    """One lane of a round."""

    def __init__(self, round_number: int, lane: int) -> None:
        with open("settings.json", encoding="utf-8") as file:
            self.settings = json.load(file)
        self.round = os.path.join("rounds", str(round_number))
        self.lane = str(lane)
        self.list = os.path.join(self.round, "lanes", self.lane)
        self.node = os.environ.get("SLURMD_NODENAME") or socket.gethostname()
        self.begun_at = time.monotonic()

    def batches(self) -> list[str]:
        """The batches of the lane; none if the lane was withdrawn."""
        try:
            with open(self.list, encoding="ascii") as file:
                return file.read().split()
        except FileNotFoundError:
            return []

    def is_over(self) -> bool:
        """Whether no more batch is to be begun."""
        worked = time.monotonic() - self.begun_at
        return worked > self.settings["lane_seconds"] or not os.path.exists(self.list)

    def limit(self) -> None:
        """Sets the limits of a batch, in the process that becomes it, and lets signals end it."""
        for number in (signal.SIGTERM, signal.SIGHUP, signal.SIGINT, signal.SIGQUIT):
            signal.signal(number, signal.SIG_DFL)
        signal.pthread_sigmask(signal.SIG_SETMASK, [])
        lower(resource.RLIMIT_CORE, 0)
        lower(resource.RLIMIT_AS, self.settings["memory"])
        lower(resource.RLIMIT_FSIZE, self.settings["output"])

    def attempt(self, batch: str, folder: str) -> None:
        """Runs a batch, with everything that it writes in this folder."""
        group, _, name = batch.rpartition("-")
        path = os.path.join(self.round, "packed", group, "batch-" + name + ".vcode")
        report = os.path.join(folder, "report")
        words = ["timeout", "--foreground", "--kill-after=%d" % SECONDS_TO_KILL, str(self.settings["time"])]
        cores = self.settings.get("cores", 1)
        threads = ["--workers", "1"] if cores == 1 else ["--lanes", str(cores)]
        words += [os.path.join(".", "vjobs"), *threads, os.path.join(".", path)]
        begun_at = time.monotonic()
        with open(report, "wb") as output, open(os.path.join(folder, "errors"), "wb") as errors:
            status = subprocess.Popen(
                words, stdin=subprocess.DEVNULL, stdout=output, stderr=errors, preexec_fn=self.limit
            ).wait()
        seconds = time.monotonic() - begun_at
        status = 128 - status if status < 0 else status
        size = os.path.getsize(report)
        if status not in (0, 1, 2):
            os.truncate(report, 0)  # No part of a report is an answer.
        result = {"exit": status, "seconds": round(seconds, 3), "bytes": size, "node": self.node, "lane": self.lane}
        with open(os.path.join(folder, "result.json"), "w", encoding="utf-8") as file:
            json.dump(result, file)

    def run(self) -> None:
        """Runs the batches of the lane that are neither published nor begun by an earlier process of the lane."""
        trying, done = os.path.join(self.round, "trying"), os.path.join(self.round, "done")
        begun = {tuple(name.split("+")[:2]) for name in os.listdir(trying)}
        for batch in self.batches():
            if self.is_over():
                break
            if (batch, self.lane) in begun or os.path.exists(os.path.join(done, batch)):
                continue
            folder = os.path.join(trying, "%s+%s+%s+%d" % (batch, self.lane, self.node, os.getpid()))
            os.mkdir(folder)
            self.attempt(batch, folder)
            try:
                os.rename(folder, os.path.join(done, batch))
            except OSError:
                shutil.rmtree(folder, ignore_errors=True)


def main() -> None:
    round_number, lane = int(sys.argv[1]), int(sys.argv[2])
    lane += int(os.environ.get("SLURM_ARRAY_TASK_ID", "0")) if "--array" in sys.argv[3:] else 0
    try:
        Task(round_number, lane).run()
    except Exception:
        with open(os.path.join("rounds", str(round_number), "errors"), "a", encoding="utf-8") as file:
            file.write("lane %d on %s:\n%s\n" % (lane, socket.gethostname(), traceback.format_exc()))
        raise


if __name__ == "__main__":
    main()
