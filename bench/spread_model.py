#!/usr/bin/env python3
"""Draws how many jobs an hour vjobs-spread runs by Slurm on 1 to 1,000 nodes: python3 bench/spread_model.py [OPTION..]

It simulates one round: a scheduler that starts tasks one after another, slots that run lanes of batches, a file system
that takes so many operations a second, and one process of the tool that cuts the reports. Each is a queue. The seconds
that each takes are options; their defaults were measured as docs/CLUSTER.md says. The last column names the queue that
was busy for the largest part of the time. Nothing is measured here."""
from __future__ import annotations

import argparse
import heapq
from dataclasses import dataclass

NODES = (1, 2, 5, 10, 20, 50, 100, 200, 500, 1000)
# Operations of a file system for a batch: it is read, its attempt's folder and three files are made, renamed, and read.
OPERATIONS = 12
WIDTH = 40


@dataclass
class Costs:
    """Seconds of each part, and how the work is divided."""

    job: float
    process: float
    start: float
    task: float
    operation: float
    cut: float
    cores: int
    batch: int
    lane: float


class Queue:
    """Does one thing after another."""

    def __init__(self) -> None:
        self.free_at = self.busy = 0.0

    def done(self, now: float, seconds: float) -> float:
        """When something that comes now is done."""
        self.free_at = max(self.free_at, now) + seconds
        self.busy += seconds
        return self.free_at


def simulate(nodes: int, costs: Costs, lanes_a_slot: int = 4) -> tuple[float, str, float]:
    """Jobs an hour, the part that is the bound, and the share of the time in which it was busy."""
    slots = nodes * costs.cores
    each = costs.process + costs.batch * costs.job
    batches = max(1, round(costs.lane / each))
    lanes = lanes_a_slot * slots
    scheduler, files, tool = Queue(), Queue(), Queue()
    free, worked, end = [0.0] * slots, 0.0, 0.0
    for _ in range(lanes):
        begun = scheduler.done(heapq.heappop(free), costs.start) + costs.task
        work = batches * each
        # The file system is asked all the while; a lane isn't done before its operations are.
        served = files.done(begun, batches * OPERATIONS * costs.operation)
        ended = max(begun + work, served)
        worked += costs.task + work
        heapq.heappush(free, ended)
        end = max(end, tool.done(ended, batches * costs.cut))
    busy = {
        "the nodes": worked / slots,
        "the scheduler": scheduler.busy,
        "the file system": files.busy,
        "the tool's process": tool.busy,
    }
    bound = max(busy, key=busy.get)
    return lanes * batches * costs.batch * 3600 / end, bound, busy[bound] / end


def main() -> None:
    """Draws the curve."""
    it = argparse.ArgumentParser(description=__doc__, formatter_class=argparse.RawDescriptionHelpFormatter)
    it.add_argument("--job", type=float, default=0.1, help="seconds of a job (0.1)")
    it.add_argument(
        "--process",
        type=float,
        default=0.008,
        help="seconds of a batch besides its jobs: its process and its folder (0.008)",
    )
    it.add_argument(
        "--start",
        type=float,
        default=0.02,
        help="seconds that the scheduler takes for a task (0.02, not measured)",
    )
    it.add_argument("--task", type=float, default=1.0, help="seconds of a slot for a task besides its batches (1)")
    it.add_argument(
        "--operation",
        type=float,
        default=0.0001,
        help="seconds of an operation of the file system (0.0001, not measured)",
    )
    it.add_argument("--cut", type=float, default=0.024, help="seconds of the tool for a batch (0.024)")
    it.add_argument("--cores", type=int, default=32, help="slots of a node (32)")
    it.add_argument("--batch", type=int, default=16, help="jobs of a batch (16)")
    it.add_argument("--lane", type=float, default=10.0, help="seconds of work of a lane (10)")
    costs = Costs(**vars(it.parse_args()))
    rows = [(nodes, *simulate(nodes, costs)) for nodes in NODES]
    most = max(row[1] for row in rows)
    print(f"{'nodes':>5} {'jobs an hour':>14}  {'':{WIDTH}}  bound")
    for nodes, jobs, bound, share in rows:
        print(f"{nodes:5} {jobs:14,.0f}  {'#' * max(1, round(WIDTH * jobs / most)):{WIDTH}}  {bound}, {share:.0%}")


if __name__ == "__main__":
    main()
