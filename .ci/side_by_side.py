"""The crates of crates.txt, and work on them side by side. As a program it prints how many checks may run at once."""
import concurrent.futures
import os
import pathlib
import re
import time
from collections.abc import Callable

TOP = pathlib.Path(__file__).resolve().parent.parent
CRATES = TOP / "crates"
# Work on a crate by some jobs: whether it succeeded, and what is to be printed.
Work = Callable[[str, int], tuple[bool, str]]
# The memory of one job, in kilobytes.
MEMORY_OF_JOB = 3_000_000


def libraries_of_crates() -> dict[str, list[str]]:
    """Each crate of crates.txt, with the crates of this repository that it uses."""
    lines = [line.split("#")[0].partition(":") for line in (TOP / "crates.txt").read_text().splitlines()]
    words = {head.split()[0]: rest.split() for head, colon, rest in lines if colon}
    return {name: [word for word in used if word in words] for name, used in words.items()}


def most_jobs() -> int:
    """How many jobs may run at once: one for each core, and for each 3 GB of memory."""
    free = re.search(r"MemAvailable:\s+(\d+)", pathlib.Path("/proc/meminfo").read_text())
    return max(1, min(len(os.sched_getaffinity(0)), int(free[1]) // MEMORY_OF_JOB))


def lines_of(crate: str) -> int:
    """How many lines the code of a crate has."""
    return sum(len(file.read_text().splitlines()) for file in (CRATES / crate).glob("src/**/*.rt"))


def side_by_side(uses: dict[str, list[str]], work: Work, weight: Callable[[str], int] = lines_of) -> bool:
    """Does the work on each crate once it is done on those that the crate uses. The longest chain comes first.

    The work is given the crate and a number of jobs. It returns whether it succeeded, and what is to be printed. Crates
    above one where it fails aren't begun. Returns whether it succeeded everywhere."""
    above: dict[str, int] = {}
    for crate in reversed(list(uses)):
        users = [user for user in uses if crate in uses[user]]
        above[crate] = weight(crate) + max((above[user] for user in users), default=0)
    waiting, free, failed = sorted(uses, key=lambda crate: -above[crate]), most_jobs(), False
    done: set[str] = set()
    running: dict[concurrent.futures.Future, int] = {}
    with concurrent.futures.ThreadPoolExecutor(free) as pool:
        while True:
            ready = [crate for crate in waiting if done.issuperset(uses[crate])]
            # With two jobs a check takes a third more processor time, so several crates get one each.
            jobs = free if len(ready) == 1 else 1
            for crate in ready[:free]:
                running[pool.submit(timed, work, crate, jobs)] = jobs
                waiting.remove(crate)
                free -= jobs
            if not running:
                return not (failed or waiting)
            for ended in concurrent.futures.wait(running, return_when=concurrent.futures.FIRST_COMPLETED).done:
                free += running.pop(ended)
                crate, good, text, seconds = ended.result()
                print(f"{crate}: {text} ({seconds:.0f} s)", flush=True)
                done |= {crate} if good else set()
                failed |= not good


def timed(work: Work, crate: str, jobs: int) -> tuple[str, bool, str, float]:
    begun = time.monotonic()
    good, text = work(crate, jobs)
    return crate, good, text, time.monotonic() - begun


if __name__ == "__main__":
    print(most_jobs())
