#!/usr/bin/env python3
"""Times the memory of a region: releases and makes of blocks of mixed lengths, in no order, and takes and gives of
ranges of words beside a plain list of holes in C. It also prints the most memory that `bin/vjobs` takes for results
that share a vector, and for limits of cells that jobs don't use.

Run it at the top of the repository, after `make`. It builds crates/bench_ops (proving it and what it stands on, unless
that was done) and bench/plain_holes.c. The words that packing moves are those of the same load by a plain model of
first fit with packing, written here: the memory itself tells only those of its last block. The programs and the model
have to end with the same blocks, words and holes.
"""
import bisect
import pathlib
import subprocess
import tempfile
from collections.abc import Iterator

TOP = pathlib.Path(__file__).resolve().parent.parent
PROGRAM = str(TOP / "bin" / "vjobs")
# The words of the region, the live blocks, the words of the longest and the operations, as in crates/bench_ops.
SHORT = (2_048, 64, 48, 2_000)
LONG = (1_048_576, 4_096, 495, 200_000)
MASK = (1 << 64) - 1


def numbers() -> Iterator[int]:
    seed = 7
    while True:
        seed = (seed * 6364136223846793005 + 1442695040888963407) & MASK
        yield seed >> 33


class Region:
    """Blocks by number, each with its place and length, and the holes in order of place."""

    def __init__(self, size: int) -> None:
        self.size, self.used = size, 0
        self.blocks: dict[int, tuple[int, int]] = {}
        self.holes = [(0, size)]
        self.packs = self.moved = self.refused = 0

    def free(self, number: int) -> None:
        place, length = self.blocks.pop(number, (0, 0))
        self.used -= length
        if not length:
            return
        at = bisect.bisect(self.holes, (place, 0))
        begin, end, first, last = place, place + length, at, at
        if at > 0 and sum(self.holes[at - 1]) == place:
            begin, first = self.holes[at - 1][0], at - 1
        if at < len(self.holes) and self.holes[at][0] == end:
            end, last = sum(self.holes[at]), at + 1
        self.holes[first:last] = [(begin, end - begin)]

    def make(self, number: int, length: int) -> None:
        """A block that doesn't fit is not made, and its number stays without one."""
        if self.used + length > self.size:
            self.refused += 1
            return
        self.blocks[number] = (self.take(length) if length else 0, length)
        self.used += length

    def take(self, length: int) -> int:
        fit = next((i for i, hole in enumerate(self.holes) if hole[1] >= length), None)
        if fit is None:
            self.pack()
            fit = 0
        begin, size = self.holes[fit]
        self.holes[fit : fit + 1] = [(begin + length, size - length)] if size > length else []
        return begin

    def pack(self) -> None:
        self.packs += 1
        to = 0
        for number, (place, length) in sorted(self.blocks.items(), key=lambda it: it[1][0]):
            if length:
                self.moved += length if place != to else 0
                self.blocks[number] = (to, length)
                to += length
        self.holes = [(to, self.size - to)]


def churn(region: Region, blocks: int, longest: int, operations: int) -> None:
    draw = numbers()
    for _ in range(operations):
        place, length = next(draw) % blocks, next(draw) % (longest + 1)
        region.free(place)
        region.make(place, length)


def model(size: int, blocks: int, longest: int, operations: int) -> Region:
    """What stands after the load; it is counted over the second part, which the program times."""
    region = Region(size)
    churn(region, blocks, longest, operations // 4)
    region.packs = region.moved = region.refused = 0
    churn(region, blocks, longest, operations)
    return region


def lines_of(*command: str) -> list[str]:
    return subprocess.run(command, check=True, capture_output=True, text=True).stdout.splitlines()


def print_blocks(lines: list[str], load: tuple[int, int, int, int]) -> None:
    region = model(*load)
    ends = f"{len(region.blocks)} blocks of {region.used} words"
    if lines[0] != ends:
        raise SystemExit(f"the program ends with {lines[0]}, and the model with {ends}")
    print(f"{load[3]} operations on at most {load[1]} blocks of up to {load[2]} words in {load[0]} words: {ends}")
    print(f"  {region.packs} packs, {region.moved / load[3]:.1f} words moved an operation, {region.refused} blocks refused")
    for line in lines[1:]:
        print(f"  {line}")


def plain_lines(turns: str, loads: list[str]) -> list[str]:
    """What the plain list of holes prints on these loads."""
    words = [word for load in loads for word in load.split()]
    with tempfile.TemporaryDirectory() as room:
        plain = f"{room}/plain_holes"
        subprocess.run(["cc", "-O3", "-o", plain, str(TOP / "bench" / "plain_holes.c")], check=True)
        return lines_of(plain, str(LONG[0]), "10", turns, *words)


def nanoseconds(line: str, load: str) -> float:
    """Of a take and a give: a turn has both, but in a stack only one of them."""
    words = line.split()
    return int(words[0]) / int(words[3]) * (2 if load.endswith("stack") else 1)


def print_takes(lines: list[str]) -> None:
    *lines, resets = lines
    loads = [line.partition(":")[0] for line in lines[::2]]
    plain = plain_lines(lines[1].split()[3], loads)
    print(f"{'nanoseconds a take and a give':44} {'holes':>8} {'plain list':>11}   what stands at the end")
    for place, load in enumerate(loads):
        ends, took = lines[2 * place : 2 * place + 2]
        if plain[2 * place] != ends:
            raise SystemExit(f"the program ends with {ends}, and the plain list with {plain[2 * place]}")
        numbers, least, greatest, order = load.split()
        name = f"{numbers} ranges of {least} to {greatest} words, {order}"
        list_took = nanoseconds(plain[2 * place + 1], load)
        print(f"{name:44} {nanoseconds(took, load):8.1f} {list_took:11.1f}   {ends.partition(': ')[2]}")
    print(f"a reset takes {nanoseconds(resets, '') / 1000:.1f} microseconds")


# ---- results that share a vector

SHARED_RESULTS, SHARED_WORDS = 256, 1_000_000
# The address space that three jobs with such results have to keep within.
THREE_JOBS_BYTES = 3_000_000_000


def job(results: int, code: list[str], limits: str = "1048576 300 1 300") -> bytes:
    signature = f"MAIN () -> ({' '.join(['INT'] * results)})"
    lines = [f"JOB t {limits}", "SIGNATURES", signature, "CODE", "FUNC MAIN", *code, "RET", "END"]
    return "".join(f"{line}\n" for line in lines).encode()


def most_megabytes(batch: bytes, workers: int, *limited: str, program: str = PROGRAM) -> float:
    """The most memory of a run. A small program starts it, since a process begins with the most of what started it."""
    words = ["time", "-f", "%M", *limited, program, "--workers", str(workers), "-"]
    run = subprocess.run(words, input=batch, check=True, stdout=subprocess.DEVNULL, stderr=subprocess.PIPE)
    return int(run.stderr) * 1024 / 1_000_000


def print_shared_results() -> None:
    vector = ["CONST INT 0", "CONST INT 1", f"CONST INT {SHARED_WORDS}", "MAKE_SEGDES", "INDEX"]
    many, few = job(SHARED_RESULTS, [*vector, *["COPY 1 0"] * (SHARED_RESULTS - 1)]), job(0, [])
    print(f"megabytes of a job that returns one vector of {SHARED_WORDS} words {SHARED_RESULTS} times,"
          " of one RET with the same limits, and of three such jobs")
    for workers in (1, 4):
        of_many, of_few = most_megabytes(many, workers), most_megabytes(few, workers)
        of_three = most_megabytes(many * 3, workers, "prlimit", f"--as={THREE_JOBS_BYTES}")
        print(f"  {workers} workers: {of_many:.1f}, {of_few:.1f}, {of_three:.1f}")


# ---- cells that no job uses

JOBS, FEW_CELLS, MOST_CELLS = 64, 16, 4_096


def print_unused_cells() -> None:
    batches = (job(1, ["CONST INT 1"], f"100 {cells} 16 100") * JOBS for cells in (FEW_CELLS, MOST_CELLS))
    few, many = (most_megabytes(batch, 1) for batch in batches)
    print(f"megabytes of {JOBS} jobs of one entry, with limits of {FEW_CELLS} and of {MOST_CELLS} cells: "
          f"{few:.1f}, {many:.1f}")


def main() -> None:
    crate = TOP / "crates" / "bench_ops"
    subprocess.run(["rt", "run"], cwd=crate, check=True, stdout=subprocess.DEVNULL)
    program = str(crate / "out" / "bench_ops")
    print_blocks(lines_of(program, "memory")[:1], SHORT)
    lines = lines_of(program, "memory", "time")
    print_blocks(lines[:2], LONG)
    print_takes(lines[2:])
    print_shared_results()
    print_unused_cells()


if __name__ == "__main__":
    main()
