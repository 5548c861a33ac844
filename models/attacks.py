#!/usr/bin/env python3
"""Gives the programs what a hostile stranger may:

    python3 models/attacks.py [--quick] VJOBS VJOBS_PACK VJOBS_SPLIT VJOBS_KINDS VJOBS_WHY

Odd names in each message of each program, and odd bytes in texts: what is printed has only printable characters and
ends of lines, and a name takes one line. Files that make a program wait, and outputs that take nothing: each program
ends, and says so. `--quick` leaves the rest out: each allocation of vjobs-pack and vjobs-split is refused in turn, which
gives exit 3 or what there is else; vjobs runs on lanes with little address space, and succeeds wherever one thread
does; and the cost of texts that are dear to check, and of jobs that are dear to look at, is compared with that of plain
code of the same length and of vjobs itself. `valgrind` counts instructions of the processor; if it is missing, seconds
are compared, with a margin. `models/packing.py` stops vjobs-pack and vjobs-split at each write, and
`models/signatures.py` measures vjobs-kinds."""
import os
import re
import shutil
import subprocess
import sys
import tempfile
import time
from collections.abc import Iterable, Iterator, Sequence
from pathlib import Path
from typing import Any

sys.path.append(str(Path(__file__).resolve().parent.parent / "tests" / "files"))

import refused
from attack_texts import ODD_TEXTS, SHORT_RUNS, dear_texts, every_call, job, other_texts, plain
from shown import is_of_lines, shown

QUICK = "--quick" in sys.argv
PROGRAMS = [os.path.abspath(path) for path in sys.argv[1:] if not path.startswith("--")]
VJOBS, PACK, SPLIT, KINDS, WHY = PROGRAMS
SECONDS = 20
ODD = [b"\x1b[2J", b"\x07", b"a\nvjobs: out of memory", b"\r", "a\u202etxt.exe".encode(), "\u2066b".encode(), b"\xc2\x9b31m",
       "\u2028".encode(), b"\\x1b", b"\x7f", b"\xff", b"\xe2\x80", b"ok\xf0\x9f\x98"]
# Sizes of dear texts, and what their check may take: as a multiple of plain code, and of memory for each byte.
FEW, MANY, MOST_TIMES, MOST_MEMORY = 100_000, 1_000_000, 60, 100
# The memory of vjobs beside that of its check.
PROGRAM_BYTES = 4_000_000
# Starts a program that prints nothing, and prints how many units of 1,024 bytes of memory it had at most.
STARTER = """
import os, sys
null = [(os.POSIX_SPAWN_OPEN, stream, "/dev/null", os.O_WRONLY, 0) for stream in (1, 2)]
child = os.posix_spawn(sys.argv[1], sys.argv[1:], os.environ, file_actions=null)
print(os.wait4(child, 0)[2].ru_maxrss)
"""
# With seconds in place of counted instructions a run may take so many times as much again.
MARGIN = 4
# What a look may take, as a multiple of the run by vjobs; and, if vjobs ends the job early, the seconds of one.
MOST_LOOK, MOST_SHORT = 6, 2
# The words of a command line.
Words = Sequence[str | bytes]
wrong: list[str] = []


def fault(what: object, text: object = "") -> None:
    wrong.append(f"{what}: {text}")
    print(f"attacks: {what}: {text}")


def run(words: Words, given: bytes = b"", **how: Any) -> subprocess.CompletedProcess[bytes] | None:
    """Runs a program. If it waits, that is a fault, and there is no answer."""
    how = {"stdout": subprocess.PIPE, "stderr": subprocess.PIPE, "timeout": SECONDS, **how}
    try:
        return subprocess.run(words, input=given, check=False, **how)
    except subprocess.TimeoutExpired:
        fault(words, "it waits")
        return None


def is_shown(text: bytes) -> bool:
    try:
        return all(map(is_of_lines, text.decode()))
    except UnicodeDecodeError:
        return False


# ---- names

def calls_with(name: bytes) -> Iterator[Words]:
    """Calls of the programs in which a name stands at each place where a message quotes it."""
    value = b"--region=" + name
    for program in PROGRAMS:
        yield [program, b"--x" + name]
        yield [program, b"--", name, name]
        yield [program, name]
    others: list[Words] = [
        [VJOBS, value, b"-"], [VJOBS, b"--schedule", name, b"-"], [VJOBS, b"--workers", name, b"-"],
        [PACK, b"--out", name, b"none"], [PACK, b"--files-from", name], [PACK, value], [PACK, b"--most-entries", name],
        [SPLIT, b"--out", b"new", b"--", name], [SPLIT, b"--beside", b"--", name],
        [KINDS, b"--most-bytes", name, b"-"], [KINDS, b"--", name], [KINDS, b"--batch", b"--", name],
        [WHY, b"--html", b"none/" + name, b"batch.vcode"], [WHY, b"--at", name + b":0", b"batch.vcode"],
        [WHY, b"--", name],
    ]
    yield from others


def with_names() -> None:
    """Names and arguments, by themselves and as files that have something wrong."""
    Path("batch.vcode").write_bytes(plain(100))
    for name in ODD:
        for words, same_words in zip(calls_with(name), calls_with(b"plain")):
            ran, other = run(words), run(same_words)
            if ran is None or other is None:
                continue
            if ran.returncode not in (1, 2, 3) or not is_shown(ran.stderr) or ran.stdout:
                fault(words, f"exit {ran.returncode}: {ran.stderr!r}")
            if is_text(name) and ran.stderr.count(b"\n") != other.stderr.count(b"\n"):
                fault(words, f"not as many lines as with another name: {ran.stderr!r}")
        looked = run([WHY, b"--at", name, b"batch.vcode"])
        if looked and not is_shown(looked.stdout + looked.stderr):
            fault([WHY, b"--at", name], looked.stdout + looked.stderr)
        if is_text(name) and b"/" not in name:
            as_file(name)


def is_text(name: bytes) -> bool:
    try:
        return bool(name.decode())
    except UnicodeDecodeError:
        return False


def as_file(name: bytes) -> None:
    """A file of this name with a bad word: what each program says of it begins with the name as it is shown."""
    os.makedirs("packs", exist_ok=True)
    Path(os.fsdecode(name)).write_bytes(b"FUNC MAIN\nBAD\n")
    cases: list[tuple[Words, str]] = [
        ([PACK, b"--out", b"packs", b"--", name], f"{shown(name)}:1: B1 BAD_JOB_LINE\n"),
        ([KINDS, b"--", name], f"{shown(name)}:2: S1 BAD_WORD\n"),
        ([SPLIT, b"--beside", b"--", name], f"vjobs-split: {shown(name)}: not a manifest\n"),
    ]
    for words, wanted in cases:
        ran = run(words)
        if ran and ran.stderr.decode() != wanted:
            fault(words, ran.stderr)
    os.remove(name)


def with_odd_texts() -> None:
    """What is printed of texts with odd bytes."""
    for what, text in ODD_TEXTS.items():
        Path("odd.vcode").write_bytes(text)
        filled = run([KINDS, "--batch", "-"], re.sub(rb"(?<=^SIGNATURES\n).*?(?=^CODE\n)", b"", text, flags=re.M | re.S))
        if filled and (filled.returncode not in (0, 1) or not is_shown(filled.stderr)):
            fault(f"{what}, vjobs-kinds --batch", f"exit {filled.returncode}, {filled.stderr!r}")
        for words in [[VJOBS, "odd.vcode"], *([WHY, *way, "odd.vcode"] for way in LOOKS)]:
            ran = run(words)
            if ran and (ran.returncode not in (0, 1, 2) or not is_shown(ran.stdout + ran.stderr)):
                fault(f"{what}, {words[1:]}", f"exit {ran.returncode}, {ran.stderr!r}")
            if ran and "--html" in words and re.search(rb"<script>alert|<img|<!--", ran.stdout):
                fault(f"{what}, {words[1:]}", "it is part of the page")


LOOKS: list[list[str]] = [[], ["--json"], ["--html", "-"], ["--folded"], ["--profile", "--all"], ["--steps"]]


# ---- files

def with_odd_files() -> None:
    """Pipes, links to them, folders and devices: vjobs alone opens them."""
    os.mkfifo("pipe")
    os.symlink("pipe", "link")
    os.mkdir("folder")
    os.makedirs("kept", exist_ok=True)
    for name in ("pipe", "link", "folder", "/dev/null", "/dev/zero", "/dev/tty"):
        for words in ([PACK, "--out", "kept", name], [PACK, "--out", "kept", "--files-from", name],
                      [SPLIT, "--out", "given", name], [KINDS, name], [KINDS, "--batch", name], [WHY, name]):
            ran = run(words)
            if ran and (ran.returncode not in (1, 3) or b"regular file" not in ran.stderr or ran.stdout):
                fault(words, f"exit {ran.returncode}, {ran.stderr!r}")
    if os.listdir("kept") or os.path.exists("given"):
        fault("odd files", "something was written")


def without_room() -> None:
    """An output that takes nothing is exit 3."""
    Path("batch.vcode").write_bytes(job(["FUNC MAIN", "CONST INT 1", "POP 1 0", "RET"], limits="9 9 9 9"))
    calls = [[VJOBS, "batch.vcode"], [KINDS, "-"], [KINDS, "--batch", "batch.vcode"],
             *([WHY, *way, "batch.vcode"] for way in LOOKS)]
    with open("/dev/full", "wb") as full:
        for words in [*calls, *([program, "--help"] for program in PROGRAMS)]:
            ran = run(words, b"FUNC MAIN\nRET\n", stdout=full)
            if ran and ran.returncode != 3:
                fault([*words, "> /dev/full"], f"exit {ran.returncode}")


# ---- memory

def contents(folder: str) -> dict[str, bytes]:
    """The bytes of each file in a folder, but for the parts that a stop may leave."""
    return {path.name: path.read_bytes() for path in Path(folder).glob("*") if path.suffix != ".part"}


def each_refused(words: Words, given: bytes, name: str) -> None:
    """Refuses each allocation of a program that writes into the folder `out` in turn: then it says that it is out of
    memory, or does what it does else, and each file is whole or not there."""
    library = refused.built(Path("."))
    if not library:
        print("attacks: skipped: no allocation is refused, since there is no C compiler")
        return
    environment = {**os.environ, "LD_PRELOAD": str(library.resolve())}

    def tried(**variables: str) -> tuple[subprocess.CompletedProcess[bytes] | None, dict[str, bytes]]:
        shutil.rmtree("out", ignore_errors=True)
        if name == "vjobs-pack":
            os.mkdir("out")
        ran = run(words, given, env={**environment, **variables})
        return ran, contents("out")

    ran, whole = tried(COUNTED="1")
    count = int(refused.COUNT.search(ran.stderr)[1])
    usual = ran.returncode, refused.COUNT.sub(b"", ran.stderr)
    for number in range(1, count + 1):
        ran, found = tried(REFUSED=str(number))
        is_told = ran.returncode == 3 and ran.stderr.endswith(b"%s: out of memory\n" % name.encode())
        is_whole = all(whole.get(file) == data for file, data in found.items())
        if not is_whole or not (is_told or ((ran.returncode, ran.stderr) == usual and found == whole)):
            fault(f"{words}, allocation {number}", f"exit {ran.returncode}, {ran.stderr[-200:]!r}, {list(found)}")
    print(f"{name}: {count} allocations refused", flush=True)


def without_memory() -> None:
    """Each allocation of vjobs-pack and of vjobs-split is refused in turn, for each way of calling."""
    names = []
    for number in range(3):
        Path(f"{number}.vcode").write_bytes(job(["FUNC MAIN", f"CONST INT {number}", "POP 1 0", "RET"], limits="9 9 9 9"))
        names.append(f"{number}.vcode")
    Path("second.vcode").write_bytes(b"BATCH 2\n" + job(["FUNC MAIN", "RET"]))
    Path("two.vcode").write_bytes(job(["FUNC MAIN", "RET"]) * 2)
    files = [*names, "second.vcode", "two.vcode", "none", "."]
    words: Words = [PACK, "--out", "out", "--most-entries", "9"]
    each_refused([*words, "--", *files], b"", "vjobs-pack")
    each_refused([*words, "--files-from", "-"], "\0".join(files).encode() + b"\0a\xff", "vjobs-pack")
    ways: list[Words] = [[PACK, "--help"], [PACK, "--bad"], [PACK, b"a\xff"], [PACK, "--out", "none", "x"]]
    for words in ways:
        each_refused(words, b"", "vjobs-pack")
    os.makedirs("packed")
    run([PACK, "--out", "packed", "--", *names])
    report = run([VJOBS, "--workers", "1", "packed/batch-1.vcode"]).stdout
    cut = report[: len(report) * 2 // 3]
    for given in (report, cut, report.replace(b"JOB 2", b"JOB 3")):
        each_refused([SPLIT, "--out", "out", "packed/batch-1.manifest"], given, "vjobs-split")
    ways = [[SPLIT, "--help"], [SPLIT, "--bad"], [SPLIT, b"a\xff"], [SPLIT, "--beside", "0.vcode"]]
    for words in ways:
        each_refused(words, b"", "vjobs-split")


def on_lanes_with_little_memory() -> None:
    """Lanes need no more address space than one thread, whatever of it is left for the results."""
    vector = ["CONST INT 100000", "CONST INT 1", "CONST INT 20000", "MAKE_SEGDES", "INDEX"]
    one = job(["FUNC MAIN", *vector, "RET"], ["MAIN () -> (INT)"], "60000 16 4 100")
    Path("lanes.vcode").write_bytes(one * 40)
    count = 0
    for limit in range(3_000_000, 16_000_000, 100_000):
        words = ["prlimit", f"--as={limit}", VJOBS, "--region", "100000"]
        alone = run([*words, "--workers", "1", "lanes.vcode"])
        if not alone or alone.returncode:
            continue
        count += 1
        for lanes in ("2", "16"):
            ran = run([*words, "--lanes", lanes, "lanes.vcode"])
            if not ran or (ran.returncode, ran.stdout) != (0, alone.stdout):
                fault(f"{lanes} lanes in {limit} bytes", ran and ran.stderr)
    if not count:
        fault("lanes with little memory", "one thread never had enough")
    print(f"lanes: {count} limits that are enough for one thread", flush=True)


# ---- costs

def cost(words: Words) -> float:
    """What a run takes: instructions of the processor if they can be counted, and else its seconds."""
    if not shutil.which("valgrind"):
        times = []
        for _ in range(3):
            begun = time.monotonic()
            subprocess.run(words, stdout=subprocess.DEVNULL, stderr=subprocess.DEVNULL, check=False)
            times.append(time.monotonic() - begun)
        return min(times)
    counted = ["valgrind", "--tool=callgrind", "--callgrind-out-file=/dev/null", *words]
    ran = subprocess.run(counted, stdout=subprocess.DEVNULL, stderr=subprocess.PIPE, check=False)
    return int(re.search(rb"Collected : (\d+)", ran.stderr)[1])


def memory_of(words: Words) -> int:
    """The most bytes of memory that a run had. What starts it counts too, so that is a small program of its own."""
    ran = subprocess.run([sys.executable, "-I", "-S", "-c", STARTER, *words], stdout=subprocess.PIPE, check=True)
    return int(ran.stdout) * 1024


def check_dear(texts: Iterable[tuple[str, bytes]], size: int) -> None:
    """The check of each text, beside that of plain code of this size."""
    margin = 1 if shutil.which("valgrind") else MARGIN
    words = [VJOBS, "--workers", "1", "--region", "100", "dear.vcode"]
    Path("dear.vcode").write_bytes(plain(1))
    nothing = cost(words)
    Path("dear.vcode").write_bytes(plain(size))
    usual = (cost(words) - nothing) / size
    for what, text in texts:
        Path("dear.vcode").write_bytes(text)
        times = (cost(words) - nothing) / len(text) / usual
        print(f"{what}, {len(text)} bytes: {times:.1f} times plain code", flush=True)
        if times > MOST_TIMES * margin:
            fault(f"{what}, {len(text)} bytes", f"{times:.1f} times plain code")
        if memory_of(words) > PROGRAM_BYTES + MOST_MEMORY * len(text):
            fault(f"{what}, {len(text)} bytes", f"more than {MOST_MEMORY} bytes of memory for each")


def with_dear_texts() -> None:
    """Texts that are dear to check."""
    check_dear([*dear_texts(FEW), *other_texts(FEW)], FEW)
    check_dear(dear_texts(MANY), MANY)


def with_dear_looks() -> None:
    """Looks at jobs, beside their runs."""
    Path("dear.vcode").write_bytes(every_call())
    usual = cost([VJOBS, "--workers", "1", "dear.vcode"])
    for way in (["--json"], ["--html", "-"], ["--folded"]):
        times = cost([WHY, *way, "dear.vcode"]) / usual
        print(f"calls of many functions, {way[0]}: {times:.1f} times vjobs", flush=True)
        if times > MOST_LOOK:
            fault(f"calls of many functions, {way[0]}", f"{times:.1f} times vjobs")
    ways: list[list[str]] = [[], ["--no-least"], ["--json"]]
    for what, text in SHORT_RUNS.items():
        Path("dear.vcode").write_bytes(text)
        for way in ways:
            begun = time.monotonic()
            ran = run([WHY, *way, "dear.vcode"])
            spent = time.monotonic() - begun
            if ran and (ran.returncode or spent > MOST_SHORT):
                fault(f"{what} {way}", f"exit {ran.returncode}, {spent:.1f} s")


def main() -> None:
    cases = [with_names, with_odd_texts, with_odd_files, without_room]
    slow = [without_memory, on_lanes_with_little_memory, with_dear_texts, with_dear_looks]
    for case in cases if QUICK else [*cases, *slow]:
        with tempfile.TemporaryDirectory() as folder:
            os.chdir(folder)
            case()
            os.chdir("/")
    print(f"attacks: {len(wrong)} faults")
    sys.exit(bool(wrong))


main()
