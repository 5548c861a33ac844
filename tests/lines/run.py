"""Tests the command line of vjobs: python3 tests/lines/run.py [PROGRAM], which .ci/lines calls

PROGRAM is the path of vjobs; without it the program that the gate built is taken, and if there is none, a line says
that the tests are skipped. They read which lines it takes and refuses, and by what text, that each example has one
report, how many threads run jobs, the texts of faults, and what it says of batches that are too long or have no end.
Each allocation of a call is refused in turn, if there is a C compiler. models/attacks.py has odd names at each place
where a message quotes them."""
from __future__ import annotations

import subprocess
import sys
import tempfile
import time
from collections.abc import Iterator
from pathlib import Path

HERE = Path(__file__).resolve().parent
sys.path.insert(0, str(HERE.parent / "files"))
import refused as refusals  # noqa: E402

GATE = HERE.parents[1] / "crates" / "vjobs" / "out" / "vjobs"
USAGE = "\nUsage: vjobs [OPTIONS] <FILE>\n"
MORE = "\nFor more information, try '--help'.\n"
ODD, SHOWN = "\x1b[2J\x07\nerror: x\u202e\\", r"\u{1b}[2J\u{7}\nerror: x\u{202e}\\"
MOST_WORDS, MOST_BYTES = 1_048_576, 16_777_216
SECONDS = 60
# What a run prints on standard output and on standard error, and its exit.
Ended = tuple[str, str, int]


def job(words: int, lines: str = "RET\n", instructions: int = 9) -> str:
    """A job of so many words, whose function MAIN has these lines."""
    return f"JOB a {words} 9 9 {instructions}\nSIGNATURES\nMAIN () -> ()\nCODE\nFUNC MAIN\n{lines}END\n"


SMALL = job(1)
REPORT: Ended = ("JOB 1 a RETURNED\nUSED 1 instructions 0 words\nEND 1 jobs 0 refused\n", "", 0)
PAST_REGION: Ended = ("JOB 1 a REFUSED line 1 B3 WORDS_PAST_REGION\nEND 1 jobs 1 refused\n", "", 1)
EMPTY: Ended = ("END 0 jobs 0 refused\n", "", 0)
NO_SCHEDULE: Ended = ("", "vjobs: bad schedule\n", 2)
NOT_READ: Ended = ("", "vjobs: reading failed\n", 3)


def too_large(line: int) -> Ended:
    return f"BATCH line {line} B4 TOO_LARGE\n", "", 2


def unexpected(shown: str) -> Ended:
    return "", f"error: unexpected argument '{shown}' found\n{USAGE}{MORE}", 2


# Arguments, standard input, and how the run ends.
CASES: list[tuple[list[str], str, Ended]] = [
    (["-"], job(MOST_WORDS), REPORT),
    (["--region", "64", "-"], job(64), REPORT),
    (["--region=64", "-"], job(65), PAST_REGION),
    (["--region", "1", "-"], job(1), REPORT),
    (["--region", str(MOST_WORDS), "-"], job(MOST_WORDS), REPORT),
    (["batch.vcode"], "", REPORT),
    (["--", "-a\x1b\n\\"], "", REPORT),
    (["--workers", "2", "--lanes", "2", "-"], SMALL, REPORT),
    (["--schedule", "01,b1,f64", "-"], SMALL, REPORT),
    (["--schedule", ",".join(["1"] * 60_000), "-"], SMALL, REPORT),
    *[(["--schedule", list_, "none"], "", NO_SCHEDULE)
      for list_ in ("", "0", "65", "1,", ",1", "b,1", "1 ,2", "x1", "1,x", "001", "bf1")],
    *[(["-"], it * MOST_BYTES, EMPTY) for it in " \n"],
    (["-"], " " * (MOST_BYTES + 1), too_large(1)),
    (["-"], "\n" * (MOST_BYTES + 1), too_large(MOST_BYTES + 1)),
    # A job and blanks after it, up to the most bytes of a batch and past them.
    (["-"], SMALL + " " * (MOST_BYTES - len(SMALL)), REPORT),
    *[(["-"], SMALL + " " * (MOST_BYTES - len(SMALL) + more), too_large(8)) for more in (1, 10_000)],
    (["none"], "", NOT_READ),
    (["."], "", NOT_READ),
    (["--version"], "", ("vjobs 0.1.0\n", "", 0)),
    ([f"--region={ODD}", "FILE"], "",
     ("", f"error: invalid value '{SHOWN}' for '--region <N>': invalid digit found in string\n{MORE}", 2)),
    (["FILE", ODD], "", unexpected(SHOWN)),
]

# Words with odd characters, which stand at each place that a message quotes.
ODDS = (ODD, "\x1b[2J", "\x07", "a\u202eb", "\x9b2J", "x\r\x1b")

# Lines that are refused. No file is read.
REFUSED: list[list[str]] = [
    [],
    *[words for odd in ODDS for words in (
        [f"--{odd}", "FILE"], [f"-{odd}", "FILE"], [f"--workers={odd}", "FILE"], ["--region", odd], ["FILE", odd],
        ["--workers", odd])],
    *[["--workers", it, "FILE"] for it in ("17", "0", "two", "-1", "")],
    *[["--lanes", it, "FILE"] for it in ("17", "0", "two")],
    *[["--region", it, "FILE"] for it in ("0", "1048577", "6x")],
    *[["--lanes", it, "--schedule", "1", "FILE"] for it in ("1", "2")],
    ["--region", "64", "--region"],
    ["--region", "64", "--region", "64", "FILE"],
    ["FILE", "FILE", "FILE"],
    ["--other", "FILE"],
]

# What help has.
HELP = ("Usage: vjobs [OPTIONS] <FILE>\n", "--region <N>", "--workers <W>", "--lanes <K>", "--schedule <LIST>",
        "[default: 1048576]", "[default: 4]", "[default: 1]", "  3  reading, writing or memory failed\n")

# Options, and the threads that run long jobs at the same time: the workers beside the calling thread, or the lanes.
THREADS: list[tuple[list[str], int]] = [
    ([], 5), (["--workers", "1"], 1), (["--workers", "2"], 3), (["--workers", "16"], 17),
    (["--lanes", "2"], 2), (["--lanes", "16"], 16), (["--lanes", "2", "--workers", "16"], 2), (["--schedule", "1"], 1),
]

# Options by which each example has the same report.
WAYS: list[list[str]] = [
    *[["--workers", it] for it in ("1", "2", "3", "8", "16")], *[["--lanes", it] for it in ("2", "3", "16")],
    *[["--schedule", it] for it in ("1,2,3", "b5,1,f5", "12,11,10")],
]
EXAMPLES = sorted((HERE.parents[1] / "examples").glob("*.report"))


def ended(program: Path, words: list[str], text: str, folder: str, name: str = "vjobs") -> Ended:
    ran = subprocess.run([name, *words], executable=program, input=text.encode(), capture_output=True, cwd=folder,
                         timeout=SECONDS)
    return ran.stdout.decode(), ran.stderr.decode(), ran.returncode


def lines(program: Path, folder: str) -> Iterator[str]:
    for words, text, wanted in CASES:
        found = ended(program, words, text, folder)
        if found != wanted:
            yield f"{str(words)[:200]} of {text[:60]!r}:\n{found}\nand not\n{wanted}"
    for words in REFUSED:
        out, errors, status = ended(program, words, SMALL, folder, words[-1] if words else "vjobs")
        shown = errors.replace(MORE[1:], "")
        if (out, status) != ("", 2) or not errors.startswith("error: ") or shown == errors or not is_plain(errors):
            yield f"{words}: exit {status}, {out!r}, {errors!r}"
    out, errors, status = ended(program, [f"--{ODD}", "FILE"], "", folder)
    if not errors.startswith(f"error: unexpected argument '--{SHOWN}' found\n") or not errors.endswith(USAGE + MORE):
        yield f"--{ODD}: {errors!r}"
    # It names itself as it is known, whatever it was called.
    out, errors, status = ended(program, ["--help"], "", folder, "a\x1bb")
    if (errors, status) != ("", 0) or not all(it in out for it in HELP) or not is_plain(out):
        yield f"--help: exit {status}, {errors!r}, {out!r}"
    if not out.endswith("  vjobs --lanes 4 batch.vcode\n"):
        yield f"--help ends with {out[-60:]!r}"


def reports(program: Path, folder: str) -> Iterator[str]:
    """Each number of workers and of lanes and each schedule gives the same report."""
    for words in WAYS:
        for report in EXAMPLES:
            found, errors, _ = ended(program, [*words, str(report.with_suffix(".vcode"))], "", folder)
            if (found, errors) != (report.read_text(), ""):
                yield f"{words} of {report.stem}: {errors!r}, {found[:200]!r}"


def is_plain(text: str) -> bool:
    """Whether each character is printed as it is."""
    return all(it == "\n" or it.isprintable() for it in text)


def endless(program: Path, _folder: str) -> Iterator[str]:
    """A batch that has no end is read no further than a batch may go."""
    with subprocess.Popen([program, "-"], stdin=subprocess.PIPE, stdout=subprocess.PIPE, text=True) as running:
        assert running.stdin and running.stdout
        try:
            running.stdin.write("\n\n\n")
            for _ in range(64):
                running.stdin.write(" " * (MOST_BYTES // 16))
            yield "a batch without an end: four times as much was read as a batch may have"
        except BrokenPipeError:
            pass
        out, status = running.stdout.read(), running.wait(SECONDS)
    if (out, "", status) != too_large(4):
        yield f"a batch without an end: exit {status}, {out!r}"


def writing(program: Path, folder: str) -> Iterator[str]:
    """A full disk, for the report and for help."""
    for words in (["batch.vcode"], ["--help"], ["--version"]):
        with open("/dev/full", "wb") as full:
            ran = subprocess.run([program, *words], stdout=full, stderr=subprocess.PIPE, cwd=folder, timeout=SECONDS)
        if (ran.stderr, ran.returncode) != (b"vjobs: writing failed\n", 3):
            yield f"{words} > /dev/full: exit {ran.returncode}, {ran.stderr!r}"


def most_threads(program: Path, words: list[str], wanted: int, folder: str) -> int:
    """How many threads a run has at most, until there are as many as are wanted and a moment after."""
    quiet, most = {"stdout": subprocess.DEVNULL, "cwd": folder}, 0
    with subprocess.Popen([program, *words, "long.vcode"], **quiet) as running:  # type: ignore[call-overload]
        end = time.monotonic() + SECONDS
        while time.monotonic() < end and running.poll() is None:
            most = max(most, len(list(Path(f"/proc/{running.pid}/task").glob("*"))))
            if most >= wanted:
                end = min(end, time.monotonic() + 0.2)
            time.sleep(0.005)
        running.kill()
    return most


def threads(program: Path, folder: str) -> Iterator[str]:
    if not Path("/proc/self/task").is_dir():
        print("lines: skipped: threads, as there is no /proc")
        return
    for words, wanted in THREADS:
        found = most_threads(program, words, wanted, folder)
        if found != wanted:
            yield f"{words}: {found} threads, and not {wanted}"


def memory(program: Path, folder: str) -> Iterator[str]:
    """Each allocation is refused in turn."""
    library = refusals.built(Path(folder))
    if not library:
        print("lines: skipped: refused allocations, as there is no C compiler")
        return
    batch = f"{folder}/batch.vcode"
    for words in (["--schedule", "1,b1", batch], ["--lanes", "two", batch], ["--help"]):
        yield from refusals.wrong_calls(library, [program, *words], b"vjobs: out of memory\n")


def long_jobs() -> str:
    """More jobs than threads may run, each of which divides vectors until it has no calls left: for seconds."""
    divide = "COPY 1 0\nCOPY 1 0\n/ INT\nPOP 1 0\n" * 64
    return "".join(f"""\
JOB a 41000 16 1024 1000000
SIGNATURES
MAIN () -> (INT)
f (INT) -> (INT)
CODE
FUNC MAIN
CONST INT 7
CONST INT 10000
MAKE_SEGDES
DIST INT
CALL f
RET
FUNC f
{divide}CALL f
RET
END
""" for _ in range(20))


def main() -> None:
    program = Path(sys.argv[1]).resolve() if len(sys.argv) > 1 else GATE
    if not program.exists():
        print("lines: skipped: there is no crates/vjobs/out/vjobs, which make gate builds")
        return
    with tempfile.TemporaryDirectory() as folder:
        for name in ("batch.vcode", "-a\x1b\n\\"):
            (Path(folder) / name).write_text(SMALL)
        (Path(folder) / "long.vcode").write_text(long_jobs())
        found = [it for part in (lines, reports, endless, writing, threads, memory) for it in part(program, folder)]
    runs = len(CASES) + len(REFUSED) + len(THREADS) + len(WAYS) * len(EXAMPLES) + 9
    print(*found, f"lines: {runs} runs, {len(found)} differ", sep="\n")
    sys.exit(bool(found))


if __name__ == "__main__":
    main()
