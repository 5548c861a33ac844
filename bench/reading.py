#!/usr/bin/env python3
"""Times bin/vjobs on batches of 16 MB that run little: nearly all of the time is reading.

    python3 bench/reading.py [PROGRAM [ARGUMENT ..]]

Run it at the top of the repository, after `make`. If another program of the same command line is named, it reads each
batch too, in turn with bin/vjobs, and must print the same. The least processor times of several runs count. A ratio
below 1 says that bin/vjobs is faster.
"""
import os
import subprocess
import sys
import tempfile
from collections.abc import Iterator
from pathlib import Path

TOP = Path(__file__).resolve().parent.parent
RUNS = 5
LENGTH = 16_000_000
ELEMENTS = 65_536
# What one function of ordinary code repeats: motions, arithmetic, a choice, comments.
LINES = [
    "COPY 1 0", "CONST INT 17", "+ INT", "COPY 2 1", "* INT", "CPOP 1 1", "- INT", "COPY 1 0", "CONST INT -3", "< INT",
    "IF", "CONST INT 5", "XOR INT", "ELSE { not below }", "NOT INT", "ENDIF", "CPOP 1 1", "POP 1 0", "COPY 1 1", "OR INT",
]


def job(signatures: str, code: str, words: int = 1_000) -> str:
    return f"JOB long {words} 16 4 100000\nSIGNATURES\n{signatures}CODE\n{code}END\n"


def ordinary_code(end: str = "") -> str:
    """Functions of at most some thousand lines, of which none is called."""
    body = "\n".join(LINES * 40) + "\n"
    count = min(500, LENGTH // len(body))
    rounds = LENGTH // (len(body) * count)
    names = [f"f{number}" for number in range(count)]
    signatures = "MAIN () -> ()\n" + "".join(f"{name} (INT INT) -> (INT INT)\n" for name in names)
    code = "FUNC MAIN\nRET\n" + "".join(f"FUNC {name}\n{body * rounds}RET\n" for name in names)
    return job(signatures, code + end)


def constants(end: str = "") -> str:
    """One function that pushes a long constant and adds it to itself, again and again."""
    constant = "CONST INT (" + " ".join(str(number) for number in range(ELEMENTS)) + ")\n"
    times = LENGTH // len(constant)
    code = "FUNC MAIN\n" + constant + (constant + "+ INT\n") * (times - 1)
    return job("MAIN () -> (INT)\n", code + end + "RET\n", 3 * ELEMENTS)


def filled(line: str) -> str:
    """A good job of little code that has this line again and again."""
    return job("MAIN () -> ()\n", "FUNC MAIN\n" + line * (LENGTH // len(line)) + "RET\n")


def loads() -> Iterator[tuple[str, str]]:
    yield "code", ordinary_code()
    yield "code, the batch refused in its last line", ordinary_code() + "END\n"
    yield "code, the job refused in its last line", ordinary_code("+ INT\n")
    yield "constants", constants()
    yield "constants, the batch refused in its last line", constants() + "END\n"
    yield "constants, the job refused in its last line", constants("+ INT\n")
    yield "LFs between jobs", "\n" * LENGTH
    yield "LFs in the code", filled("\n")
    yield "comments", filled("{ a line of a comment, and nothing else }\n")
    yield "one long line", "JOB " + "x" * LENGTH + "\n"


def run(program: list[str], file: str) -> tuple[float, bytes]:
    """The processor seconds of a run, and its report."""
    with tempfile.TemporaryFile() as report:
        running = subprocess.Popen([*program, file], stdin=subprocess.DEVNULL, stdout=report, stderr=subprocess.DEVNULL)
        _, status, used = os.wait4(running.pid, 0)
        running.returncode = os.waitstatus_to_exitcode(status)
        report.seek(0)
        return used.ru_utime + used.ru_stime, report.read()


def measured(programs: list[list[str]], text: str) -> tuple[list[float], bool]:
    """The least seconds of each program, and whether all reports are the same."""
    with tempfile.NamedTemporaryFile("w", suffix=".vcode") as file:
        file.write(text)
        file.flush()
        rounds = [[run(program, file.name) for program in programs] for _ in range(RUNS)]
    runs = list(zip(*rounds))
    same = all(report == rounds[0][0][1] for each in runs for _, report in each)
    return [min(seconds for seconds, _ in each) for each in runs], same


def main() -> None:
    programs = [[str(TOP / "bin" / "vjobs")], *([sys.argv[1:]] if sys.argv[1:] else [])]
    for name, text in loads():
        seconds, same = measured(programs, text)
        columns = [f"{it:6.3f} s" for it in seconds]
        ratio = f"  {seconds[0] / seconds[1]:5.2f}" if len(programs) > 1 else ""
        print(f"{name:48}{'  '.join(columns)}{ratio}{'' if same else '  the reports differ'}", flush=True)


if __name__ == "__main__":
    main()
