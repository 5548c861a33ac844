"""Tests vjobs-kinds: python3 tests/kinds/run.py [PROGRAM], which .ci/kinds calls

PROGRAM is the path of vjobs-kinds; without it the program that the gate built is taken, and if there is none, a line
says that the tests are skipped. They read its command line, the bounds of what it reads, and a batch that it fills in:
`notes` beside this file has why three jobs of `batch.vcode` have no signatures. models/attacks.py has odd names, files
and refused allocations."""
from __future__ import annotations

import subprocess
import sys
import tempfile
from collections.abc import Iterator
from pathlib import Path

HERE = Path(__file__).resolve().parent
GATE = HERE.parents[1] / "crates" / "vjobs_kinds" / "out" / "vjobs_kinds"
USAGE = "Usage: vjobs-kinds [OPTIONS] <FILE>\n"
MORE = "\nFor more information, try '--help'.\n"
CODE = "FUNC MAIN\nCONST INT 1\nRET\n"
SIGNATURES = "MAIN () -> (INT)\n"
MOST_BYTES, MOST_ENTRIES = 16_777_216, 4_294_967_295
# What a run prints on standard output and on standard error, and its exit.
Ended = tuple[str, str, int]


def refused(text: str, end: str = f"\n{USAGE}{MORE}") -> Ended:
    return "", f"error: {text}\n{end}", 2


def too_long(most: int) -> Ended:
    return "", f"-: more than {most} bytes\n", 1


def too_large(option: str, most: int, value: str) -> Ended:
    return refused(f"invalid value '{value}' for '{option} <N>': {value} is not in 0..={most}", MORE)


# Arguments, standard input, and how the run ends.
CASES: list[tuple[list[str], str, Ended]] = [
    (["-"], CODE, (SIGNATURES, "", 0)),
    (["--", "--help\x1b"], "", (SIGNATURES, "", 0)),
    (["FILE", "\x1bc\n\x07\u202e"], "", refused(r"unexpected argument '\u{1b}c\n\u{7}\u{202e}' found")),
    (["--batch", "--batch", "-"], "", refused("the argument '--batch' cannot be used multiple times")),
    (["--most-bytes", "0", "-"], CODE, too_long(0)),
    ([f"--most-bytes={len(CODE) - 1}", "-"], CODE, too_long(len(CODE) - 1)),
    ([f"--most-bytes={len(CODE)}", f"--most-entries={MOST_ENTRIES}", "-"], CODE, (SIGNATURES, "", 0)),
    (["-"], CODE + " " * (MOST_BYTES - len(CODE)), (SIGNATURES, "", 0)),
    (["-"], CODE + " " * (MOST_BYTES - len(CODE) + 1), too_long(MOST_BYTES)),
    (["--most-bytes", str(MOST_BYTES + 1), "-"], CODE, too_large("--most-bytes", MOST_BYTES, str(MOST_BYTES + 1))),
    (["--most-entries", str(MOST_ENTRIES + 1), "-"], CODE,
     too_large("--most-entries", MOST_ENTRIES, str(MOST_ENTRIES + 1))),
]


def text_of(name: str) -> str:
    return (HERE / name).read_bytes().decode()


def ended(program: Path, words: list[str], text: str, folder: str) -> Ended:
    ran = subprocess.run([program, *words], input=text.encode(), capture_output=True, cwd=folder, timeout=60)
    return ran.stdout.decode(), ran.stderr.decode(), ran.returncode


def faults(program: Path, folder: str) -> Iterator[str]:
    (Path(folder) / "--help\x1b").write_text(CODE)
    filled = (["--batch", "-"], text_of("batch.vcode"), (text_of("filled.vcode"), text_of("notes"), 1))
    for words, text, wanted in [*CASES, filled]:
        found = ended(program, words, text, folder)
        if found != wanted:
            yield f"{words} of {text[:60]!r}:\n{found}\nand not\n{wanted}"
    shown, said, status = ended(program, ["--help"], "", folder)
    defaults = (f"[default: {MOST_BYTES}]", "[default: 67108864]")
    if (said, status) != ("", 0) or not all(it in shown for it in (USAGE, *defaults)):
        yield f"--help: exit {status}, {said!r}, {shown!r}"


def main() -> None:
    program = Path(sys.argv[1]).resolve() if len(sys.argv) > 1 else GATE
    if not program.exists():
        print("kinds: skipped: there is no crates/vjobs_kinds/out/vjobs_kinds, which make gate builds")
        return
    with tempfile.TemporaryDirectory() as folder:
        found = list(faults(program, folder))
    print(*found, f"kinds: {len(CASES) + 2} runs, {len(found)} differ", sep="\n")
    sys.exit(bool(found))


if __name__ == "__main__":
    main()
