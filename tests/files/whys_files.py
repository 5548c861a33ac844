"""Files and names with which vjobs-why has to be careful: what it prints of them, and how it ends."""
from __future__ import annotations

import os
import resource
import signal
import subprocess
import tempfile
from collections.abc import Iterator
from pathlib import Path
from typing import Any

from refused import built, wrong_calls

TOP = Path(__file__).resolve().parents[2]
BATCH = TOP / "examples" / "four_ends.vcode"
SECONDS = 60
HINT = "\n\nFor more information, try '--help'.\n"
USAGE = "\n\nUsage: vjobs-why [OPTIONS] <FILE>" + HINT
# Arguments, what is printed on standard error, and the exit. What a terminal would take for more than text is escaped.
NAMES = [
    ([b"/none\x1b[2J\a\n\xe2\x80\xae"],
     "vjobs-why: /none\\u{1b}[2J\\u{7}\\n\\u{202e}: No such file or directory (os error 2)\n", 3),
    ([b"--job", b"\x1b]0;t\a", b"x"],
     "error: invalid value '\\u{1b}]0;t\\u{7}' for '--job <K>': invalid digit found in string"
     + HINT, 2),
    ([b"x", b"bad\xff"], "error: argument 2 is no UTF-8: bad\\xff" + USAGE, 2),
    # The first that is none is named.
    ([b"-", b"\x1b[31m\xe2\x82", b"\xff"], "error: argument 2 is no UTF-8: \\u{1b}[31m\\xe2\\x82" + USAGE, 2),
    # A long one, and an empty one.
    ([b"/none/" * 100], "vjobs-why: " + "/none/" * 100 + ": No such file or directory (os error 2)\n", 3),
    ([b""], "vjobs-why: : No such file or directory (os error 2)\n", 3),
    ([b"docs"], "vjobs-why: docs: it is no regular file\n", 3),
    ([b"/dev/null"], "vjobs-why: /dev/null: it is no regular file\n", 3),
    ([b"--html", b"/dev/full", bytes(BATCH)], "vjobs-why: /dev/full: it is no regular file\n", 3),
    ([b"--html", b"no/such", bytes(BATCH)], "vjobs-why: no/such.part: No such file or directory (os error 2)\n", 3),
]
FULL = "vjobs-why: standard output: No space left on device (os error 28)\n"
WAYS: list[list[str]] = [[], ["--json"], ["--html", "-"], ["--folded"], ["--profile"], ["--steps"], ["--help"]]


def run(program: Path | str, words: list, **how: Any) -> tuple[int, str]:
    how = {"stdout": subprocess.PIPE, "stderr": subprocess.PIPE, "cwd": TOP, "timeout": SECONDS, **how}
    ran = subprocess.run([program, *words], check=False, **how)
    return ran.returncode, ran.stderr.decode(errors="replace")


def differ(words: list, found: object, wanted: object) -> Iterator[str]:
    if found != wanted:
        yield f"{words}: exit and text are {found}, and not {wanted}"


def wrong_names(program: Path | str) -> Iterator[str]:
    """What is wrong with the messages that name a file or an argument."""
    for words, text, status in NAMES:
        yield from differ(words, run(program, words), (status, text))


def wrong_outputs(program: Path | str) -> Iterator[str]:
    """What is wrong if there is no room for what is printed."""
    with open("/dev/full", "wb") as full:
        for way in WAYS:
            yield from differ([*way, "> /dev/full"], run(program, [*way, BATCH], stdout=full), (3, FULL))


def little_room() -> None:
    """Lets a program write files of 4,096 bytes, and no longer ones."""
    signal.signal(signal.SIGXFSZ, signal.SIG_IGN)
    resource.setrlimit(resource.RLIMIT_FSIZE, (4096, 4096))


def wrong_pages(program: Path | str, folder: Path) -> Iterator[str]:
    """What is wrong with the file of a page: it has all of the page, or what it had before, and nothing else is left."""
    pipe, page = folder / "pipe", folder / "page.html"
    os.mkfifo(pipe)
    text = f"vjobs-why: {pipe}: it is no regular file\n"
    yield from differ([pipe], run(program, [pipe]), (3, text))
    yield from differ(["--html", pipe], run(program, ["--html", pipe, BATCH]), (3, text))
    page.write_text("before")
    words = ["--html", page, BATCH]
    yield from differ(words, run(program, words, preexec_fn=little_room),
                      (3, f"vjobs-why: {page}: File too large (os error 27)\n"))
    if page.read_text() != "before" or len(list(folder.iterdir())) != 2:
        yield f"a page that couldn't be written left {sorted(folder.iterdir())}"
    whole = subprocess.run([program, "--html", "-", BATCH], check=True, capture_output=True, timeout=SECONDS).stdout
    yield from differ(words, run(program, words), (0, ""))
    if page.read_bytes() != whole or len(list(folder.iterdir())) != 2:
        yield f"a page in a file isn't that of standard output, or left {sorted(folder.iterdir())}"


def wrong_refusals(program: Path | str, folder: Path) -> Iterator[str]:
    """What is wrong if an allocation is refused, for each way of calling."""
    library = built(folder)
    if not library:
        print("whys: skipped: no allocation is refused, since there is no C compiler")
        return
    refused, text = folder / "refusals.vcode", b"vjobs-why: out of memory\n"
    refused.write_bytes((TOP / "crates" / "vjobs_why" / "stdin").read_bytes())
    names: list[Any] = ["--none", b"bad\xff", "none"]
    for name in names:
        yield from wrong_calls(library, [program, name], text)
    yield from wrong_calls(library, [program, "--html", folder / "out.html", BATCH], text, side_by_side=False)
    for way in [*WAYS, ["--no-least"], ["--profile", "--all"], ["--steps", "--last", "2"], ["--after", "2"],
                ["--at", "9"]]:
        yield from wrong_calls(library, [program, *way, BATCH], text)
    for way in (WAYS[0], ["--json"]):
        yield from wrong_calls(library, [program, *way, refused], text)


def faults(program: Path | str) -> list[str]:
    """All that is wrong."""
    with tempfile.TemporaryDirectory() as pages, tempfile.TemporaryDirectory() as other:
        return [*wrong_names(program), *wrong_outputs(program), *wrong_pages(program, Path(pages)),
                *wrong_refusals(program, Path(other))]
