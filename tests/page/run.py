#!/usr/bin/env python3
"""Opens pages of vjobs-why in a browser: python3 tests/page/run.py VJOBS_WHY FOLDER

It takes Debian's `chromium`, and installs it if it is missing and it may. The pages have five kinds of end, names and
comments that attack, and a long run. Each is opened at 400 and 1,600 pixels, light and dark: the console has no error,
nothing is asked for, no element comes from a stranger, what is shown is what `--json` has, everything can be reached by
keys, and texts can be read. Pictures of all are left in FOLDER. Each check is shown to refuse a page that was broken for
it. The script is looked at as a text too."""
from __future__ import annotations

import base64
import json
import os
import shutil
import subprocess
import sys
import tempfile
import time
from collections.abc import Callable, Sequence
from concurrent.futures import ThreadPoolExecutor
from functools import partial
from pathlib import Path
from typing import Any, NoReturn

sys.dont_write_bytecode = True

from batches import batches  # noqa: E402
from browser import Browser, Page  # noqa: E402
from checks import Wanted  # noqa: E402
from broken import MANY, changes, let_through  # noqa: E402
from policy import policy_faults  # noqa: E402
from script import script_faults  # noqa: E402
from suite import AS_OPENED, OF_COLOURS, OF_WIDTHS, ONCE, wrong  # noqa: E402

INSTALL_SECONDS = 60
# How many browsers work side by side.
BROWSERS = 3
WIDTHS = [400, 1600]


def skip(why: str) -> NoReturn:
    print(f"skipped: {why}")
    sys.exit(0)


def chromium() -> str:
    """The browser, which is installed if it is missing."""
    if not shutil.which("chromium") and os.geteuid() == 0 and shutil.which("apt-get"):
        how: dict[str, Any] = {"env": {**os.environ, "DEBIAN_FRONTEND": "noninteractive"}, "capture_output": True,
                               "check": False}
        try:
            words = "apt-get -q update && apt-get -q install -y --no-install-recommends chromium"
            subprocess.run(["sh", "-c", words], timeout=INSTALL_SECONDS, **how)
        except subprocess.TimeoutExpired:
            pass
    return shutil.which("chromium") or skip("chromium isn't here and can't be installed")


def shown_line(line: bytes) -> str:
    """A line of a batch as it is shown."""
    text = "".join(chr(byte) if 32 <= byte <= 126 else " " if byte in b"\t\r" else "?" for byte in line[:96])
    return text + ".." if len(line) > 96 else text


def said_by(program: str, batch: Path, *words: str) -> str:
    return subprocess.run([program, *words, batch], capture_output=True, check=True,
                          timeout=120).stdout.decode("latin1")


def carets_of(program: str, batch: Path, job: dict) -> str:
    """The line with carets of a job in the text. Two runs of a long job are spared: there it is the note at a RET."""
    if job.get("instructions", 0) > 1_000_000:
        return f"        | ^^^ {job['note']}"
    text = said_by(program, batch, "--job", str(job["job"]))
    return next(line for line in text.splitlines() if line.startswith("        | "))


def page_of(program: str, folder: Path, name: str, batch: bytes) -> tuple[Path, Wanted, list[str]]:
    """The page of a batch, what it has to show, and what is wrong with its text."""
    source, page = folder / f"{name}.vcode", folder / f"{name}.html"
    source.write_bytes(batch)
    data = said_by(program, source, "--json")
    said_by(program, source, "--html", str(page))
    text = page.read_bytes()
    jobs = [json.loads(line) for line in data.splitlines()]
    wanted = Wanted(jobs, [shown_line(line) for line in batch.split(b"\n")],
                    [carets_of(program, source, job) for job in jobs])
    objects = ",\n".join(data.splitlines())
    faults = [] if f"[\n{objects}\n]</script>".encode() in text else ["its data isn't that of --json"]
    if strange := {byte for byte in text if not 32 <= byte <= 126 and byte != 10}:
        faults.append(f"it has the bytes {strange}")
    return page, wanted, faults + policy_faults(text.decode("latin1"))


def changed_page(folder: Path, name: str, page: Path, wanted: Wanted, job: dict) -> tuple[Path, Wanted]:
    """The page with this job in place of its own."""
    text = page.read_text()
    begin = text.index("[\n", text.index('id="data"')) + 2
    data = json.dumps(job, separators=(",", ":")).replace("<", "\\u003c").replace("&", "\\u0026")
    changed = folder / f"{name}.html"
    changed.write_text(text[:begin] + data + text[text.index("\n]</script>"):])
    return changed, Wanted([job], wanted.lines, wanted.carets)


def made_up(folder: Path, name: str, page: Path, wanted: Wanted, end: dict) -> tuple[Path, Wanted]:
    """The page of a job with columns and an end that were made up."""
    job = {**wanted.jobs[0], **end}
    count, size = 300, 2
    most = [10 + (place * 7) % 23 for place in range(count)]
    most[150] = job["peak"]
    places = [place * len(job["functions"]) // count for place in range(count)]
    lines = [job["functions"][place]["line"] for place in places]
    job["columns"] = {"each": size, "most": most, "least": [words // 2 for words in most], "line": lines,
                      "function": places, "ran": places}
    instructions = size * count - 1
    job["used"] = dict(job["used"], budget=instructions)
    job["calls"] = [[*chain[:3], chain[3] + (instructions - job["instructions"] if place == 0 else 0), chain[4]]
                    for place, chain in enumerate(job["calls"])]
    job["instructions"], job["peak_at"] = instructions, size * 150 + 1
    return changed_page(folder, name, page, wanted, job)


def with_state(folder: Path, page: Path, wanted: Wanted) -> tuple[Path, Wanted]:
    """The page of a job with a stack and calls that were made up, of which some are left out, and with a source."""
    job, line = dict(wanted.jobs[0]), wanted.jobs[0]["last"]
    entry = {"kind": "INT", "length": 3, "line": line, "values": "5 0 -3"}
    stack = [entry | {"name": "b"}, {**entry, "copy": 0}, entry | {"kind": "SEGDES", "total": 9, "length": 40, "left": 8}]
    job.pop("results", None)
    job |= {"most": {"entries": 3, "calls": 2, "values": 32},
            "stack": {"entries": 40, "words": 46, "left": 37, "list": stack},
            "active": {"calls": 5, "left": 3, "list": [[2, line, 1], [1, line, 2]]},
            "source": {"files": ["<b>.py", "two.py"], "lines": [[0, 3, 7, 70, "a <b> text"], [1, 1, 9, 80, ""]],
                       "marks": [[line, 0], [line + 1, 1]]}}
    return changed_page(folder, "state", page, wanted, job)


def pictured(opened: Page, pictures: Path, name: str) -> None:
    """Keeps a picture of a page as it is."""
    (pictures / f"{name}.png").write_bytes(base64.b64decode(opened.picture()))


def checked_as_opened(browser: Browser, page: Path, wanted: Wanted, pictures: Path) -> list[str]:
    """What is wrong with a page of many jobs as it is opened, with few of them drawn."""
    opened = Page(browser, page.as_uri(), WIDTHS[1], is_all=False)
    pictured(opened, pictures, page.stem)
    print(f"{page.stem}: {opened.spent:.2f} seconds of a processor to open {len(wanted.jobs)} jobs")
    faults = wrong(opened, wanted, AS_OPENED)
    opened.close()
    return [f"{page.stem}: {check}: {text}" for check, texts in faults.items() for text in texts[:5]]


def checked(browser: Browser, page: Path, wanted: Wanted, pictures: Path) -> list[str]:
    """What is wrong with a page at each width, light and dark."""
    found = []
    for width in WIDTHS:
        opened = Page(browser, page.as_uri(), width)
        pictured(opened, pictures, f"{page.stem}-{width}-light")
        checks = [*OF_WIDTHS, *OF_COLOURS, *(ONCE if width == WIDTHS[0] else [])]
        faults = wrong(opened, wanted, checks)
        opened.take_colours("dark")
        pictured(opened, pictures, f"{page.stem}-{width}-dark")
        faults |= {f"{check} in the dark": texts for check, texts in wrong(opened, wanted, OF_COLOURS).items()}
        found += [f"{page.stem}, {width} pixels: {check}: {text}" for check, texts in faults.items() for text in texts[:5]]
        opened.close()
    return found


def wrong_exits(program: str, folder: Path) -> list[str]:
    """What is wrong with where pages go and how the program ends."""
    batch, page, found = folder / "four_ends.vcode", folder / "four_ends.html", []
    missing, shut = folder / "none.html", folder / "no-folder" / "page.html"
    refused = folder / "refused.vcode"
    refused.write_text("JOB a 1\n")
    cases: list[tuple[list, int, bytes | None]] = [(["--html", "-", batch], 0, page.read_bytes()),
                                                   (["--html", missing, "--job", "99", batch], 1, b""),
             (["--html", shut, batch], 3, b""), (["--html", missing, refused], 1, None)]
    for words, status, shown in cases:
        ran = subprocess.run([program, *words], capture_output=True, check=False, timeout=60)
        if ran.returncode != status or shown not in (None, ran.stdout):
            found.append(f"{words}: exit {ran.returncode}, {len(ran.stdout)} bytes")
    alone = json.loads(said_by(program, batch, "--json", "--job", "3"))
    if alone["job"] != 3 or missing.exists():
        found.append("a job alone isn't that job, or a page was written where none was wanted")
    return found


def pages_of(program: str, folder: Path) -> tuple[dict[str, tuple[Path, Wanted]], list[str]]:
    """All pages with what they have to show, and what is wrong with their texts."""
    found: list[str] = []
    pages = {}
    for name, batch in batches().items():
        began = time.monotonic()
        page, wanted, faults = page_of(program, folder, name, batch)
        found += [f"{name}: {fault}" for fault in faults]
        pages[name] = page, wanted
        count, size = sum(job.get("instructions", 0) for job in wanted.jobs), page.stat().st_size
        print(f"{name}: {count:,} instructions, a page of {size:,} bytes, {time.monotonic() - began:.1f} seconds")
    pages["columns"] = made_up(folder, "columns", *pages["quicksort"], {})
    pages["cross"] = made_up(folder, "cross", *pages["quicksort"], {"end": "MEMORY M1 WORDS", "line": 17, "wanted": 70})
    pages["state"] = with_state(folder, *pages["entries"])
    return pages, found


def checked_in(browser: Browser, page: Path, wanted: Wanted, pictures: Path) -> list[str]:
    """What is wrong with a page, or that it doesn't answer, as long as the browser does."""
    check = checked_as_opened if page.stem == MANY else checked
    try:
        return check(browser, page, wanted, pictures)
    except TimeoutError as error:
        if not browser.answers():
            raise
        return [f"{page.stem} doesn't answer: {error}"]


def found_by_all(program: str, tasks: Sequence[Callable[[Browser], list[str]]]) -> list[str]:
    """What the tasks find, which are done by some browsers side by side."""
    left, found = list(reversed(tasks)), []

    def work() -> None:
        with Browser(program) as browser:
            while left:
                found.extend(left.pop()(browser))

    with ThreadPoolExecutor(BROWSERS) as pool:
        for done in [pool.submit(work) for _ in range(BROWSERS)]:
            done.result()
    return found


def test(browser: str, program: str, folder: Path, pictures: Path) -> list[str]:
    """What is wrong with all pages."""
    pages, found = pages_of(program, folder)
    tasks = [partial(let_through, folder=folder, pages=pages, check=check, number=number, change=change)
             for check, number, change in changes()]
    tasks += [partial(checked_in, page=page, wanted=wanted, pictures=pictures) for page, wanted in pages.values()]
    return [*found, *script_faults(), *wrong_exits(program, folder), *found_by_all(browser, tasks)]


def main() -> int:
    program, pictures = sys.argv[1], Path(sys.argv[2])
    pictures.mkdir(parents=True, exist_ok=True)
    try:
        with tempfile.TemporaryDirectory() as room:
            found = test(chromium(), os.path.abspath(program), Path(room), pictures)
    except (TimeoutError, ConnectionError) as error:
        skip(f"the browser doesn't answer: {error}")
    for text in found:
        print(text)
    print(f"{len(found)} faults of pages; their pictures are in {pictures}")
    return int(bool(found))


if __name__ == "__main__":
    sys.exit(main())
