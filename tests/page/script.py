"""What is wrong with the script and the style of the page as texts, which stand in strings of Rattle."""
from __future__ import annotations

import re
import shutil
import subprocess
from collections.abc import Iterator
from pathlib import Path

SOURCES = Path(__file__).resolve().parents[2] / "crates" / "why_page" / "src"
MOST_COLUMNS = 120
# What makes elements or code of a text, or asks for something.
FORBIDDEN = re.compile(r"\b(innerHTML|outerHTML|insertAdjacentHTML|document\.write|eval|Function|createContextualFragment"
                       r"|setHTML\w*|fetch|XMLHttpRequest|WebSocket|EventSource|sendBeacon|import|localStorage|cookie)\b")
# A name that is defined at the begin of a line.
NAMES = re.compile(r"^(?:function (\w+)|const (\w+)|let (\w+))", re.M)
STRING = re.compile(r'r##"(.*?)"##', re.S)


def parts_in(source: str) -> list[str]:
    """The names of the files that a file of Rattle uses, in the order of the list in it."""
    files = dict((name, file) for file, name in re.findall(r"^use crate::(\w+)::(\w+);", source, re.M))
    return [files[name] for name in re.search(r"&\[([A-Z_,\s]+)\]", source)[1].replace(",", " ").split()]


def texts() -> Iterator[tuple[str, str]]:
    """The name of each file that has a part of the script, and the part, in their order."""
    for name in parts_in((SOURCES / "page_script.rt").read_text()):
        yield f"{name}.rt", STRING.search((SOURCES / f"{name}.rt").read_text())[1]


def style() -> str:
    return STRING.search((SOURCES / "page_style.rt").read_text())[1]


def line_faults(name: str, text: str) -> Iterator[str]:
    """Lines that are too long, end with blanks, or have words that the page doesn't use."""
    for number, line in enumerate(text.split("\n"), 1):
        if len(line) > MOST_COLUMNS or line != line.rstrip() or "\t" in line:
            yield f"{name}: line {number} of its text is {len(line)} columns long, or ends with a blank, or has a tab"
        if found := FORBIDDEN.search(line):
            yield f"{name}: line {number} of its text has {found[1]}"


def name_faults(script: str) -> Iterator[str]:
    """Names that nothing uses, or that are defined twice."""
    names = [next(filter(None, found)) for found in NAMES.findall(script)]
    for name in sorted(set(names)):
        if names.count(name) > 1 or len(re.findall(rf"(?<!\w)(?<![\w)\]]\.){name}\b", script)) < 2:
            yield f"the script defines {name} twice, or doesn't use it"


def syntax_faults(script: str) -> Iterator[str]:
    """What node says of the script, if it is here."""
    if not shutil.which("node"):
        print("script: skipped: there is no node, which looks at its syntax")
        return
    ran = subprocess.run(["node", "--check", "-"], input=script.encode(), capture_output=True, check=False)
    if ran.returncode:
        yield f"the script: {ran.stderr.decode(errors='replace')[:300]}"


def script_faults() -> list[str]:
    """What is wrong with the script and the style, as they stand in their files."""
    parts = list(texts())
    script = "".join(text for _, text in parts)
    lines = [fault for name, text in [*parts, ("page_style.rt", style())] for fault in line_faults(name, text)]
    return [*lines, *name_faults(script), *syntax_faults(script)]
