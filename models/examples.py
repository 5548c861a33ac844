#!/usr/bin/env python3
"""Compares the report of each example with the one that `models/` give, and its results with those of the example's own
program in Python.

    python3 models/examples.py

Each function that docs/COMPILING.md shows has to be one of the examples, word for word. The page also says how many
lines the files of the compiler have.

The modules of this folder follow the rules of the language. The program beside an example, as `examples/histogram.py`,
doesn't know them.
"""
import ast
import io
import re
import subprocess
import sys
from collections.abc import Iterator
from pathlib import Path
from token import COMMENT, DEDENT, ENDMARKER, INDENT, NEWLINE, NL
from tokenize import generate_tokens

from batches import report

TOP = Path(__file__).resolve().parent.parent
PAGE = TOP / "docs" / "COMPILING.md"
REGION = 1_048_576
KINDS = ("INT", "BOOL", "SEGDES")


def results(text: str) -> list[str]:
    return [line for line in text.splitlines() if line.split()[0] in KINDS]


def differences(batch: Path) -> Iterator[str]:
    wanted = batch.with_suffix(".report").read_text()
    if report(batch.read_bytes(), REGION)[0] != wanted:
        yield f"{batch.stem}: the models give another report"
    program = batch.with_suffix(".py")
    if program.exists():
        ran = subprocess.run([sys.executable, program], capture_output=True, text=True, check=True)
        if ran.stdout.splitlines() != results(wanted):
            yield f"{batch.stem}: {program.name} gives other results"


def blocks_that_differ(batches: list[Path]) -> Iterator[str]:
    codes = "".join(batch.read_text() for batch in batches)
    for block in re.findall(r"^FUNC .*?^RET$", PAGE.read_text(), re.M | re.S):
        if block not in codes:
            yield f"docs/COMPILING.md: {block.split()[1]} isn't in an example"


def code_lines(text: str) -> int:
    """The lines of a Python program without blank lines, comments and docstrings."""
    blank = {COMMENT, NL, NEWLINE, INDENT, DEDENT, ENDMARKER}
    tokens = [it for it in generate_tokens(io.StringIO(text).readline) if it.type not in blank]
    lines = {line for it in tokens for line in range(it.start[0], it.end[0] + 1)}
    for node in ast.walk(ast.parse(text)):
        if isinstance(node, (ast.Module, ast.ClassDef, ast.FunctionDef)) and ast.get_docstring(node):
            lines -= set(range(node.body[0].lineno, node.body[0].end_lineno + 1))
    return len(lines)


def lengths_that_differ() -> Iterator[str]:
    page, texts = PAGE.read_text(), []
    for name, said in re.findall(r"^\| `(\w+\.py)` \| (\d+) \|", page, re.M):
        texts.append((TOP / "examples" / "compiler" / name).read_text())
        if len(texts[-1].splitlines()) != int(said):
            yield f"docs/COMPILING.md: {name} has {len(texts[-1].splitlines())} lines"
    every, code = sum(len(it.splitlines()) for it in texts), sum(map(code_lines, texts))
    if f"These are {every} lines, {code} of them without blank lines" not in page:
        yield f"docs/COMPILING.md: the compiler has {every} lines, {code} of them code"


def main() -> None:
    batches = sorted((TOP / "examples").glob("*.vcode"))
    found = [difference for batch in batches for difference in differences(batch)]
    found += [*blocks_that_differ(batches), *lengths_that_differ()]
    print(*found, f"examples: {len(batches)} batches, {len(found)} differences", sep="\n")
    sys.exit(bool(found))


if __name__ == "__main__":
    main()
