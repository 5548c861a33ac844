"""The lines of a source, which comments of a code name, from the second writing."""
import random
import re
from collections import Counter, defaultdict
from typing import Any

from reader import Function

# A comment that names a line of a source.
COMMENT = re.compile(rb"\{([^}]*)\}")
PLACE = re.compile(rb"@[ \t\r]*([^ \t\r\n]{1,96}):(\d+)(?:[ \t\r]+([^\n]*))?(?:\n.*)?", re.S)
# The place of a line of a source: that of its file, and its number.
Place = tuple[int, int]


def marks_of(functions: list[Function], first: int, code: bytes) -> dict[int, tuple[bytes, int, bytes] | None]:
    """The mark of each line of a code that has one: the file, the line and its text; None at a FUNC that has none."""
    last = functions[-1].items[-1].line
    marks: dict[int, Any] = {function.line: None for function in functions}
    text = b"\n".join(code.split(b"\n")[: last - first + 1]) + b"\n"
    for comment in COMMENT.finditer(text):
        line = first + text.count(b"\n", 0, comment.start())
        found = PLACE.fullmatch(comment[1])
        if found and int(found[2]) > 0 and int(found[2]) < 2**64 and marks.get(line) is None:
            marks[line] = found[1], int(found[2]), (found[3] or b"").strip(b" \t\r")
    return marks if any(marks.values()) else {}


def source_of(functions: list[Function], first: int, code: bytes, lines: list[list[int]]) -> dict[str, Any] | None:
    """The member for the lines of the source, from the counts of the lines of the code."""
    marks = marks_of(functions, first, code)
    if not marks:
        return None
    named = [mark for _, mark in sorted(marks.items()) if mark]
    files = list(dict.fromkeys(file for file, _, _ in named))
    places = sorted({(files.index(file), number) for file, number, _ in named})
    texts: defaultdict[tuple[int, int], str] = defaultdict(str)
    for file, number, text in named:
        texts[files.index(file), number] = texts[files.index(file), number] or text.decode()[:96]
    rows = [[line, places.index((files.index(mark[0]), mark[1])) if mark else None]
            for line, mark in sorted(marks.items())]
    counts = [[0, 0] for _ in places]
    for line, times, elements in lines:
        at = [place for start, place in rows if start <= line]
        if at and at[-1] is not None:
            counts[at[-1]][0] += times
            counts[at[-1]][1] += elements
    return {"files": [file.decode() for file in files],
            "lines": [[*place, *count, texts[place]] for place, count in zip(places, counts)], "marks": rows}


def names_at(functions: list[Function], first: int, code: bytes) -> dict[int, str]:
    """The place in the source of each line of the code that is of one."""
    found, current, marks = dict[int, str](), "", marks_of(functions, first, code)
    for line in range(first, functions[-1].items[-1].line + 1):
        if line in marks:
            mark = marks[line]
            current = f"{mark[0].decode()}:{mark[1]}" if mark else ""
        if current:
            found[line] = current
    return found


def places_of(functions: list[Function], first: int, code: bytes, source: dict[str, Any]) -> dict[int, Place]:
    """The place in the source of each line of the code that is of one."""
    names = names_at(functions, first, code)
    return {line: (source["files"].index(name.rpartition(":")[0]), int(name.rpartition(":")[2]))
            for line, name in names.items()}


def folded_lines(job: Any, places: dict[int, Place], source: dict[str, Any]) -> list[str]:
    """The lines for the stacks of functions of a run that has counted what it executed, by lines of the source."""
    lines: list[str] = []
    for path, (_, work) in job.paths.items():
        counts: Counter[Place] = Counter()
        for line, times in job.by_path[path].items():
            if line in places:
                counts[places[line]] += times
        names = ";".join(name.replace(";", "?") for name in path)
        rows = [(f";{source['files'][file]}:{number}".replace(";", "?").replace("?", ";", 1), times)
                for (file, number), times in sorted(counts.items())]
        rest = work.instructions - counts.total()
        lines += [f"{names}{name} {times}" for name, times in [*rows, *([("", rest)] if rest else [])]]
    return lines


def profile_lines(job: Any, places: dict[int, Place], source: dict[str, Any]) -> list[str]:
    """The lines of a profile for the lines of the source."""
    most: defaultdict[Place, int] = defaultdict(int)
    for demand, _, line, _ in job.samples:
        if line in places:
            most[places[line]] = max(most[places[line]], demand)
    rows = [(-elements, -times, (file, number), text)
            for file, number, times, elements, text in source["lines"] if times]
    return [f"  {-times:>12} {(-times * 1000 + job.executed // 2) // job.executed / 10:>6.1f}%  {-elements:>12} "
            f"{most[place]:>12}  {source['files'][place[0]]}:{place[1]}{'  ' + text if text else ''}"
            for elements, times, place, text in sorted(rows)]


def with_marks(data: bytes, chance: random.Random) -> bytes:
    """A batch with marks behind some of its lines of code, and comments that are none."""
    lines, is_code, is_open = data.split(b"\n"), False, False
    for place, line in enumerate(lines):
        words = line.split()
        # Outside comments a line has none that isn't ended, after which the rest is no comment.
        is_open = is_code and b"{" in (b"{" * is_open + line).rpartition(b"}")[2]
        if is_code and not is_open and words != [b"END"] and chance.random() < 0.4:
            file, number = chance.choice([b"a.py", b"dir/b:c.py", b"a.py", b""]), chance.choice([0, 1, 2, 3, 12])
            text = chance.choice([b"", b" x = f(y)", b"  [1, 2] < 3 & \"4\""])
            lines[place] = line + chance.choice([b" {@ ", b" {@", b" {"]) + file + b":%d" % number + text + b"}"
        is_code = words == [b"CODE"] or (is_code and words != [b"END"])
    return b"\n".join(lines)
