"""The crates of crates.txt, and what their sources declare, read as text; and the lines of a page."""
import pathlib
import re
from collections.abc import Iterator
from typing import NamedTuple

TOP = pathlib.Path(__file__).resolve().parent.parent
CRATES = {line.split(":")[0].split()[0]: TOP / "crates" / line.split(":")[0].split()[0]
          for line in (TOP / "crates.txt").read_text().splitlines() if line.strip() and not line.startswith("#")}
HEAD = re.compile(r"^(?P<block>impl|pub trait|trait)\b[^{]*\{|^(?P<indent> *)(?P<pub>pub(?:\(crate\))? )?(?:const )?"
                  r"(?:extern \"C\" )?fn (?P<name>\w+)", re.M)


class Function(NamedTuple):
    """A function with a contract: the type or the trait that it belongs to, and where it is in its file."""

    owner: str
    name: str
    is_public: bool
    head: str
    start: int
    end: int

    @property
    def answer(self) -> str:
        """The type that it answers."""
        words = re.split(r"\b(?:requires|ensures|where)\b\*?", self.head)[0]
        return words.rpartition("->")[2] if "->" in words else ""

    @property
    def clauses(self) -> str:
        """Its `ensures`."""
        return self.head[self.head.find("ensures") :] if "ensures" in self.head else ""


def head_of(text: str) -> str:
    """The head of the function at the front of a text: up to the brace or the semicolon after its contract."""
    lines = []
    for line in text.splitlines():
        lines.append(line)
        last = line.strip()
        is_clause = last.startswith(("ensures", "requires"))
        if last.endswith((";", "{}")) or last.endswith("{") and not is_clause:
            break
    return "\n".join(lines)


def owner_of(block: str) -> str:
    """The type of an `impl`, or the name of a trait."""
    words = re.sub(r"<[^<>]*>", "", re.sub(r"<[^<>]*>", "", re.sub(r"<[^<>]*>", "", block)))
    return re.search(r"(?:.* for |impl\s+|trait\s+)(\w+)", words.split("where")[0].replace("\n", " "))[1]


def functions_of(path: pathlib.Path) -> Iterator[Function]:
    """The functions of a source without its tests, in their order."""
    text = path.read_text().split("#[cfg(test)]")[0]
    heads = list(HEAD.finditer(text))
    block, owner = "", ""
    for head, after in zip(heads, [*heads[1:], None]):
        if head["block"]:
            block, owner = head["block"], owner_of(head[0])
            continue
        belongs = bool(head["indent"])
        public = head["pub"] == "pub " or belongs and block == "pub trait"
        end = after.start() if after else len(text)
        yield Function(owner if belongs else "", head["name"], public, head_of(text[head.start() :]), head.start(), end)


def libraries() -> Iterator[str]:
    """The crates that offer calls to others: those with a `lib.rt` that aren't only for tests and tables."""
    for name, folder in CRATES.items():
        if (folder / "src" / "lib.rt").is_file() and not re.match(r"(worked|bench|test|refusing)_", name):
            yield name


def sources_of(crate: str) -> list[pathlib.Path]:
    return sorted((CRATES[crate] / "src").glob("**/*.rt"))


def whole_lines(page: pathlib.Path) -> Iterator[tuple[int, str]]:
    """The paragraphs, list items, headings and rows of a page, each as one line, with the number of its first line."""
    fenced, first = False, 0
    words: list[str] = []
    for number, line in enumerate([*page.read_text().splitlines(), ""], 1):
        is_fence = line.startswith("```")
        if words and (is_fence or not line.strip() or re.match(r"\s*(?:[-*|#]|\d+\.) ?", line)):
            yield first, " ".join(words)
            words = []
        fenced ^= is_fence
        if line.strip() and not fenced and not is_fence:
            first = first if words else number
            words.append(line.strip())
