"""The reader of code: words, grammar, and the first fault."""
import re
from collections.abc import Iterator
from dataclasses import dataclass, field

from faults import BAD_NUMBER, BAD_WORD, CODE_TOO_LARGE, FUNCTION_TWICE, MISPLACED, UNFINISHED, Fault
from instructions import ALONE, MOVES, OF_EITHER, OF_NUMBERS, SCALARS, VECTOR_WORDS, WITH_OPTION, shown

GREATEST_NAME, MOST_FUNCTIONS, MOST_IFS, MOST_ELEMENTS, GREATEST_COUNT = 64, 512, 64, 65_536, 4_096
# The words that may stand where an instruction may.
HEADS = ["FUNC", "RET", "IF", "ELSE", "ENDIF", "CALL", "CONST", *MOVES, *VECTOR_WORDS]


@dataclass
class Item:
    """A line of a function. What it is: If, Else, Endif, Return, Const, Call, Move or Vector."""

    line: int
    what: str
    word: str = ""
    kind: str | None = None
    numbers: list[int] = field(default_factory=list)


@dataclass
class Function:
    name: str
    line: int
    items: list[Item]


@dataclass
class Word:
    """A word; a byte that no word has is one whose text is None. The text's end has the line of an open comment, or none."""

    text: str | None
    line: int | None
    is_end: bool = False


def words(text: bytes, first_line: int) -> Iterator[Word]:
    line, place = first_line, 0
    while place < len(text):
        if run := re.compile(rb"[ \t\r\n]+").match(text, place):
            line += run[0].count(b"\n")
        elif run := re.compile(rb"\{[^}]*\}?").match(text, place):
            if not run[0].endswith(b"}"):
                yield Word(None, line, is_end=True)
                return
            line += run[0].count(b"\n")
        elif run := re.compile(rb"[()]|[!-'*-z|~]+").match(text, place):
            yield Word(run[0].decode(), line)
        else:
            run = re.compile(rb"(?s).").match(text, place)
            yield Word(None, line)
        place = run.end()
    yield Word(None, None, is_end=True)


def number(text: str | None) -> int | None:
    """The number that a word is, or None."""
    if text is None or not re.fullmatch(r"-?[0-9]+", text) or not -(2**63) <= int(text) < 2**63:
        return None
    return int(text)


class Reader:
    """Reads a text; the lines of what stands open are kept, the innermost last."""

    def __init__(self, text: bytes, first_line: int) -> None:
        self.words = words(text, first_line)
        self.ahead: Word | None = None
        self.open: list[int] = []

    def next(self) -> Word | None:
        """The next word; None at the end, where nothing is open."""
        word, self.ahead = self.ahead or next(self.words), None
        if not word.is_end:
            return word
        if word.line is not None:
            raise Fault(word.line, UNFINISHED)
        if self.open:
            raise Fault(self.open[-1], UNFINISHED)
        return None

    def program(self) -> list[Function]:
        functions: list[Function] = []
        while (word := self.next()) is not None:
            if word.text not in HEADS:
                raise Fault(word.line, BAD_WORD)
            if word.text != "FUNC":
                raise Fault(word.line, MISPLACED)
            if len(functions) == MOST_FUNCTIONS:
                raise Fault(word.line, CODE_TOO_LARGE)
            self.open = [word.line]
            name = self.name()
            if name.text in (f.name for f in functions):
                raise Fault(name.line, FUNCTION_TWICE)
            functions.append(Function(name.text, word.line, self.body()))
            self.open = []
        return functions

    def name(self) -> Word:
        word = self.next()
        if word.text in (None, "(", ")"):
            raise Fault(word.line, BAD_WORD)
        if len(word.text) > GREATEST_NAME:
            raise Fault(word.line, CODE_TOO_LARGE)
        return word

    def body(self) -> list[Item]:
        """The items of a function up to its RET. An IF without ELSE has an empty one, at the IF's line as each has."""
        items: list[Item] = []
        ifs: list[bool] = []
        while True:
            word = self.next()
            if word.text not in HEADS:
                raise Fault(word.line, BAD_WORD)
            match word.text:
                case "FUNC":
                    raise Fault(word.line, MISPLACED)
                case "RET":
                    if ifs:
                        raise Fault(word.line, MISPLACED)
                    return [*items, Item(word.line, "Return")]
                case "IF":
                    if len(ifs) == MOST_IFS:
                        raise Fault(word.line, CODE_TOO_LARGE)
                    ifs.append(False)
                    self.open.append(word.line)
                    items.append(Item(word.line, "If"))
                case "ELSE":
                    if not ifs or ifs[-1]:
                        raise Fault(word.line, MISPLACED)
                    ifs[-1] = True
                    items.append(Item(self.open[-1], "Else"))
                case "ENDIF":
                    if not ifs:
                        raise Fault(word.line, MISPLACED)
                    begun = self.open.pop()
                    if not ifs.pop():
                        items.append(Item(begun, "Else"))
                    items.append(Item(word.line, "Endif"))
                case _:
                    items.append(self.instruction(word))

    def instruction(self, head: Word) -> Item:
        if head.text in WITH_OPTION:
            self.pass_option()
            return Item(head.line, "Vector", head.text)
        self.open.append(head.line)
        item = Item(head.line, "Vector", head.text)
        if head.text == "CALL":
            item = Item(head.line, "Call", self.name().text)
        elif head.text in MOVES:
            item = Item(head.line, "Move", head.text, numbers=[self.count(), self.count()])
        elif head.text == "CONST":
            kind = self.kind(SCALARS)
            item = Item(head.line, "Const", kind=kind, numbers=self.constant(kind))
        elif head.text in OF_NUMBERS:
            item.kind = self.kind({"INT": SCALARS["INT"]})
        elif head.text in OF_EITHER:
            item.kind = self.kind(SCALARS)
        else:
            assert head.text in ALONE
        self.open.pop()
        return item

    def pass_option(self) -> None:
        """Passes over a word INT, if the next is one."""
        word = next(self.words)
        if word.text != "INT":
            self.ahead = word

    def kind(self, kinds: dict[str, str]) -> str:
        word = self.next()
        if word.text not in kinds:
            raise Fault(word.line, BAD_WORD)
        return kinds[word.text]

    def count(self) -> int:
        word = self.next()
        if word.text is None:
            raise Fault(word.line, BAD_WORD)
        value = number(word.text)
        if value is None or value < 0:
            raise Fault(word.line, BAD_NUMBER)
        if value > GREATEST_COUNT:
            raise Fault(word.line, CODE_TOO_LARGE)
        return value

    def constant(self, kind: str) -> list[int]:
        word = self.next()
        if word.text != "(":
            return [element(kind, word)]
        self.open.append(word.line)
        elements: list[int] = []
        while (word := self.next()).text != ")":
            value = element(kind, word)
            if len(elements) == MOST_ELEMENTS:
                raise Fault(word.line, CODE_TOO_LARGE)
            elements.append(value)
        self.open.pop()
        return elements


def element(kind: str, word: Word) -> int:
    if word.text is None:
        raise Fault(word.line, BAD_WORD)
    if kind == SCALARS["INT"]:
        value = number(word.text)
        if value is None:
            raise Fault(word.line, BAD_NUMBER)
        return value
    if word.text not in ("T", "F"):
        raise Fault(word.line, BAD_WORD)
    return int(word.text == "T")


def read(text: bytes, first_line: int) -> list[Function]:
    """The functions of a text of bytes, or a Fault."""
    return Reader(text, first_line).program()


def targets(items: list[Item]) -> dict[int, int]:
    """Where each If goes on without its first part, and each Else behind its Endif."""
    found, open_items = {}, []
    for place, item in enumerate(items):
        if item.what == "If":
            open_items.append(place)
        elif item.what in ("Else", "Endif"):
            found[open_items.pop()] = place + 1
            if item.what == "Else":
                open_items.append(place)
    return found


def shown_item(item: Item) -> str:
    match item.what:
        case "Const":
            return f"Const({item.kind}, [{', '.join(map(str, item.numbers))}])"
        case "Call":
            return f"Call({item.word})"
        case "Move":
            return f"Move({MOVES[item.word]}, {item.numbers[0]}, {item.numbers[1]})"
        case "Vector":
            return shown(item.word, item.kind)
    return item.what


def shown_program(functions: list[Function]) -> str:
    """A program as `worked_texts` prints it."""
    places = {f.name: place for place, f in enumerate(functions)}
    texts = []
    for function in functions:
        goes, lines = targets(function.items), []
        for place, item in enumerate(function.items):
            line = f"{item.line} {shown_item(item)}"
            line += f" -> {goes[place]}" if place in goes else ""
            line += f" -> function {places[item.word]}" if item.what == "Call" and item.word in places else ""
            lines.append(line)
        texts.append(f"{function.name}@{function.line}: " + "; ".join(lines))
    return " | ".join(texts) or "no functions"
