"""What `vjobs-why` has to say where kinds don't fit, and of words that this profile leaves out: a second writing."""
import random
import re

import batches
import kinds
from faults import ARMS_DIFFER, BAD_LINE, BAD_WORD, MISSING_OPERAND, RESULT_DIFFERS, WRONG_KIND, Fault
from instructions import BOOL, COMPARISONS, kinds_of
from notes import names_of
from reader import Function, Item, read

# The most entries that are shown.
MOST = 24
# What the page on the language says is left out: instructions, and kinds.
LEFT_OUT = set("MAX MIN PAIR UNPAIR FPERMUTE BFPERMUTE DFPERMUTE RANK_UP RANK_DOWN RAND READ WRITE FOPEN FCLOSE FREAD "
               "FWRITE SPAWN START_TIMER STOP_TIMER EXIT I_TO_F FLOOR CEIL TRUNC ROUND LOG SQRT EXP SIN COS TAN ASIN "
               "ACOS ATAN SINH COSH TANH".split())
KINDS_LEFT_OUT = {"FLOAT", "CHAR"}
# An entry: its kind, and the line that makes it.
Entry = tuple[str, int]


class Misfit(Exception):
    """Where kinds don't fit: the lines that are to be said of it."""

    def __init__(self, lines: list[str]) -> None:
        super().__init__("\n".join(lines))
        self.lines = lines


class Walk:
    """A walk through the functions of a job. It knows which line makes each entry."""

    def __init__(self, data: bytes, functions: list[Function], signatures: kinds.Signatures) -> None:
        self.lines, self.functions, self.signatures = data.split(b"\n"), functions, signatures
        self.earlier: list[int] = []

    def code(self, number: int) -> str:
        """A line without its comment and the blanks around it."""
        from profiles import shown

        line = shown(self.lines[number - 1])
        front = line.split("{")[0].strip()
        return front or line.strip()

    def made(self, entry: Entry | None) -> str:
        return f"  {entry[0].upper():>6}  line {entry[1]:>6}  {self.code(entry[1])}" if entry else "    none"

    def rows(self, entries: list[tuple[bool, str]]) -> list[str]:
        """Rows of which some are marked."""
        lines = [f"{'*' if is_marked else ' '} {depth:>5}{row}" for depth, (is_marked, row) in enumerate(entries)]
        if len(lines) <= MOST:
            return lines or ["  nothing"]
        mark = "*" if any(is_marked for is_marked, _ in entries[MOST:]) else " "
        return [*lines[:MOST], f"{mark} .. and {len(lines) - MOST} more"]

    def misfit(self, stack: list[Entry], wanted: list[str], names: list[str], is_whole: bool = False) -> Misfit:
        """Where entries are wanted that aren't there."""
        found = []
        for depth in range(max(len(stack), len(wanted))):
            entry = stack[-1 - depth] if depth < len(stack) else None
            want = wanted[-1 - depth].upper() if depth < len(wanted) else ""
            name = names[-1 - depth] if depth < len(names) else ""
            there = entry[0].upper() if entry else ""
            differs = want != there if want != "ANY" else not there
            row = f"  {name:>7}  {want.replace('ANY', 'any'):>6}{self.made(entry)}"
            found.append((differs and (bool(want) or is_whole), row))
        number = self.earlier.count(self.line)
        return Misfit([*([f"it is instruction {number} of its line"] if number > 1 else []),
                       f"entries wanted: {len(wanted)}, on the stack of {self.name}: {len(stack)}; the top first, "
                       "* marks what differs", "  entry  operand  wanted   there", *self.rows(found)])

    def part(self, stack: list[Entry], other: list[Entry]) -> list[str]:
        found = []
        for place, entry in enumerate(stack):
            differs = place >= len(other) or other[place][0] != entry[0]
            found.append((differs, self.made(entry)))
        return self.rows(found[::-1])

    def replaced(self, stack: list[Entry], takes: list[str], gives: list[str], names: list[str]) -> list[Entry]:
        below = len(stack) - len(takes)
        if below < 0 or [kind for kind, _ in stack[below:]] != takes:
            raise self.misfit(stack, takes, names)
        return stack[:below] + [(kind, self.line) for kind in gives]

    def after(self, stack: list[Entry], item: Item) -> list[Entry]:
        match item.what:
            case "Const":
                return [*stack, (str(item.kind), item.line)]
            case "Vector":
                found = kinds_of(item.word, item.kind)
                return self.replaced(stack, found.operands, found.results, names_of(item.word))
            case "Call":
                return self.replaced(stack, *self.signatures[item.word], [])
        lower_count, upper_count = item.numbers
        below = len(stack) - lower_count - upper_count
        if below < 0:
            raise self.misfit(stack, ["any"] * (lower_count + upper_count), [])
        lower, upper = stack[below : below + lower_count], stack[below + lower_count :]
        return stack[:below] + {"COPY": lower + upper + lower, "POP": upper, "CPOP": upper + lower}[item.word]

    def joined(self, first: list[Entry], second: list[Entry]) -> list[Entry]:
        if [kind for kind, _ in first] != [kind for kind, _ in second]:
            raise Misfit(["if its flag is T, the IF leaves, the top first:", *self.part(first, second),
                          "if its flag is F, the IF leaves, the top first:", *self.part(second, first),
                          "* marks what the other part doesn't leave, counted from the bottom"])
        return [one if one == other else (one[0], self.line) for one, other in zip(first, second)]

    def function(self, function: Function) -> None:
        self.name = function.name
        takes, gives = self.signatures[function.name]
        stack, kept = [(kind, function.line) for kind in takes], list[list[Entry]]()
        for item in function.items:
            self.line = item.line
            if item.what not in ("Else", "Endif"):
                self.earlier.append(item.line)
            match item.what:
                case "If":
                    stack = self.replaced(stack, [BOOL], [], ["flag"])
                    kept.append(stack)
                case "Else":
                    stack, kept[-1] = kept[-1], stack
                case "Endif":
                    stack = self.joined(kept.pop(), stack)
                case "Return":
                    if [kind for kind, _ in stack] != gives:
                        raise self.misfit(stack, gives, [], is_whole=True)
                case _:
                    stack = self.after(stack, item)


def kind_lines(data: bytes, functions: list[Function], signatures: kinds.Signatures) -> list[str]:
    """What is said of the first place where the kinds of a job don't fit."""
    walk = Walk(data, functions, signatures)
    try:
        for function in functions:
            walk.function(function)
    except Misfit as misfit:
        return misfit.lines
    return []


def broken(data: bytes, chance: random.Random) -> bytes:
    """A batch with a word of its code or its signatures changed, added or left out."""
    # What replaces a word, and the words that it replaces.
    kinds_of_words, others = rb"INT|BOOL|SEGDES", rb"CALL|CONST|COPY|CPOP|ENDIF|IF|POP|RET|[-+*/%<>=]|[A-Z_]+"
    found, put = chance.choice([
        (kinds_of_words, [b"INT", b"BOOL"]), (kinds_of_words, [b"FLOAT", b"CHAR", b"SEGDES", b"BOOL"]),
        (others, [word.encode() for word in sorted(LEFT_OUT)]),
        (b"CALL|CONST|COPY|CPOP|ENDIF|POP|RET|ELSE", [b"COPY 1 0 ", b"POP 1 0 ", b"CPOP 1 1 ", b"CONST BOOL T ", b"I_TO_B "]),
    ])
    places = list(re.finditer(rb"(?<=[ \n])(?:%b)(?=[ \n])" % found, data))
    if not places:
        return data
    place, word = chance.choice(places), chance.choice(put)
    return data[: place.start()] + word + data[place.start() if word.endswith(b" ") else place.end() :]


def wanted_lines(data: bytes, signatures: tuple[int, bytes], code: tuple[int, bytes]) -> tuple[str, list[str]] | None:
    """The refusal of a job, with what is said of it if kinds don't fit."""
    try:
        batches.verified(*signatures, *code)
    except Fault as fault:
        _, line, name = str(fault).split(" ", 2)
        if name in (MISSING_OPERAND, WRONG_KIND, ARMS_DIFFER, RESULT_DIFFERS):
            known = kinds.read_signatures(signatures[1], signatures[0])
            return f"REFUSED line {line} {name}", kind_lines(data, read(code[1], code[0]), known)
        return f"REFUSED line {line} {name}", []
    return None


def differences(shown: str, data: bytes) -> list[str]:
    """What is wrong with what `vjobs-why` shows of the refused jobs of a batch."""
    try:
        _, jobs = batches.jobs_of(data)
    except batches.BatchRefused:
        return []
    found = []
    for place, (_, name, _, signatures, code) in enumerate(jobs, 1):
        wanted = wanted_lines(data, signatures, code)
        if wanted is None:
            continue
        head = f"JOB {place} {name} {wanted[0]}\n"
        if head not in shown:
            found.append(f"job {place} isn't {wanted[0]}")
            continue
        text = shown.split(head, 1)[1].split("Only this fault is sure", 1)[0]
        lines = text.rstrip("\n").split("\n")
        if wanted[1] and lines[-len(wanted[1]) :] != wanted[1]:
            found.append(f"job {place}: shown as {lines}, and not {wanted[1]}")
        if wanted[0].endswith((BAD_WORD, BAD_LINE)):
            words = wanted_words(lines, wanted[0].endswith(BAD_LINE))
            if said(lines) != words:
                found.append(f"job {place}: shown as {lines}, and not with {words!r}")
    return found


def after(lines: list[str], front: str) -> str:
    """What comes after the front of the line that begins so."""
    return next((line.removeprefix(front) for line in lines if line.startswith(front)), "")


def said(lines: list[str]) -> str:
    """What is said to be left out."""
    return after(lines, "left out of this profile: ")


def wanted_words(lines: list[str], is_signature: bool) -> str:
    """What has to be said to be left out, by the marked word, the word before it, and what may come in its place."""
    place = next(place for place, line in enumerate(lines) if line.startswith("        | "))
    begin = lines[place].index("^")
    word = lines[place - 1][begin : lines[place].index(" ", begin)]
    expected = after(lines, "expected here: ").split(", ")
    if is_signature:
        return word if word in KINDS_LEFT_OUT else ""
    if word in LEFT_OUT:
        return word if "an instruction" in expected else ""
    if "INT" not in expected or word in KINDS_LEFT_OUT:
        return word if "INT" in expected else ""
    # The word before it may be on an earlier line of those that are shown, and the end of a comment before that. A
    # parenthesis is a word.
    text = re.sub(r"\{[^}]*\}?", " ", "\n".join(line[10:] for line in [*lines[: place - 1], lines[place - 1][:begin]]))
    before = re.split(r"[\s()}]+", text.rstrip())[-1]
    is_left_out = word == "SEGDES" if before == "CONST" else word == "BOOL" and before in COMPARISONS
    return f"{before} {word}" if is_left_out else ""
