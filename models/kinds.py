"""The reader of signatures, and the verifier."""
import re

from faults import (ARMS_DIFFER, BAD_LINE, MAIN_TAKES, MISSING_OPERAND, NAME_TWICE, NO_MAIN, NO_SIGNATURE,
                    RESULT_DIFFERS, SIGNATURES_TOO_LARGE, UNKNOWN_FUNCTION, WRONG_KIND, Fault)
from instructions import BOOL, SCALARS, SEGDES, kinds_of
from reader import GREATEST_NAME, Function, Item

# The kinds that each name takes and gives.
Signatures = dict[str, tuple[list[str], list[str]]]
MOST_KINDS, MOST_SIGNATURES = 256, 512
KINDS = {**SCALARS, "SEGDES": SEGDES}
SIGNATURE = re.compile(r"([^ ()]+) \( ((?:(?:INT|BOOL|SEGDES) )*)\) -> \( ((?:(?:INT|BOOL|SEGDES) )*)\)")


def line_words(line: bytes) -> list[str] | None:
    """The words of a line, or None where a byte is in no word."""
    if any(not (33 <= byte <= 126 or byte in b" \t\r") or byte in b"{}" for byte in line):
        return None
    return line.decode().replace("(", " ( ").replace(")", " ) ").split()


def signature(words: list[str]) -> tuple[str, list[str], list[str]] | None:
    """The name, operands and results of a line, or None where it is no signature."""
    found = SIGNATURE.fullmatch(" ".join(words))
    if not found:
        return None
    takes, gives = ([KINDS[kind] for kind in found[part].split()] for part in (2, 3))
    return found[1], takes, gives


def read_signatures(text: bytes, first_line: int) -> Signatures:
    """The kinds that each name takes and gives, by name; or a Fault."""
    found: Signatures = {}
    for line, bytes_of_line in enumerate(text.split(b"\n"), first_line):
        words = line_words(bytes_of_line)
        if words == []:
            continue
        parts = words and signature(words)
        if not parts:
            raise Fault(line, BAD_LINE)
        name, takes, gives = parts
        if len(name) > GREATEST_NAME or max(len(takes), len(gives)) > MOST_KINDS or len(found) == MOST_SIGNATURES:
            raise Fault(line, SIGNATURES_TOO_LARGE)
        if name in found:
            raise Fault(line, NAME_TWICE)
        found[name] = takes, gives
    return found


def shown_kinds(kinds: list[str]) -> str:
    return f"[{', '.join(kinds)}]"


def shown_signatures(signatures: Signatures) -> str:
    """Signatures as `worked_texts` prints them."""
    lines = (f"{name} {shown_kinds(takes)} -> {shown_kinds(gives)}" for name, (takes, gives) in signatures.items())
    return " | ".join(lines) or "no signatures"


def replaced(stack: list[str], takes: list[str], gives: list[str], line: int) -> list[str]:
    below = len(stack) - len(takes)
    if below < 0:
        raise Fault(line, MISSING_OPERAND)
    if stack[below:] != takes:
        raise Fault(line, WRONG_KIND)
    return stack[:below] + gives


def moved(stack: list[str], item: Item) -> list[str]:
    lower_count, upper_count = item.numbers
    below = len(stack) - lower_count - upper_count
    if below < 0:
        raise Fault(item.line, MISSING_OPERAND)
    lower, upper = stack[below : below + lower_count], stack[below + lower_count :]
    return stack[:below] + {"COPY": lower + upper + lower, "POP": upper, "CPOP": upper + lower}[item.word]


class Verifier:
    def __init__(self, functions: list[Function], signatures: Signatures) -> None:
        self.signatures = signatures
        self.names = {f.name for f in functions}

    def body(self, function: Function) -> None:
        """Follows a function's items; the lists that stand at open IFs are kept."""
        takes, gives = self.signatures[function.name]
        stack, kept = list(takes), []
        for item in function.items:
            match item.what:
                case "If":
                    stack = replaced(stack, [BOOL], [], item.line)
                    kept.append(stack)
                case "Else":
                    stack, kept[-1] = kept[-1], stack
                case "Endif":
                    if stack != kept.pop():
                        raise Fault(item.line, ARMS_DIFFER)
                case "Return":
                    if stack != gives:
                        raise Fault(item.line, RESULT_DIFFERS)
                case _:
                    stack = self.after(stack, item)

    def after(self, stack: list[str], item: Item) -> list[str]:
        match item.what:
            case "Const":
                return [*stack, item.kind]
            case "Move":
                return moved(stack, item)
            case "Vector":
                kinds = kinds_of(item.word, item.kind)
                return replaced(stack, kinds.operands, kinds.results, item.line)
        if item.word not in self.names:
            raise Fault(item.line, UNKNOWN_FUNCTION)
        if item.word not in self.signatures:
            raise Fault(item.line, NO_SIGNATURE)
        return replaced(stack, *self.signatures[item.word], item.line)


def verify(functions: list[Function], signatures: Signatures, first_line: int) -> list[str]:
    """The kinds of what MAIN leaves, or the first Fault."""
    verifier = Verifier(functions, signatures)
    if "MAIN" not in verifier.names:
        raise Fault(first_line, NO_MAIN)
    for function in functions:
        if function.name not in signatures:
            raise Fault(function.line, NO_SIGNATURE)
        if function.name == "MAIN" and signatures["MAIN"][0]:
            raise Fault(function.line, MAIN_TAKES)
        verifier.body(function)
    return signatures["MAIN"][1]
