"""Random cases, most of them good or nearly so."""
from collections.abc import Callable, Iterable
from random import Random as Source
from typing import Any

from elements import GREATEST, LEAST
from instructions import BOOL, ELEMENTWISE, INT, MOVES, OF_EITHER, OF_NUMBERS, SCALARS, SEGDES, VECTOR_WORDS, WITH_OPTION, kinds_of
from kinds import Signatures

NOISE = ["(", ")", "{", "}", "{ c }", "T", "F", "INT", "BOOL", "SEGDES", "FLOAT", "1", "-1", "-0", "007", "4096",
         "4097", "9223372036854775807",
         "9223372036854775808", "-9223372036854775808", "-9223372036854775809", "--1", "-", "+1", "1x", "x", "MAIN", "f", "->", "FUNC", "RET",
         "IF", "ELSE", "ENDIF", "CONST", "COPY", "CALL", "END", "a" * 64, "a" * 65, "\x01", "\x7f", "\x00", "\xc3", "_SCAN", "MAX", "=="]
SEPARATORS = [" ", " ", " ", "\n", "\n", "\t", "\r\n", "  ", "{c}", "{ \n }"]
NAMES = ["MAIN", "f", "g", "h", "RET", "1", "->", "IF", "a" * 64]
SPELLED = {kind: word for word, kind in [*SCALARS.items(), ("SEGDES", SEGDES)]}
# How to make a value of a kind.
MADE = {INT: ["CONST", "INT", "5"], BOOL: ["CONST", "BOOL", "F"], SEGDES: ["CONST", "INT", "1", "MAKE_SEGDES"]}
# Lengths of segments at which the instructions change how they go over one.
SEAMS = [1, 3, 4, 5, 15, 16, 17, 63, 64, 65, 66]
NOTABLE = [0, 1, -1, 2, 3, -7, 62, 63, 64, 10, LEAST, LEAST + 1, GREATEST]


class Random:
    def __init__(self, random: Source) -> None:
        self.random = random
        self.pick: Callable[..., Any] = random.choice

    def chance(self, of: float) -> bool:
        return self.random.random() < of

    def up_to(self, most: int) -> range:
        return range(self.random.randint(0, most))

    # ---- texts

    def joined(self, words: Iterable[str]) -> bytes:
        return "".join(word + ("" if word in ("(", ")") and self.chance(0.5) else self.pick(SEPARATORS))
                       for word in words).encode("latin1")

    def changed_words(self, words: list[str]) -> list[str]:
        words = list(words)
        place = self.random.randrange(len(words) + 1)
        words[place : place + self.pick([0, 1])] = self.pick([[], [self.pick(NOISE)], [self.pick(VECTOR_WORDS)]])
        return words[: self.random.randrange(len(words) + 1)] if self.chance(0.1) else words

    def changed_bytes(self, text: bytes) -> bytes:
        place = self.random.randrange(len(text) + 1)
        changed = text[:place] + bytes([self.pick(b"(){}\n\r\t 0Aa-+\x00\x0b\x7f\xff")]) * self.pick([0, 1]) + text[place + self.pick([0, 1]) :]
        return changed[: self.random.randrange(len(changed) + 1)] if self.chance(0.1) else changed

    def text(self, words: list[str], of_change: float = 0.5) -> bytes:
        """These words as a text, with a change or two at times."""
        while self.chance(of_change / 2):
            words = self.changed_words(words)
        text = self.joined(words)
        while self.chance(of_change / 3):
            text = self.changed_bytes(text)
        return text

    # ---- code of any kinds

    def number(self) -> str:
        return str(self.pick(NOTABLE) if self.chance(0.5) else self.random.randint(LEAST, GREATEST))

    def constant(self, kind: str) -> list[str]:
        elements = [self.number() if kind == "INT" else self.pick("TF") for _ in self.up_to(4)]
        return ["CONST", kind, *(elements if len(elements) == 1 else ["(", *elements, ")"])]

    def vector_instruction(self) -> tuple[str, list[str]]:
        word = self.pick(VECTOR_WORDS)
        kinds = ["INT"] if word in OF_NUMBERS else [self.pick(["INT", "BOOL"])] if word in OF_EITHER else ["INT"] * (word in WITH_OPTION and self.chance(0.5))
        return word, kinds

    def item(self, depth: int) -> list[str]:
        match self.pick(["if", "call", "move", "move", "const", "const", "vector", "vector"]):
            case "if" if depth < 4:
                return ["IF", *self.items(depth + 1), *self.pick([[], ["ELSE", *self.items(depth + 1)]]), "ENDIF"]
            case "call":
                return ["CALL", self.pick(NAMES)]
            case "move":
                return [self.pick([*MOVES]), self.pick("012"), self.pick("012")]
            case "const":
                return self.constant(self.pick(["INT", "BOOL"]))
        word, kinds = self.vector_instruction()
        return [word, *kinds]

    def items(self, depth: int = 0) -> list[str]:
        return [word for _ in self.up_to(4) for word in self.item(depth)]

    def code(self) -> bytes:
        return self.text([word for _ in self.up_to(3) for word in ["FUNC", self.pick(NAMES), *self.items(), "RET"]])

    # ---- signatures, and code that is well kinded but for slips

    def kinds(self) -> list[str]:
        return [self.pick([INT, BOOL, SEGDES]) for _ in self.up_to(3)]

    def signature_line(self, name: str, takes: list[str], gives: list[str]) -> str:
        return f"{name} ({' '.join(SPELLED[kind] for kind in takes)}) -> ({' '.join(SPELLED[kind] for kind in gives)})"

    def signatures(self) -> bytes:
        lines = [self.signature_line(self.pick(NAMES), self.kinds(), self.kinds()) for _ in self.up_to(4)]
        text = "\n".join(lines).replace(" ", self.pick([" ", " ", "\t", " \r"])).encode("latin1")
        while self.chance(0.3):
            text = self.changed_bytes(text)
        return text

    def slips(self) -> bool:
        return self.chance(0.03)

    def brought(self, stack: list[str], wanted: list[str]) -> list[str]:
        """What brings a stack to these kinds."""
        if stack == wanted or self.slips():
            return []
        return ["POP", str(len(stack)), "0", *(word for kind in wanted for word in MADE[kind])]

    def kinded_items(self, stack: list[str], signatures: Signatures, most: int,
                     depth: int) -> tuple[list[str], list[str]]:
        """Items that go on from a stack, and the stack behind them."""
        words = []
        for _ in self.up_to(most):
            more, stack = self.kinded_item(stack, signatures, depth)
            words += more
        return words, stack

    def kinded_item(self, stack: list[str], signatures: Signatures, depth: int) -> tuple[list[str], list[str]]:
        match self.pick(["const", "vector", "vector", "move", "call", "if"]):
            case "vector":
                word, written = self.vector_instruction()
                kinds = kinds_of(word, SCALARS[written[0]] if written else None)
                return self.taken([word, *written], stack, kinds.operands, kinds.results)
            case "call":
                name = self.pick([*signatures])
                return self.taken(["CALL", "nowhere" if self.slips() else name], stack, *signatures[name])
            case "move":
                return self.moved(stack, self.pick([*MOVES]), self.random.randint(0, 2), self.random.randint(0, 2))
            case "if" if depth < 3 and (stack[-1:] == [BOOL] or stack and self.slips()):
                rest = stack[:-1]
                first, second = (self.brought_back(rest, signatures, depth + 1) for _ in range(2))
                return ["IF", *first, *(["ELSE", *second] if second or self.chance(0.5) else []), "ENDIF"], rest
        kind = self.pick([INT, BOOL, SEGDES])
        return MADE[kind], [*stack, kind]

    def brought_back(self, stack: list[str], signatures: Signatures, depth: int) -> list[str]:
        words, after = self.kinded_items(stack, signatures, 3, depth)
        return [*words, *self.brought(after, stack)]

    def taken(self, words: list[str], stack: list[str], takes: list[str],
              gives: list[str]) -> tuple[list[str], list[str]]:
        below = len(stack) - len(takes)
        if (below < 0 or stack[below:] != takes) and not self.slips():
            return [], stack
        return words, stack[: max(below, 0)] + gives

    def moved(self, stack: list[str], word: str, lower: int, upper: int) -> tuple[list[str], list[str]]:
        below = len(stack) - lower - upper
        if below < 0 and not self.slips():
            return [], stack
        below = max(below, 0)
        low, up = stack[below : below + lower], stack[below + lower :]
        return [word, str(lower), str(upper)], stack[:below] + {"COPY": low + up + low, "POP": up,
                                                                "CPOP": up + low}[word]

    def kinded(self) -> tuple[bytes, bytes]:
        """Signatures and code."""
        names = ["MAIN", *(name for name in ("f", "g", "h") if self.chance(0.5))]
        signatures = {name: ([] if name == "MAIN" and not self.slips() else self.kinds(), self.kinds())
                      for name in names}
        text = "\n".join(self.signature_line(name, *arrow) for name, arrow in signatures.items())
        words = []
        for name in self.random.sample(names, len(names)):
            takes, gives = signatures[name]
            body, after = self.kinded_items(takes, signatures, 6, 0)
            words += [] if self.slips() else ["FUNC", name, *body, *self.brought(after, gives), "RET"]
        return text.encode(), self.text(words, 0.1)

    # ---- operands

    def near(self, count: int) -> int:
        return count if not self.slips() else max(0, count + self.pick([-1, 1]))

    def vector(self, kind: str, count: int) -> list[int]:
        return [self.random.randint(0, 1) if kind == BOOL else int(self.number()) if self.chance(0.6)
                else self.random.randint(-5, 9) for _ in range(self.near(count))]

    def index(self, length: int) -> int:
        return self.random.randrange(length) if length and not self.slips() else self.pick([-1, 0, 1, length])

    def operands(self, word: str, k: str | None) -> list[list[int]]:
        """Operands of an instruction whose word is followed by kind k, mostly of shapes that fit."""
        kinds = kinds_of(word, k).operands
        if word in ELEMENTWISE or word == "MAKE_SEGDES":
            return self.elements(word, kinds)
        s = [self.length() for _ in self.up_to(4)]
        values, one_each = self.vector(kinds[0], sum(s)), lambda kind: self.vector(kind, len(s))
        match word:
            case "DIST":
                return [one_each(k), self.large(s)]
            case "INDEX":
                return [one_each(INT), one_each(INT), self.large(s)]
            case "PERMUTE":
                return [values, self.places(s, s), s]
            case "BPERMUTE":
                r = [self.length() if length else 0 for length in s]
                return [values, [self.index(length) for length, count in zip(s, r) for _ in range(count)], s,
                        r[: self.near(len(r))]]
            case "DPERMUTE":
                r = [length + self.pick([0, 1, 2]) for length in s]
                return [values, self.places(s, r), self.vector(k, sum(r)), s, r[: self.near(len(r))]]
            case "EXTRACT":
                return [values, [self.index(length) for length in s], s]
            case "REPLACE":
                return [values, [self.index(length) for length in s], one_each(k), s]
            case "PACK":
                return [values, self.flags(sum(s)), s]
            case "LENGTHS":
                return [s]
        return [values, s]

    def length(self) -> int:
        return self.pick(SEAMS) if self.chance(0.15) else self.pick([0, 0, 1, 2, 3, 4])

    def flags(self, count: int) -> list[int]:
        """Flags, at times all alike or all but one or two."""
        flags = self.vector(BOOL, count)
        if flags and self.chance(0.4):
            flags = [self.pick([0, 1])] * len(flags)
            for _ in self.up_to(2):
                flags[self.pick([0, -1, self.random.randrange(len(flags))])] = self.pick([0, 1])
        return flags

    def elements(self, word: str, kinds: list[str]) -> list[list[int]]:
        count = self.pick([0, 1, 2, 3, 6]) if self.chance(0.9) else self.pick([17, 127, 128, 129])
        if word == "MAKE_SEGDES":
            return [[self.pick([0, 1, 2, 5, 2**32 - 1, 2**32 - 2, 2**32, -1, GREATEST, 2**62]) for _ in range(count)]]
        operands = [self.vector(kind, count) for kind in kinds]
        if word in ("LSHIFT", "RSHIFT") and operands[1] and self.chance(0.3):
            operands[1] = self.nearly_alike(operands[1])
        if word in ("LSHIFT", "RSHIFT") and self.chance(0.8):
            operands[1] = [shift % 64 for shift in operands[1]]
        if word in ("/", "%") and self.chance(0.8):
            operands[1] = [divisor or 3 for divisor in operands[1]]
        return operands

    def nearly_alike(self, vector: list[int]) -> list[int]:
        """The first element at all places, at times but for one."""
        alike = [vector[0]] * len(vector)
        if self.chance(0.4):
            alike[self.pick([-1, self.random.randrange(len(alike))])] = vector[-1]
        return alike

    def large(self, s: list[int]) -> list[int]:
        """The descriptor, at times with a segment that is too long to be made."""
        return [self.pick([1_048_577, 2**32 - 3]), *s[1:]] if s and self.slips() else s

    def places(self, s: list[int], r: list[int]) -> list[int]:
        """Indices that differ, one for each element of the segments s, in segments of lengths r; at times they rise, or nearly."""
        is_ordered = self.chance(0.5)
        taken = (self.random.sample(range(length), count) for count, length in zip(s, r))
        found = [index for some in taken for index in (sorted(some) if is_ordered else some)]
        if found and self.chance(0.3):
            found[self.pick([-1, self.random.randrange(len(found))])] = self.pick([-1, 0, 1, 5, found[0], found[-1], max(r)])
        if len(found) > 1 and self.chance(0.1):
            found[-2:] = reversed(found[-2:])
        return found
