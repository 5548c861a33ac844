"""Random batches of the whole language: most jobs run, and many end at one of their limits, or just short of it."""
import kinds
import reader
from elements import ARITHMETIC, COMPARISONS, LOGIC
from faults import Fault
from instructions import BOOL, INT, MOVES, SCALARS, SEGDES, kinds_of
from random_cases import SPELLED, Random
from kinds import Signatures
from runs import Ended, Limits, Run

MOST_WORDS, MOST_CELLS, MOST_CALLS, MOST_JOBS = 1_048_576, 4_096, 1_024, 64
# The instructions that a job is tried on to find its edges. One that goes on has this budget at most.
MOST_TRIED = 300

# Functions that call themselves or each other: what each takes and gives, the numbers that it is called with, and its
# code.
RECURSIVE: dict[str, tuple[list[str], list[str], str]] = {
    "factorial": ([INT], [INT], "COPY 1 0 CONST INT 1 <= INT IF POP 1 0 CONST INT 1 ELSE"
                  " COPY 1 0 CONST INT 1 - INT CALL factorial * INT ENDIF"),
    "even": ([INT], [BOOL], "COPY 1 0 CONST INT 0 = INT IF POP 1 0 CONST BOOL T ELSE CONST INT 1 - INT CALL odd ENDIF"),
    "odd": ([INT], [BOOL], "COPY 1 0 CONST INT 0 = INT IF POP 1 0 CONST BOOL F ELSE CONST INT 1 - INT CALL even ENDIF"),
    # Leaves an entry behind in each call, which the way back takes off again.
    "deep": ([INT], [INT], "COPY 1 0 CONST INT 0 > INT IF COPY 1 0 CONST INT 1 - INT CALL deep + INT ENDIF"),
    # The same vector again and again: each call adds a cell, and no word.
    "shared": ([INT], [INT], "COPY 1 0 CALL drop POP 1 0 COPY 1 0 CONST INT 5 > INT IF COPY 1 0 CONST INT 3 / INT CALL shared POP 1 1 ENDIF"),
    "drop": ([INT], [INT], "COPY 1 0 POP 1 1"),
    "for_ever": ([], [], "CALL for_ever"),
    "grows": ([INT], [INT], "CONST INT (1 2 3) CALL grows POP 1 0"),
    "doubled": ([INT], [INT], "COPY 1 0 CALL doubled + INT"),
}
CALLED_WITH = {"even": ["odd"], "odd": ["even"], "shared": ["drop"]}


class RandomBatches(Random):
    # ---- code that runs

    def list_of(self, kind: str, elements: list[int]) -> list[str]:
        words = ["FT"[element] if kind == BOOL else str(element) for element in elements]
        return ["CONST", SPELLED[kind], *(words if len(words) == 1 and self.chance(0.5) else ["(", *words, ")"])]

    def value(self, kind: str, elements: list[int]) -> list[str]:
        return [*self.list_of(INT, elements), "MAKE_SEGDES"] if kind == SEGDES else self.list_of(kind, elements)

    def running_item(self, stack: list[str], signatures: Signatures, depth: int) -> tuple[list[str], list[str]]:
        """Words of an item that mostly runs from a stack of these kinds, and the stack behind it."""
        choice = self.pick(["laden"] * 6 + ["copied", "copied", "any", "move", "if", "call", "call"])
        if choice == "laden":
            return self.laden(stack)
        if choice == "copied" and stack:
            return self.copied(stack)
        if choice == "move":
            return self.moved(stack, self.pick([*MOVES]), self.random.randint(0, 3), self.random.randint(0, 3))
        if choice == "if" and depth < 3:
            return self.branched(stack, signatures, depth)
        if choice == "call" and signatures:
            return self.called(stack, signatures)
        return self.kinded_item(stack, signatures, depth) if signatures and self.chance(0.3) else ([], stack)

    def near(self, count: int) -> int:
        """Lengths that don't fit are more frequent than slips of kinds."""
        return super().near(count) if self.chance(0.95) else count + 1

    def laden(self, stack: list[str]) -> tuple[list[str], list[str]]:
        """A vector instruction over constants, mostly of shapes that fit."""
        word, written = self.vector_instruction()
        kind = SCALARS[written[0]] if written else None
        of = kinds_of(word, kind)
        operands = self.operands(word, kind)
        if self.chance(0.04):
            # All but the last are longer by one, so that several shapes are at fault.
            operands = [[*operand, *(operand[:1] or [1])] for operand in operands[:-1]] + operands[-1:]
        constants = [word for k, operand in zip(of.operands, operands) for word in self.value(k, operand)]
        return [*constants, word, *written], stack + of.results

    def copied(self, stack: list[str]) -> tuple[list[str], list[str]]:
        """An instruction over copies of one entry, which is among its operands itself at times."""
        kind = stack[-1]
        if kind == SEGDES:
            word, written = "LENGTHS", []
        else:
            word, written = self.pick(["NOT", *LOGIC,
                                       *([*ARITHMETIC, *COMPARISONS] if kind == INT else [])]), [SPELLED[kind]]
        of, copies = kinds_of(word, kind), self.random.randint(0, 2)
        if copies > len(of.operands):
            return [], stack
        taken = len(of.operands) - copies
        if taken > 1:
            return [], stack
        return [*["COPY", "1", "0"] * copies, word, *written], stack[: len(stack) - taken] + of.results

    def branched(self, stack: list[str], signatures: Signatures, depth: int) -> tuple[list[str], list[str]]:
        flag = self.pick([["T"]] * 30 + [["F"]] * 30 + [["(", "T", "F", ")"], ["(", ")"]])
        first, second = (self.brought_back(stack, signatures, depth + 1) for _ in range(2))
        return ["CONST", "BOOL", *flag, "IF", *first, *(["ELSE", *second] if second or self.chance(0.5) else []),
                "ENDIF"], stack

    def called(self, stack: list[str], signatures: Signatures) -> tuple[list[str], list[str]]:
        name = self.pick([*signatures])
        takes, gives = signatures[name]
        if takes and stack[-len(takes) :] == takes and self.chance(0.5):
            return ["CALL", name], stack[: -len(takes)] + gives
        if name == "MAIN" and not self.slips():
            return [], stack
        number = [self.pick([0, 1, 2, 3, 5, 8, 40])]
        arguments = [word for kind in takes
                     for word in self.value(kind, [int(self.chance(0.5))] if kind == BOOL else number)]
        return [*arguments, "CALL", name], stack + gives

    def kinded_items(self, stack: list[str], signatures: Signatures, most: int,
                     depth: int) -> tuple[list[str], list[str]]:
        words = []
        for _ in self.up_to(most):
            more, stack = self.running_item(stack, signatures, depth)
            words += more
        return words, stack

    # ---- jobs

    def functions(self) -> tuple[Signatures, list[list[str]]]:
        """The signatures of some functions, and their code."""
        names = self.random.sample([*RECURSIVE], self.pick([0, 0, 1, 1, 2]))
        names += [other for name in names for other in CALLED_WITH.get(name, []) if other not in names]
        signatures = {name: RECURSIVE[name][:2] for name in dict.fromkeys(names)}
        codes = [["FUNC", name, *RECURSIVE[name][2].split(), "RET"] for name in signatures]
        for name in (name for name in ("f", "g") if self.chance(0.4)):
            signatures[name] = self.kinds(), self.kinds()
        for name in (name for name in signatures if name not in RECURSIVE):
            takes, gives = signatures[name]
            body, after = self.kinded_items(takes, signatures, 4, 1)
            codes.append(["FUNC", name, *body, *self.brought(after, gives), "RET"])
        return signatures, codes

    def whole_code(self) -> tuple[bytes, bytes]:
        """The texts of a job's signatures and code."""
        signatures, codes = self.functions()
        body, after = self.kinded_items([], signatures, 14, 0)
        kept = self.kinds() if self.chance(0.1) else after
        codes.append(["FUNC", "MAIN", *body, *self.brought(after, kept), "RET"])
        signatures["MAIN"] = ([INT] if self.chance(0.01) else []), kept
        self.random.shuffle(codes)
        lines = [self.signature_line(name, *arrow)
                 for name, arrow in self.random.sample([*signatures.items()], len(signatures))]
        return "\n".join(lines).encode() + b"\n", self.text([word for code in codes for word in code], 0.04) + b"\n"

    def uses(self, signatures: bytes, code: bytes, is_second: bool) -> tuple[int, int, int, int]:
        """What a job needs of each limit, as far as it is tried."""
        try:
            functions = reader.read(code, 1)
            kinds.verify(functions, kinds.read_signatures(signatures, 1), 1)
        except Fault:
            return 9, 9, 4, 9
        run, cells, calls = Run(functions, Limits(MOST_WORDS, MOST_CELLS, MOST_CALLS, MOST_TRIED), is_second), 1, 1
        try:
            while run.calls:
                run.step()
                cells, calls = max(cells, len(run.stack)), max(calls, len(run.calls))
        except Ended:
            pass
        return run.peak, cells, calls, run.executed

    def limit(self, needed: int, least: int, most: int) -> int:
        """Mostly enough; else what is needed, one less or more, or anything below."""
        if self.chance(0.75):
            found = needed + self.pick([0, 1, 10, 100])
        else:
            found = self.pick([needed, needed - 1, needed - 1, needed + 1, self.random.randint(0, needed)])
        return min(max(found, least), most)

    def whole_job(self, is_second: bool) -> tuple[bytes, int]:
        signatures, code = self.whole_code()
        words, cells, calls, executed = self.uses(signatures, code, is_second)
        limits = [self.limit(words, 0, MOST_WORDS), self.limit(cells, 1, MOST_CELLS), self.limit(calls, 1, MOST_CALLS)]
        budget = self.limit(executed, 0, 1_000_000_000)
        name = self.pick(["t"] * 8 + ["wide", "a" * 64, "JOB", "{", "("])
        head = f"JOB {name} {' '.join(map(str, [*limits, budget]))}\nSIGNATURES\n".encode()
        return head + signatures + b"CODE\n" + code + b"END\n", limits[0]

    # ---- batches

    def rule_line(self, is_second: bool) -> bytes:
        """A line that says the second rule, mostly spelled well; seldom one where it isn't meant."""
        if not is_second:
            return b"" if self.chance(0.98) else b"BATCH 1\n"
        spelled = self.pick([b"BATCH 2"] * 20 + [b" BATCH\t2 \r", b"BATCH 02", b"BATCH 2 2", b"BATCH 2\nBATCH 2",
                                                 b"BATCH", b"batch 2"])
        return self.pick([b""] * 9 + [b"\n", b" \t\r\n\n"]) + spelled + b"\n"

    def whole_batch(self) -> tuple[bytes, int]:
        """The bytes of a batch, and the words of a region."""
        is_second = self.chance(0.4)
        made = [self.whole_job(is_second) for _ in range(self.pick([0, 1, 1, 1, 1, 2, 2, 3, 4, 6, 9]))]
        if made and self.chance(0.02):
            made = [self.pick(made) for _ in range(self.pick([63, 64, 65]))]
        gaps = [self.pick([b""] * 9 + [b"\n", b" \t\r\n\n"]) for _ in range(len(made) + 1)]
        text = b"".join(gap + job for gap, (job, _) in zip(gaps, made)) + gaps[-1]
        text = self.rule_line(is_second) + text
        text = text[:-1] if self.chance(0.05) else text
        while self.chance(0.03):
            text = self.changed_bytes(text)
        widest, together = max((words for _, words in made), default=1), sum(words for _, words in made)
        region = self.pick([widest, widest, widest + 1, widest + 5, together, MOST_WORDS, max(widest - 1, 1)])
        return text, min(max(region, 1), MOST_WORDS)

    # ---- schedules

    def schedule(self) -> str:
        """Turns of the first jobs mostly, of any job sometimes, in steps and in halves of steps."""
        items = []
        for _ in range(self.random.randint(1, 60)):
            job = self.random.randint(1, 4 if self.chance(0.9) else MOST_JOBS)
            items.append(f"{self.pick(['', '', 'b', 'f'])}{job:0{self.random.randint(1, 2)}}")
        return ",".join(items)
