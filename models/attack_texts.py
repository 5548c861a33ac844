"""Texts of jobs that are dear to check, or to look at, beside their bytes."""
from collections.abc import Iterable, Iterator

# Copies and removals by which a stack of one entry gets 4,096, and loses them.
UP = [f"COPY {1 << bit} 0" for bit in range(12)]
# The most IFs that may be open, and the most functions.
MOST_OPEN, MOST_FUNCTIONS = 64, 512


def job(code: list[str], signatures: Iterable[str] = ("MAIN () -> ()",), limits: str = "100 100 100 0") -> bytes:
    """A job of these lines. With these limits it is checked and doesn't run."""
    lines = [f"JOB a {limits}", "SIGNATURES", *signatures, "CODE", *code, "END", ""]
    return "\n".join(lines).encode()


def plain(size: int) -> bytes:
    """Plain code: constants and sums, with few entries on the stack."""
    lines = ["CONST INT 1", "CONST INT 2", "+ INT", "POP 1 0"]
    return job(["FUNC MAIN", *lines * (size // sum(len(line) + 1 for line in lines)), "RET"])


def up(times: int) -> list[str]:
    return [*UP, *["COPY 4096 0"] * times]


def down(times: int) -> list[str]:
    return [*["POP 4096 0"] * times, "POP 4095 0"]


def deep(size: int, wide: int, depth: int, other_part: Iterable[str] = ()) -> bytes:
    """Nested IFs whose innermost part takes a wide stack down and puts it up again; `other_part` comes at each end."""
    nest = [*["COPY 1 0", "IF"] * depth, *down(wide), *up(wide), *[*other_part, "ENDIF"] * depth]
    times = max(1, size // (sum(len(line) + 1 for line in nest)))
    return job(["FUNC MAIN", "CONST BOOL T", *up(wide), *nest * times, *down(wide), "POP 1 0", "RET"])


def one_after_another(size: int, wide: int) -> bytes:
    """IFs one after another over a wide stack, each of which takes one entry and puts it back."""
    nest = ["COPY 1 0", "IF", "POP 1 0", "CONST BOOL T", "ENDIF"]
    times = size // sum(len(line) + 1 for line in nest)
    return job(["FUNC MAIN", "CONST BOOL T", *up(wide), *nest * times, *down(wide), "POP 1 0", "RET"])


def moves(size: int, move: str) -> bytes:
    """The same move of entries again and again, on a stack of 8,192 entries."""
    return job(["FUNC MAIN", "CONST BOOL T", *up(1), *[move] * (size // (len(move) + 1)), *down(1), "POP 1 0", "RET"])


def copies(size: int) -> bytes:
    """A stack that is as wide as a text of so many bytes makes it, and isn't taken down: the check refuses it at RET."""
    return job(["FUNC MAIN", "CONST BOOL T", *up(size // len("COPY 4096 0\n")), "RET"])


def calls(size: int) -> bytes:
    """CALLs that take and give as many entries as a signature may have."""
    many = " ".join(["BOOL"] * 256)
    count = size // len("CALL f\n")
    code = ["FUNC MAIN", "CONST BOOL T", *UP, *["CALL f"] * count, "POP 4095 0", "POP 1 0", "RET", "FUNC f", "RET"]
    return job(code, ["MAIN () -> ()", f"f ({many}) -> ({many})"])


def dear_texts(size: int) -> Iterator[tuple[str, bytes]]:
    """Texts of about so many bytes, by name, whose check may take at most so much more than that of plain code."""
    yield f"{MOST_OPEN} IFs over 900 x 4,096 entries", deep(size, 900, MOST_OPEN)
    yield "the same with ELSE", deep(size, 900, MOST_OPEN, ["ELSE"])
    yield "IFs one after another", one_after_another(size, 900)
    yield "CPOP 4096 4096", moves(size, "CPOP 4096 4096")
    yield "COPY alone", copies(size)


def other_texts(size: int) -> Iterator[tuple[str, bytes]]:
    """More of them: other depths and widths, and other moves."""
    for wide in (1, 20, 900):
        for depth in (1, 8, MOST_OPEN - 1):
            yield f"{depth} IFs over {wide} x 4,096 entries", deep(size, wide, depth)
    yield "an ELSE that puts anew", deep(size, 20, 8, ["ELSE", "POP 4096 0", "COPY 4096 0"])
    for move in ("CPOP 1 4096", "CPOP 4095 1", "POP 0 4096", "COPY 0 4096"):
        yield move, moves(size, move)
    yield "CALLs", calls(size)


# ---- what vjobs-why looks at

def every_call(count: int = MOST_FUNCTIONS - 12, next_ones: int = 7, budget: int = 3_000_000) -> bytes:
    """Functions that each call the next ones: many stacks of calls."""
    names = [f"f{number}" for number in range(count)]
    code = ["FUNC MAIN", "CALL f0", "RET"]
    for number, name in enumerate(names):
        code += [f"FUNC {name}", *(f"CALL {called}" for called in names[number + 1 : number + 1 + next_ones]), "RET"]
    return job(code, ["MAIN () -> ()", *(f"{name} () -> ()" for name in names)], f"10 16 1024 {budget}")


def long_alone(limits: str) -> bytes:
    """A job of a vector of 1,048,576 words at most and of calls without end, with such limits."""
    code = ["FUNC MAIN", "CONST INT 3", "CONST INT 340000", "MAKE_SEGDES", "DIST INT", "CALL f", "POP 1 0", "RET",
            "FUNC f", "COPY 1 0", "COPY 1 0", "% INT", "POP 1 0", "CALL f", "RET"]
    return job(code, ["MAIN () -> ()", "f (INT) -> (INT)"], limits)


def forked(depth: int, limits: str) -> bytes:
    """Functions that each call the next twice, so that the whole run is long, with such limits."""
    names = [f"f{number}" for number in range(depth)]
    code = ["FUNC MAIN", "CALL f0", "RET"]
    for name, called in zip(names, [*names[1:], None]):
        code += [f"FUNC {name}", *[f"CALL {called}"] * (2 if called else 0), "RET"]
    return job(code, ["MAIN () -> ()", *(f"{name} () -> ()" for name in names)], limits)


# Jobs that end early by one of their limits, and would run long within the widest ones.
SHORT_RUNS = {
    "budget 1 before long calls": long_alone("8 4096 1024 1"),
    "words 1 before long calls": long_alone("1 4096 1024 1000"),
    "budget 1 before forked calls": forked(30, "8 16 100 1"),
    "2 calls before forked calls": forked(30, "8 16 2 1000"),
}

# Names and comments that would act on a terminal or a page.
ODD_TEXTS = {
    "escapes in comments": b"JOB a 9 9 9 9\nSIGNATURES\nMAIN () -> ()\nCODE\nFUNC MAIN {\x1b[2J \xe2\x80\xae bidi \x9b31m}\n"
                           b"CONST INT {\x1b]0;title\x07} 1\nCONST BOOL T\n+ INT { \x1b[5m}\nRET\nEND\n",
    "escapes in code": b"JOB a 9 9 9 9\nSIGNATURES\nMAIN () -> ()\nCODE\nFUNC MAIN\n\x1b[2J\nRET\nEND\n",
    "escapes in a name": b"JOB a\x1b[2J 9 9 9 9\nSIGNATURES\nMAIN () -> ()\nCODE\nFUNC MAIN\nRET\nEND\n",
    "marks of a page": b"JOB </script><script>alert(1)</script> 9 9 9 9\nSIGNATURES\nMAIN () -> (INT)\n<!--<script> () -> ()\n"
                       b"CODE\nFUNC MAIN {</script><img src=x onerror=alert(1)>}\nCALL <!--<script>\nCONST INT 1\nRET\n"
                       b"FUNC <!--<script>\nRET\nEND\n",
    "a command as a name": b"JOB ;id>pwned; 9 16 4 100\nSIGNATURES\nMAIN () -> (INT)\nCODE\nFUNC MAIN\nCONST INT 3\nRET\nEND\n",
}
