"""Codes on which finding signatures may cost much: rings, chains and random graphs of calls, and wide stacks."""
from collections.abc import Callable, Iterator
from random import Random


def function(name: str, *lines: str) -> list[str]:
    return [f"FUNC {name}", *lines, "RET"]


def text(*functions: list[str]) -> bytes:
    return "".join(f"{line}\n" for lines in functions for line in lines).encode()


# What comes before a CALL that is made unless the number at the top is 0. After it comes ENDIF.
MAY_CALL = ("COPY 1 0", "CONST INT 0", "= INT", "IF", "ELSE")


def main() -> list[str]:
    return function("MAIN", "CONST INT 1", "CONST INT 2")


def chain(count: int) -> bytes:
    """Each function calls the next."""
    return text(main(), *(function(f"f{i}", "CONST INT 1", "+ INT", f"CALL f{i + 1}") for i in range(count)),
                function(f"f{count}"))


def backward_chain(count: int) -> bytes:
    """Each function calls the one before it."""
    return text(main(), function("f0"),
                *(function(f"f{i + 1}", "CONST INT 1", "+ INT", f"CALL f{i}") for i in range(count)))


def growing_chain(count: int) -> bytes:
    """Each function takes one operand more than the next, up to 256 of them."""
    last = min(count, 250)
    ends = [i % last == last - 1 or i + 1 == count for i in range(count)]
    return text(main(), *(function(f"f{i}", "+ INT", "COPY 1 0" if end else f"CALL f{i + 1}")
                          for i, end in enumerate(ends)))


def ring(count: int) -> bytes:
    """Each function calls the next, and the last calls the first; each may also return."""
    return text(main(), *(function(f"f{i}", *MAY_CALL, f"CALL f{(i + 1) % count}", "ENDIF") for i in range(count)))


def growing_ring(count: int) -> bytes:
    """A ring in which each function takes one operand more than the next, so it has no signatures."""
    other_part = ["CONST BOOL T", "ELSE", "POP 1 0", "ENDIF"]
    return text(main(), *(function(f"f{i}", "IF", f"CALL f{(i + 1) % count}", *other_part) for i in range(count)))


def closed_ring(count: int) -> bytes:
    """A ring that never returns."""
    return text(main(), *(function(f"f{i}", "CONST INT 1", "+ INT", f"CALL f{(i + 1) % count}") for i in range(count)))


def closed_loops(count: int) -> bytes:
    """Functions that call themselves and never return."""
    return text(main(), *(function(f"f{i}", "CONST INT 1", "+ INT", f"CALL f{i}") for i in range(count)))


def wheel(count: int) -> bytes:
    """A function that calls all others, which call it and each the next."""
    return text(main(), function("hub", *MAY_CALL, *(f"CALL f{i}" for i in reversed(range(count))), "ENDIF"),
                *(function(f"f{i}", *MAY_CALL, "CALL hub", "ENDIF", f"CALL f{i + 1}") for i in range(count)),
                function(f"f{count}"))


def random_calls(count: int, seed: int = 1) -> bytes:
    """Each function calls four others, and each may also return."""
    source = Random(seed)
    return text(main(), *(function(f"f{i}", *(line for _ in range(4) for line in (
        *MAY_CALL, f"CALL f{source.randrange(count)}", "ENDIF"))) for i in range(count)))


def random_takers(count: int, seed: int = 1) -> bytes:
    """The same, where functions take up to four operands and give as many back."""
    source = Random(seed)

    def body() -> list[str]:
        taken = source.randrange(1, 5)
        callee = source.randrange(count)
        return [f"COPY 1 {taken - 1}", *MAY_CALL[1:], f"CALL f{callee}", "ENDIF"]

    return text(main(), *(function(f"f{i}", *(line for _ in range(4) for line in body())) for i in range(count)))


def many_operands(count: int) -> bytes:
    """A function that calls one with 256 operands again and again."""
    return text(main(), function("f", "COPY 1 255", "POP 1 0"), function("g", *["CALL f"] * 16 * count))


def wide(copies: int, first: str = "CONST BOOL T") -> bytes:
    """A stack of 4,096 entries for each copy."""
    return text(function("MAIN", first, *(f"COPY {2 ** power} 0" for power in range(12)), *["COPY 4096 0"] * copies,
                         *["POP 4096 0"] * (copies + 1)))


def mixed(copies: int) -> bytes:
    """The same of entries of two kinds in turn, where each copy takes entries of two copies before."""
    return text(function("MAIN", "CONST BOOL T", "CONST INT 1", *(f"COPY {2 ** power} 0" for power in range(1, 12)),
                         *["COPY 4095 1"] * copies, *["POP 4095 0"] * copies, "POP 4096 0"))


def replaced(copies: int, depth: int = 60) -> bytes:
    """IFs in each other, of which the innermost takes a wide stack down and puts it up again."""
    part = ["COPY 1 0", "POP 1 0", "CONST BOOL T"]
    return text(function("MAIN", "CONST BOOL T", *(f"COPY {2 ** power} 0" for power in range(12)),
                         *["COPY 4096 0"] * copies, *[line for _ in range(depth) for line in (*part, "IF")],
                         *["POP 4096 0"] * copies, *["COPY 4096 0"] * copies, "CONST INT 5",
                         *["ELSE", "CONST INT 7", "ENDIF", "POP 1 0", "CONST INT 6"] * depth,
                         *["POP 4096 0"] * (copies + 1), "POP 1 0"))


def stacks() -> Iterator[tuple[str, bytes]]:
    """The names and codes of wide stacks. Each code has one function, which leaves nothing."""
    yield "wide", wide(5_000)
    yield "wide, of descriptors", wide(5_000, "CONST INT 1\nMAKE_SEGDES")
    yield "mixed", mixed(5_000)
    yield "replaced", replaced(100)


SHAPES: dict[str, Callable[..., bytes]] = {
    "chain": chain,
    "backward_chain": backward_chain,
    "growing_chain": growing_chain,
    "ring": ring,
    "growing_ring": growing_ring,
    "closed_ring": closed_ring,
    "closed_loops": closed_loops,
    "wheel": wheel,
    "random_calls": random_calls,
    "random_takers": random_takers,
    "many_operands": many_operands,
}
# Those that have no signatures, and what is said of them.
WITHOUT = {"growing_ring": b"asks for more and more operands"}
