#!/usr/bin/env python3
"""Measures the forms of docs/COMPILING.md, and prints the table of the page: compiling.py [--page | --check] [PROGRAM]

A form is a function of examples/idioms.vcode or examples/forms.vcode. For n of 1, 100 and 20,000 elements it prints the
instructions of a call and the words that are held and needed at most, operands included. Then it prints nanoseconds of
processor time an element: the least of several runs with many calls, without that of runs with none. Segments have ten
elements, or one where the row says so. `repeated` and `until_done` take n turns, and `merged` puts n elements beside n
others. PROGRAM is the path of vjobs, and bin/vjobs if it isn't given.

--page writes the table into the page, and the constant time of an instruction, which follows from it. --check times
nothing: it compares the instructions and words of the page with those of PROGRAM, or with those of models/ at 1 and 100
elements if the program isn't there.
"""
import argparse
import re
import sys
from importlib import import_module
from pathlib import Path

from steps import TOP, Load, batch, run

PAGE = TOP / "docs" / "COMPILING.md"
SIZES = (1, 100, 20_000)
RUNS = 5
# About how many elements a load goes through.
WORK = 3_000_000
# The most jobs of a batch.
MOST_JOBS = 64
FILES = [TOP / "examples" / name for name in ("idioms.vcode", "forms.vcode")]

# The signature and the code of each function, by its name.
Functions = dict[str, tuple[str, list[str]]]

# The forms, with the names of their operands. Those of a row do the same. The lengths of long_constant are in its code.
ROWS = [
    ["constant P"],
    ["total S10 P10"],
    ["conditional x flags P", "written_over x flags P"],
    ["read_in_branch x chosen10 S10 flags10"],
    ["merged x S10 evens10 P10 x S10 odds10 P10 both10"],
    ["filter_nested x S10 flags10 one10", "kept_sequences x S10 flags10 one10 P10"],
    ["filter x flags S10"],
    ["into_loop x10 S10", "into_loop x rows"],
    ["element_of_outer x inside10 S10 S10", "element_of_outer x zeros rows rows"],
    ["sequence_into_loop x S10 P P10 rows10 P10"],
    ["element_of_nested x S10 rows10 zeros10 P10 P10", "cell x S10 rows10 zeros10 zeros10 P10 P10"],
    ["append x S10 x S10 P10"],
    ["reversed x S10 P10"],
    ["pair x x P"],
    ["range_of zeros ones P"],
    ["floor_quotient x ones P"],
    ["floor_rest x ones P"],
    ["greater x x"],
    ["inclusive_sums x S10", "inclusive_sums x rows"],
    ["equal_flags flags flags"],
    ["by_bit x ones10 S10"],
    ["distinct x S10"],
    ["two_levels S10 P10"],
    ["checked trues"],
    ["repeated none turns"],
    ["until_done turns twenty"],
]
FORMS = [form for row in ROWS for form in row]
# For a run of `steps.py` whose text is there.
NO_LOAD = Load("", 0, "", [], 0, [])
# The kinds of the operands that aren't INT.
KINDS = {"P": "SEGDES", "S10": "SEGDES", "rows": "SEGDES", "one10": "SEGDES", "both10": "SEGDES", "flags": "BOOL",
         "trues": "BOOL"}


def counted(n: int) -> list[str]:
    return [f"CONST INT {n}", "MAKE_SEGDES"]


def filled(number: int, n: int) -> list[str]:
    return [f"CONST INT {number}", *counted(n), "DIST INT"]


def numbers(n: int, start: int = 0, stride: int = 1) -> list[str]:
    return [f"CONST INT {start}", f"CONST INT {stride}", *counted(n), "INDEX"]


def flags(n: int) -> list[str]:
    """Every second number, in an order that no processor learns."""
    return [*numbers(n), *filled(7_919, n), "* INT", *filled(1_009, n), "% INT", *filled(2, n), "% INT", "I_TO_B"]


def operand(name: str, n: int) -> tuple[list[str], str]:
    """The code that makes an operand for n elements, and its kind. A name with 10 has one for ten elements."""
    tenth = max(1, n // 10)
    if name.endswith("10") and name[:-2] in ("x", "zeros", "ones", "flags", "P", "rows"):
        return operand(name[:-2], tenth)
    code = {
        "x": numbers(n), "zeros": filled(0, n), "ones": filled(1, n), "P": counted(n), "flags": flags(n),
        "none": ["CONST INT 0"], "turns": [f"CONST INT {n}"], "twenty": ["CONST INT 20"],
        "rows": [*filled(1, n), "MAKE_SEGDES"],
        "trues": [*filled(1, n), "I_TO_B"],
        "one10": counted(tenth), "both10": counted(2 * tenth),
        "evens10": numbers(tenth, 0, 2), "odds10": numbers(tenth, 1, 2),
        "S10": [*filled(n // tenth, tenth), "MAKE_SEGDES"],
        "inside10": [*numbers(n), *filled(n // tenth, n), "% INT"],
        # A zero for each flag that is T.
        "chosen10": ["CONST INT 0", *flags(tenth), "B_TO_I", *counted(tenth), "+_REDUCE INT", "MAKE_SEGDES",
                     "DIST INT"],
    }[name]
    return code, KINDS.get(name, "INT")


def functions() -> Functions:
    """The signature and the code of each function of the files, by its name."""
    found: Functions = {}
    for text in (file.read_text() for file in FILES):
        lines = {name: line for line, name in re.findall(r"^((\S+) \(.*\) -> \(.*\))$", text, re.M)}
        for name, body in re.findall(r"^FUNC (\S+)[^\n]*\n(.*?)^RET", text, re.M | re.S):
            found[name] = lines[name], body.splitlines()
    return found


def load(form: str, n: int, rounds: int, all_functions: Functions) -> Load:
    """A load of `steps.py`, whose rounds copy the operands, call the form and drop its results."""
    name, *operands = form.split()
    made = [operand(it, n) for it in operands]
    signature, _ = all_functions[name]
    results = signature.split("->")[1].strip(" ()").split()
    code = [f"COPY {len(made)} 0", f"CALL {name}", f"POP {len(results)} 0"]
    kinds = " ".join(kind for _, kind in made)
    called = dict.fromkeys([name, *re.findall(r"CALL (\S+)", "\n".join(all_functions[name][1]))])
    begin = [line for lines, _ in made for line in lines]
    return Load(name, rounds, kinds, begin, len(made), code, [all_functions[it] for it in called])


def report_of(program: list[str], text: str) -> str:
    if program:
        report = run(program, NO_LOAD, text)[1] or b""
        return report.decode()
    # Before this folder, which has a module of the same name as one of models/.
    sys.path.insert(0, str(TOP / "models"))
    return import_module("batches").report(text.encode(), 1_048_576)[0]


def counts(program: list[str], sizes: tuple[int, ...], all_functions: Functions) -> dict[tuple[str, int], str]:
    """The instructions of a call of each form at each size, and the most words."""
    cases = [(form, n) for form in FORMS for n in sizes]
    jobs = [batch(load(*case, 1, all_functions), rounds) for case in cases for rounds in (1, 0)]
    used: list[tuple[int, int]] = []
    for start in range(0, len(jobs), MOST_JOBS):
        report = report_of(program, "".join(jobs[start : start + MOST_JOBS]))
        ends = re.findall(r" RETURNED\nUSED (\d+) instructions (\d+) words", report)
        if len(ends) != len(jobs[start : start + MOST_JOBS]):
            sys.exit(f"some forms don't return:\n{report}")
        used += [(int(instructions), int(words)) for instructions, words in ends]
    # A round also calls the form, returns from it, and copies and drops its operands.
    return {case: f"{once[0] - never[0] - 5:,}; {once[1]:,}"
            for case, once, never in zip(cases, used[::2], used[1::2])}


def nanoseconds(program: list[str], form: str, n: int, all_functions: Functions) -> float:
    """Of one thread for each element."""
    many = load(form, n, max(1, WORK // (n + 40)), all_functions)
    all_rounds, none = ([run(program, many, text)[0] for _ in range(RUNS)]
                        for text in (batch(many, many.rounds), batch(many, 0)))
    return max(0, min(all_rounds) - min(none)) / many.rounds / n * 1e9


def shown(time: float) -> str:
    return f"{time:,.0f}" if time >= 20 else f"{time:.1f}"


def name_of(form: str) -> str:
    return f"`{form.split()[0]}`" + (", segments of one" if form.endswith("rows") else "")


def table(program: list[str]) -> tuple[list[str], str]:
    """The lines of the table; and from what to what a single element takes for each instruction of a form, with the
    five around it."""
    all_functions = functions()
    counted_cells = counts(program, SIZES, all_functions)
    constant: list[float] = []
    lines = ["| Form | n = 1: instructions; words; ns | " + " | ".join(f"n = {n:,}" for n in SIZES[1:]) + " |",
             "|---" * (1 + len(SIZES)) + "|"]
    for form in FORMS:
        times = [nanoseconds(program, form, n, all_functions) for n in SIZES]
        cells = [f"{counted_cells[form, n]}; {shown(time)}" for n, time in zip(SIZES, times)]
        constant.append(times[0] / (int(counted_cells[form, 1].split(";")[0].replace(",", "")) + 5))
        lines.append(f"| {' | '.join([name_of(form), *cells])} |")
        print(lines[-1], file=sys.stderr, flush=True)
    return lines, f"{min(constant):.0f} to {max(constant):.0f} ns"


def table_of_page() -> str:
    return re.search(r"^\| Form \|.*\n(\|.*\n)+", PAGE.read_text(), re.M)[0]


def differences(program: list[str]) -> list[str]:
    """The cells of the page that say other instructions or words."""
    rows = [line.strip("| ").split(" | ") for line in table_of_page().splitlines()[2:]]
    said = {(name, n): cell.rpartition("; ")[0] for name, *cells in rows for n, cell in zip(SIZES, cells)}
    found = counts(program, SIZES if program else SIZES[:2], functions())
    cells = [(name_of(form), n, said.pop((name_of(form), n), None), count) for (form, n), count in found.items()]
    left = [f"{name} at {n:,}: no such form" for name, n in said if program or n in SIZES[:2]]
    return left + [f"{name} at {n:,}: {old}, and it is {new}" for name, n, old, new in cells if old != new]


def main() -> None:
    parser = argparse.ArgumentParser()
    parser.add_argument("--page", action="store_true")
    parser.add_argument("--check", action="store_true")
    parser.add_argument("program", type=Path, nargs="?", default=TOP / "bin" / "vjobs")
    words = parser.parse_args()
    program = [str(words.program), "--workers", "1"] if words.program.is_file() else []
    if words.check:
        found = differences(program)
        print(*found, f"forms: {len(FORMS)}, {len(found)} cells of the page differ", sep="\n")
        sys.exit(bool(found))
    if not program:
        sys.exit(f"there is no {words.program}: `make` builds it, and `make fast CRATE=vjobs` bin/unproved/vjobs")
    lines, constant = table(program)
    if words.page:
        text = PAGE.read_text().replace(table_of_page(), "\n".join([*lines, ""]))
        PAGE.write_text(re.sub(r"(?<=constant time of an instruction is )\d+ to \d+ ns", constant, text))
    else:
        print(*lines, f"constant time of an instruction: {constant}", sep="\n")


if __name__ == "__main__":
    main()
