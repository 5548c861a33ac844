"""The instructions: what may follow each word, the kinds of its operands and results, and how `worked_texts` prints it."""
from dataclasses import dataclass

from elements import ARITHMETIC, COMPARISONS, LOGIC

INT, BOOL, SEGDES = "Int", "Bool", "Segdes"
SCALARS = {"INT": INT, "BOOL": BOOL}

NUMBER_FOLDS = {"+": "Sum", "*": "Product", "MAX": "Max", "MIN": "Min"}
MOVES = {"COPY": "Copy", "POP": "Pop", "CPOP": "MoveToTop"}

ELEMENTWISE = [*ARITHMETIC, *COMPARISONS, *LOGIC, "NOT", "SELECT", "I_TO_B", "B_TO_I"]
# Words that are followed by INT, and words that are followed by INT or BOOL.
OF_NUMBERS = [*ARITHMETIC, *COMPARISONS, *(fold + end for fold in NUMBER_FOLDS for end in ("_SCAN", "_REDUCE"))]
OF_EITHER = [*LOGIC, "NOT", "SELECT", *(fold + end for fold in LOGIC for end in ("_SCAN", "_REDUCE")),
             "DIST", "PERMUTE", "BPERMUTE", "DPERMUTE", "EXTRACT", "REPLACE", "PACK"]
ALONE = ["I_TO_B", "B_TO_I"]
# A word INT may follow, and means nothing.
WITH_OPTION = ["INDEX", "MAKE_SEGDES", "LENGTHS"]
VECTOR_WORDS = [*OF_NUMBERS, *OF_EITHER, *ALONE, *WITH_OPTION]


@dataclass
class Kinds:
    """The kinds of an instruction's operands and results, from the bottom of the stack up."""

    operands: list[str]
    results: list[str]


def kinds_of(word: str, k: str | None) -> Kinds:
    """The kinds of a vector instruction; k is the kind that is written after its word."""
    if word in ARITHMETIC:
        return Kinds([INT, INT], [INT])
    if word in COMPARISONS:
        return Kinds([INT, INT], [BOOL])
    if word in LOGIC:
        return Kinds([k, k], [k])
    if word.endswith(("_SCAN", "_REDUCE")):
        return Kinds([k, SEGDES], [k])
    return {
        "NOT": Kinds([k], [k]),
        "SELECT": Kinds([BOOL, k, k], [k]),
        "I_TO_B": Kinds([INT], [BOOL]),
        "B_TO_I": Kinds([BOOL], [INT]),
        "DIST": Kinds([k, SEGDES], [k]),
        "INDEX": Kinds([INT, INT, SEGDES], [INT]),
        "PERMUTE": Kinds([k, INT, SEGDES], [k]),
        "BPERMUTE": Kinds([k, INT, SEGDES, SEGDES], [k]),
        "DPERMUTE": Kinds([k, INT, k, SEGDES, SEGDES], [k]),
        "EXTRACT": Kinds([k, INT, SEGDES], [k]),
        "REPLACE": Kinds([k, INT, k, SEGDES], [k]),
        "PACK": Kinds([k, BOOL, SEGDES], [k, SEGDES]),
        "MAKE_SEGDES": Kinds([INT], [SEGDES]),
        "LENGTHS": Kinds([SEGDES], [INT]),
    }[word]


def shown(word: str, k: str | None) -> str:
    """A vector instruction as `worked_texts` prints it."""
    if word in ARITHMETIC:
        return f"Elementwise(Arith({ARITHMETIC[word].name}))"
    if word in COMPARISONS:
        return f"Elementwise(Compare({COMPARISONS[word].name}))"
    if word in LOGIC:
        return f"Elementwise(Logic({LOGIC[word].name}, {k}))"
    for end, name in (("_SCAN", "Scan"), ("_REDUCE", "Reduce")):
        if word.endswith(end):
            fold = word.removesuffix(end)
            return f"Segmented({name}({NUMBER_FOLDS.get(fold) or f'Logic({LOGIC[fold].name}, {k})'}))"
    return {
        "NOT": f"Elementwise(Not({k}))",
        "SELECT": f"Elementwise(Select({k}))",
        "I_TO_B": "Elementwise(IntToBool)",
        "B_TO_I": "Elementwise(BoolToInt)",
        "DIST": f"Segmented(Distribute({k}))",
        "INDEX": "Segmented(Index)",
        "PERMUTE": f"Segmented(Permute({k}))",
        "BPERMUTE": f"Segmented(BackPermute({k}))",
        "DPERMUTE": f"Segmented(DefaultPermute({k}))",
        "EXTRACT": f"Segmented(Extract({k}))",
        "REPLACE": f"Segmented(Replace({k}))",
        "PACK": f"Segmented(Pack({k}))",
        "MAKE_SEGDES": "Segmented(MakeSegdes)",
        "LENGTHS": "Segmented(Lengths)",
    }[word]
