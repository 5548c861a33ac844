"""What `vjobs-why` has to say of the last line of a job, from the second writing."""
import vectors
from instructions import ELEMENTWISE, SEGDES, kinds_of
from reader import Item
from runs import NOT_SINGLE, Run, need
from vectors import segments

# The names of the operands of the instructions over segments that aren't folds or DIST, by the page on the language.
NAMES = {
    "INDEX": "A D S", "PERMUTE": "V I S", "EXTRACT": "V I S", "BPERMUTE": "V I S R", "DPERMUTE": "V I D S R",
    "REPLACE": "V I X S", "PACK": "V B S", "MAKE_SEGDES": "I", "LENGTHS": "S", "NOT": "a", "I_TO_B": "a", "B_TO_I": "a",
    "SELECT": "flag a b",
}


def names_of(word: str) -> list[str]:
    return (NAMES.get(word) or ("a b" if word in ELEMENTWISE else "V S")).split()


def length(name: str, kind: str | None, words: list[int]) -> str:
    if kind == SEGDES:
        return f"segments of {name}: {len(words)}, elements: {sum(words)}"
    return f"elements of {name}: {len(words)}"


def bad_index(word: str, of: dict[str, list[int]]) -> str:
    """The first index that is outside its segment: its place, its segment, and how many places that has."""
    if word in ("EXTRACT", "REPLACE"):
        found = [(place, place, size) for place, size in enumerate(of["S"])]
    else:
        cut, sizes = {"PERMUTE": ("S", "S"), "BPERMUTE": ("R", "S"), "DPERMUTE": ("S", "R")}[word]
        owners = [segment for segment, size in enumerate(of[cut]) for _ in range(size)]
        found = [(place, segment, of[sizes][segment]) for place, segment in enumerate(owners)]
    place, segment, size = next(it for it in found if not 0 <= of["I"][it[0]] < it[2])
    return f"at place {place} of {len(of['I'])}, I is {of['I'][place]}, and segment {segment} has {size} places"


def index_twice(of: dict[str, list[int]]) -> str | None:
    """The first place whose index an earlier place of its segment has, and that place."""
    begin = 0
    for segment, part in enumerate(segments(of["S"], of["I"])):
        for place, index in enumerate(part):
            if index in part[:place]:
                first, second = begin + part.index(index), begin + place
                return f"at places {first} and {second}, I is {index}, both in segment {segment}"
        begin += len(part)
    return None


def bad_length(lengths: list[int]) -> str | None:
    total = 0
    for place, size in enumerate(lengths):
        total += size
        if size < 0:
            return f"at place {place} of {len(lengths)}, the length is {size}"
        if total > vectors.GREATEST_TOTAL:
            return f"at place {place} of {len(lengths)}, the total is {total}, and at most {vectors.GREATEST_TOTAL} are allowed"
    return None


def fault_note(word: str, kinds: list[str], operands: list[list[int]], fault: str) -> str | None:
    """What is said of a fault of an instruction with these operands."""
    of = dict(zip(names_of(word), operands))
    if fault == vectors.ZERO_DIVISOR:
        place = of["b"].index(0)
        return f"at place {place} of {len(of['b'])}, {of['a'][place]} is divided by 0"
    if fault == vectors.BAD_SHIFT:
        place, shift = next((place, shift) for place, shift in enumerate(of["b"]) if not 0 <= shift <= 63)
        return f"at place {place} of {len(of['b'])}, the shift is by {shift}"
    if fault == vectors.BAD_INDEX:
        return bad_index(word, of)
    if fault == vectors.INDEX_TWICE:
        return index_twice(of)
    if fault == vectors.BAD_LENGTH:
        return bad_length(of["I"])
    return "; ".join(length(name, kind, of[name]) for name, kind in zip(of, kinds))


def depth_after(item: Item, depth: int) -> int:
    if item.what == "Const":
        return depth + 1
    if item.what == "Move":
        return depth + item.numbers[0]
    kinds = kinds_of(item.word, item.kind)
    return depth - len(kinds.operands) + len(kinds.results)


def note_of(job: Run, item: Item, end: str) -> tuple[str | None, int | None]:
    """What is said of the instruction that a job ended before, and the words that it wanted if these ended it."""
    limits, depth = job.limits, len(job.stack)
    if end in ("RETURNED", "BUDGET"):
        return {"RETURNED": "returns", "BUDGET": "would be next"}[end], None
    if end == "MEMORY M2 CELLS":
        return f"{depth} entries now and {depth_after(item, depth)} after it, and the limit is {limits.cells}", None
    if end == "MEMORY M3 CALLS":
        calls = len(job.calls)
        return f"{calls} calls are active now and {calls + 1} in it, and the limit is {limits.calls}", None
    if end == f"FAULT {NOT_SINGLE}":
        return length("flag", None, job.stack[-1].words), None
    kinds = [] if item.what == "Const" else kinds_of(item.word, item.kind).operands
    operands = [entry.words for entry in job.stack[depth - len(kinds) :]]
    if end.startswith("FAULT "):
        return fault_note(item.word, kinds, operands, end.removeprefix("FAULT ")), None
    held, more = job.words(len(kinds), 0), len(item.numbers) if item.what == "Const" else need(item.word, operands)
    below = " below the operands" if job.is_second and kinds else ""
    return f"{held} words held{below} and {more} needed are {held + more}, and the limit is {limits.words}", held + more
