"""The tables of whole jobs: batches that are written in a short form, and what they come to."""
from collections.abc import Iterator
from pathlib import Path

TOP = Path(__file__).resolve().parent.parent


def written_out(text: str) -> str:
    """A batch of a table, with its lines as often as they are to stand there."""
    first, *parts = text.split("=== ")
    for part in parts:
        head, _, lines = part.partition("\n")
        if "times" in head:
            lines = lines if head.endswith("times") else lines.rstrip()
            first += "".join(lines.replace("#", str(number + 1)) for number in range(int(head.split()[0])))
        else:
            first += lines
        if head == "open":
            first = first[:-1]
    return first


def batches_of(table: Path) -> Iterator[tuple[bytes, int]]:
    """Each batch of a table, with its region."""
    for case in table.read_text("latin1").split("=== job ")[1:]:
        head, _, text = case.partition("\n")
        batch = text.partition("=== report, exit ")[0]
        batch = batch.partition("=== batch\n")[2] or batch
        yield written_out(batch).encode("latin1"), int(head.rpartition(" ")[2])
