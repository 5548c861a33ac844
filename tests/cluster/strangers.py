"""Job files of strangers, hostile ones among them: python3 strangers.py FOLDER COUNT writes them.

Each file has the end that vjobs-spread has to give it under the limits of this file. The order is mixed, and always the
same for the same count."""
from __future__ import annotations

import os
import random
import sys
from dataclasses import dataclass
from pathlib import Path

# The limits that the ends are for. No job but those that run for days takes more than a second of a processor.
MEMORY, OUTPUT = 50_000_000, 5_000_000
ANSWERED, LEFT_OUT, TIME, MEMORY_END, OUTPUT_END = "ANSWERED", "LEFT_OUT", "TIME", "MEMORY", "OUTPUT"
# How many ordinary files differ; the others are copies.
DIFFERENT = 120
# A path of each kind that isn't a regular file.
FIFO, FOLDER, DEVICE, MISSING = "fifo", "folder", "device", "missing"


@dataclass(frozen=True)
class Stranger:
    """A file: its name, what it holds or what else it is, and its end."""

    name: bytes
    content: bytes
    end: str
    kind: str = ""


def job(code: str, gives: str = "INT", limits: str = "1000 64 64 10000", name: str = "job", functions: str = "") -> str:
    """A batch of one job."""
    return f"JOB {name} {limits}\nSIGNATURES\nMAIN () -> ({gives})\n{functions}CODE\nFUNC MAIN\n{code}\nRET\nEND\n"


def repeated(doublings: int, words: int, limits: str) -> str:
    """A job that makes a vector of so many words again and again, twice as often for each doubling."""
    signatures = "".join(f"f{at} () -> ()\n" for at in range(doublings + 1))
    lines = ["FUNC f0", "CONST INT 0", "CONST INT 1", f"CONST INT {words}", "MAKE_SEGDES", "INDEX", "POP 1 0", "RET"]
    for at in range(1, doublings + 1):
        lines += [f"FUNC f{at}", f"CALL f{at - 1}", f"CALL f{at - 1}", "RET"]
    text = job(f"CALL f{doublings}", "", limits, "again", signatures)
    return text.replace("CODE\n", "CODE\n" + "\n".join(lines) + "\n", 1)


def vector(words: int) -> str:
    """Code that makes a vector of so many words."""
    return f"CONST INT 5\nCONST INT 1\nCONST INT {words}\nMAKE_SEGDES\nINDEX"


ONE = job("CONST INT 1")
SLOW = repeated(12, 200_000, "250000 64 64 1000000000")
DAYS = repeated(27, 200_000, "250000 64 64 1000000000")
GIGABYTES = job(vector(250_000) + "\nCOPY 1 0" * 250, "INT " * 251, "250010 300 64 10000")
WIDE = job(vector(10) + "\nPOP 1 0\nCONST INT 7", limits="1048576 64 64 100")
CHECK = job("CONST INT 1\n" + "COPY 1 0\n" * 4095 + "COPY 4096 0\n" * 100_000, limits="5 4096 64 100")
LARGE = job("{ " + ("x" * 99 + "\n") * 93_000 + "}\nCONST INT 9")


def hostile() -> list[Stranger]:
    """Files that try to take more than their own, and names that a shell or a terminal would act on."""
    contents = [
        (DAYS, TIME),
        (DAYS.replace("again", "days"), TIME),
        (GIGABYTES, OUTPUT_END),
        (WIDE, MEMORY_END),
        (CHECK, MEMORY_END),
        (ONE.replace("CONST INT 1", "CONST INT 1\nRET\nEND\nJOB mine 5 16 4 100\nSIGNATURES\nMAIN () -> ()\nCODE\nFUNC MAIN"), LEFT_OUT),
        (ONE + ONE, LEFT_OUT),
        (ONE.replace("END\n", ""), LEFT_OUT),
        (ONE.replace("JOB job", "JOB ../../owned"), ANSWERED),
        (ONE.replace("JOB job", "JOB END"), ANSWERED),
        (ONE.replace("JOB job", "JOB LOST"), ANSWERED),
        (ONE.replace("1000 64", "-1 64"), LEFT_OUT),
        ("", LEFT_OUT),
        ("\n\n  \n", LEFT_OUT),
        (ONE + "junk\n", LEFT_OUT),
        (ONE + "END 1 jobs 0 refused\n", LEFT_OUT),
        (ONE.removesuffix("\n"), ANSWERED),
        (ONE.replace("\n", "\r\n"), ANSWERED),
        ("\n\n" + ONE + "\n \t\r\n", ANSWERED),
        ("BATCH 2\n" + ONE, ANSWERED),
        ("BATCH 2\n" + job(vector(100) + "\nCOPY 1 0\n+ INT", limits="220 64 64 100"), ANSWERED),
        (ONE.replace("CONST INT 1", "{ END of it }\nCONST INT 1"), ANSWERED),
        (ONE.replace("CONST INT 1", "{ open\nCONST INT 1"), LEFT_OUT),
        (LARGE, ANSWERED),
        (LARGE.replace("job", "large"), ANSWERED),
        (LARGE + "\n" * 8_000_000, LEFT_OUT),
    ]
    texts = [Stranger(b"hostile/%02d" % at, text.encode(), end) for at, (text, end) in enumerate(contents)]
    texts.append(Stranger(b"hostile/bytes", bytes(range(256)) * 40, LEFT_OUT))
    kinds = [Stranger(b"hostile/" + kind.encode(), b"", LEFT_OUT, kind) for kind in (FIFO, FOLDER, DEVICE, MISSING)]
    return [*texts, *kinds, *(Stranger(name, ONE.encode(), ANSWERED) for name in NAMES)]


NAMES = [
    b"-rf",
    b"--help",
    b"$(touch owned)",
    b"`touch owned`",
    b"; touch owned #",
    b"two\nlines: 7: a second job",
    b"000001:3: B1 BAD_JOB_LINE\n000002",
    b"tab\there",
    b"quotes ' and \"",
    b"\xff\xfe not UTF-8",
    b"\x1b[2J\x07 clears",
    b"a/b c/{} {1} %s %A_%a",
    b"long" * 60,
    "Grüße \u202e".encode(),
    b"batch-1.manifest",
    b"LOST",
    b"*",
]


def ordinary(source: random.Random, at: int) -> str:
    """A job that ends in one of the usual ways."""
    left, right = source.randrange(-10**9, 10**9), source.randrange(0, 5)
    name = f"j{at}"
    choices = [
        job(f"CONST INT {left}\nCONST INT {right}\n+ INT", name=name),
        job(f"CONST INT {left}\nCONST INT {right}\n/ INT", name=name),
        job(f"{vector(source.randrange(2000))}\nCOPY 1 0\n* INT", name=name),
        job(f"{vector(source.randrange(50))}\nCONST INT ({left} {right})\n+ INT", name=name),
        job(f"CONST INT {left}\nCONST INT {right}", "INT INT", f"{source.randrange(1, 5)} 2 4 {source.randrange(5)}",
            name),
        job(f"CONST BOOL {source.choice('TF')}\nIF\nCONST INT 1\nELSE\nCONST INT 2\nENDIF", name=name),
    ]
    return source.choice(choices)


def strangers(count: int, slow: int) -> list[Stranger]:
    """So many files, some of which take about a second."""
    source = random.Random(count)
    texts = [ordinary(source, at).encode() for at in range(DIFFERENT)]
    found = hostile()
    found += [Stranger(b"slow/%03d" % at, SLOW.encode(), ANSWERED) for at in range(slow)]
    found += [
        Stranger(b"people/%d/%04d.vcode" % (at % 7, at), texts[at % len(texts)], ANSWERED)
        for at in range(count - len(found))
    ]
    source.shuffle(found)
    return found


def write(folder: Path, found: list[Stranger]) -> list[bytes]:
    """Writes the files below a folder. Returns their paths."""
    paths = []
    for it in found:
        path = os.path.join(os.fsencode(folder), it.name)
        paths.append(path)
        os.makedirs(os.path.dirname(path), exist_ok=True)
        if it.kind == FIFO:
            os.mkfifo(path)
        elif it.kind == FOLDER:
            os.mkdir(path)
        elif it.kind == DEVICE:
            os.symlink(b"/dev/zero", path)
        elif it.kind != MISSING:
            with open(path, "wb") as file:
                file.write(it.content)
    return paths


if __name__ == "__main__":
    write(Path(sys.argv[1]), strangers(int(sys.argv[2]), int(sys.argv[2]) // 20))
