#!/usr/bin/env python3
"""Gives vjobs and vjobs-kinds names that strangers may choose: python3 models/names.py VJOBS VJOBS_KINDS

What is printed of a name has to be what `shown` gives here, by the tables of Python: all characters are tried, and
random bytes. Pipes, folders and devices have to be refused without waiting."""
import os
import random
import subprocess
import sys
import tempfile
import unicodedata

from shown import IGNORED, shown

VJOBS, KINDS = (os.path.abspath(path) for path in sys.argv[1:3])
HELP = "\n\nFor more information, try '--help'.\n"
ODD = ["\x1b[2J", "\x07", "a\nvjobs: out of memory", "\r", "a\u202etxt.exe", "\u2066b", "\x9b31m", "\x85", "\u2028",
       "\\x1b", "\x7f"]


def is_known(char: str) -> bool:
    """Whether Python's tables say which category the character has. Those of the programs may be newer."""
    return unicodedata.category(char) != "Cn" or char in IGNORED


def same(what: str, found: object, wanted: object) -> None:
    if found != wanted:
        sys.exit(f"{what}:\n{found!r}\nand not\n{wanted!r}")


def refused(words: list, exit_: int) -> str:
    """What a program says as it refuses these words."""
    ran = subprocess.run(words, stdin=subprocess.DEVNULL, capture_output=True, timeout=20)
    same(f"exit and output of {words}", (ran.returncode, ran.stdout), (exit_, b""))
    return ran.stderr.decode()


def usage(program: str) -> str:
    return "\n\nUsage: " + {VJOBS: "vjobs [OPTIONS] <FILE>", KINDS: "vjobs-kinds [OPTIONS] <FILE>"}[program] + HELP


def as_arguments(word: bytes) -> None:
    """A word in each place of a command line where it is quoted."""
    text = shown(word)
    try:
        word.decode()
    except UnicodeDecodeError:
        for program in (VJOBS, KINDS):
            said = refused([program, b"FILE", word], 2)
            same(f"{word!r} as an argument", said, f"error: argument 2 is no UTF-8: {text}{usage(program)}")
        return
    for program in (VJOBS, KINDS):
        if not word.startswith(b"-"):
            said = refused([program, b"FILE", word], 2)
            same(f"{word!r} after a file", said, f"error: unexpected argument '{text}' found{usage(program)}")
        if b"=" not in word:
            said = refused([program, b"--x" + word, b"FILE"], 2)
            same(f"{word!r} in an option", said.partition("\n")[0], f"error: unexpected argument '--x{text}' found")
    said = refused([VJOBS, b"--region=x" + word, b"FILE"], 2)
    wanted = f"error: invalid value 'x{text}' for '--region <N>': invalid digit found in string{HELP}"
    same(f"{word!r} as a number", said, wanted)


def as_files(word: bytes) -> None:
    """A word as the name of a file: one that isn't there, and one with bad code."""
    text = shown(word)
    said = refused([KINDS, b"--", word], 3)
    same(f"{word!r} as a missing file", said, f"vjobs-kinds: {text}: No such file or directory (os error 2)\n")
    with open(word, "wb") as file:
        file.write(b"FUNC MAIN\nBAD\n")
    same(f"{word!r} as a file", refused([KINDS, b"--", word], 1), f"{text}:2: S1 BAD_WORD\n")
    said = refused([KINDS, b"--batch", b"--", word], 1)
    same(f"{word!r} as a batch", said.partition("\n")[0], "BATCH line 1 B1 BAD_JOB_LINE")
    said = refused([KINDS, b"--batch", b"--most-bytes=5", b"--", word], 1)
    same(f"{word!r} as a large batch", said, f"{text}: more than 5 bytes\n")
    os.remove(word)


def all_characters() -> None:
    """Each character, but for those that Python's tables don't know yet."""
    chars = [chr(code) for code in range(1, sys.maxunicode + 1) if not 0xD800 <= code <= 0xDFFF]
    known = list(filter(is_known, chars))
    for at in range(0, len(known), 25_000):
        word = "".join(known[at : at + 25_000]).encode()
        said = refused([KINDS, b"FILE", word], 2)
        same(f"characters from {known[at]!r} on", said,
             f"error: unexpected argument '{shown(word)}' found{usage(KINDS)}")


def other_files() -> None:
    """What is no regular file."""
    os.mkfifo("pipe")
    os.mkdir("folder")
    os.symlink("pipe", "link")
    options: list[list[bytes]] = [[], [b"--batch"]]
    for name in ("pipe", "folder", "link", "/dev/null", "/dev/zero", "/dev/tty"):
        for words in options:
            same(name, refused([KINDS, *words, name.encode()], 3), f"vjobs-kinds: {name}: not a regular file\n")


def main() -> None:
    chance = random.Random(1)
    words = [word.encode() for word in ODD]
    words += [bytes(chance.choices(range(1, 256), k=chance.randint(1, 40))) for _ in range(150)]
    words = [word for word in words if all(map(is_known, word.decode("utf-8", "surrogateescape")))]
    words += ["".join(chance.choices("ab\\\x1b\n\u00e4\u202e\u3164\u0301\U0001f600\x80", k=12)).encode()
              for _ in range(50)]
    with tempfile.TemporaryDirectory() as folder:
        os.chdir(folder)
        for word in words:
            as_arguments(word)
        for word in words:
            if b"/" not in word and word != b"-":
                try:
                    word.decode()
                except UnicodeDecodeError:
                    continue
                as_files(word)
        other_files()
    all_characters()
    print(f"names: {len(words)} odd names and all characters are shown as they have to be")


main()
