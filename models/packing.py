#!/usr/bin/env python3
"""Packs job files, runs their batches and splits the reports: python3 models/packing.py VJOBS VJOBS_PACK VJOBS_SPLIT

Each owner has to get what vjobs prints for the owner's file alone, however strangers wrote and named theirs; and
whenever the programs are stopped, what lies there has to be whole. The last part stops them at each call of the system
in turn, by strace if it is there, and at each size that a file may have."""
import hashlib
import os
import resource
import shutil
import signal
import subprocess
import sys
import tempfile
from collections.abc import Callable, Sequence
from typing import Any

VJOBS, PACK, SPLIT = (os.path.abspath(path) for path in sys.argv[1:4])
DATA = os.path.join(os.path.dirname(os.path.abspath(__file__)), "../crates/vjobs_pack/data")
GOOD = ["one.vcode", "open.vcode", "odd_name.vcode", "second_rule.vcode"]
REFUSED = [
    "two_jobs.vcode:10: a second job",
    "after_end.vcode:9: B1 BAD_JOB_LINE",
    "no_end.vcode:1: B2 UNFINISHED_JOB",
    "bad_line.vcode:1: B1 BAD_JOB_LINE",
    "no_job.vcode:1: no job",
    "kinds.vcode:7: V5 RESULT_DIFFERS",
]
# What a folder has, by name: the bytes of a file, where a link leads, or None.
Contents = dict[str, Any]
# The calls of the system by which the programs change files.
CALLS = ("openat", "mkdir", "write", "fsync", "rename")


def run(words: list, given: bytes = b"", **how: Any) -> subprocess.CompletedProcess:
    """Runs a program. One that waits for something is a failure."""
    return subprocess.run(words, input=given, capture_output=True, check=False, timeout=60, **how)


def same(what: str, found: object, wanted: object) -> None:
    if found != wanted:
        sys.exit(f"{what}:\n{found!r}\nand not\n{wanted!r}")


def read(path: str) -> bytes:
    with open(path, "rb") as file:
        return file.read()


def write(path: str | bytes, data: bytes) -> None:
    with open(path, "wb") as file:
        file.write(data)


def job(name: str, number: int = 1) -> bytes:
    """A file of a job of this name, which returns a number."""
    code = f"CODE\nFUNC MAIN\nCONST INT {number}\nRET\nEND\n"
    return f"JOB {name} 5 16 4 100\nSIGNATURES\nMAIN () -> (INT)\n{code}".encode()


def contents(folder: str = ".") -> Contents:
    """What a folder has: the bytes of each file, and where each link leads."""
    found: Contents = {}
    for name in os.listdir(folder):
        path = os.path.join(folder, name)
        if os.path.islink(path):
            found[name] = os.readlink(path)
        elif os.path.isfile(path):
            found[name] = read(path)
        else:
            found[name] = None
    return found


def entries(manifest: str) -> list[bytes]:
    return [entry for entry in read(manifest).split(b"\0") if entry]


def owners(manifest: str) -> list[str]:
    return [entry.split(b" ", 3)[3].decode() for entry in entries(manifest)[1:]]


def check_manifest(manifest: str) -> None:
    """The first entry seals the batch, and the others have the places, lines and names of its jobs."""
    seal, *jobs = entries(manifest)
    batch = manifest.removesuffix(".manifest") + ".vcode"
    data = read(batch)
    wanted = f"vjobs-manifest-2 {len(data)} {hashlib.sha256(data).hexdigest()} {len(jobs)} {os.path.basename(batch)}"
    same("seal", seal, wanted.encode())
    lines = data.split(b"\n")
    for place, entry in enumerate(jobs, 1):
        number, line, name, file = entry.split(b" ", 3)
        same("place", int(number), place)
        # Before the JOB line may be blank ones, which belong to the file.
        after = next(text for text in lines[int(line) - 1 :] if text.strip())
        same(f"name of {file!r}", name, after.split()[1])


def split_all(numbers: list[int]) -> None:
    """Runs the batches of these numbers, splits their reports both ways, and compares what each owner gets."""
    for number in numbers:
        manifest = f"batch-{number}.manifest"
        check_manifest(manifest)
        report = run([VJOBS, f"batch-{number}.vcode"]).stdout
        same("split", run([SPLIT, "--beside", manifest], report).returncode, 0)
        same("split", run([SPLIT, "--out", f"reports-{number}", manifest], report).returncode, 0)
        rows = read(f"reports-{number}/table.tsv").decode().splitlines()
        same("head of the table", rows[0], "file\treport")
        for place, name in enumerate(owners(manifest), 1):
            wanted = run([VJOBS, "./" + name]).stdout
            same(name, read(name + ".report"), wanted)
            same(name, read(f"reports-{number}/{place}.report"), wanted)
            same("row", rows[place], name.replace("\\", "\\\\").replace("\n", "\\n") + f"\t{place}.report")


def attacks() -> None:
    files = sorted(os.listdir(DATA))
    for name in files:
        shutil.copy(os.path.join(DATA, name), name)
    packed = run([PACK] + files)
    same("exit", packed.returncode, 1)
    same("refused", sorted(packed.stderr.decode().splitlines()), sorted(REFUSED))
    same("packed", sorted(owners("batch-1.manifest") + owners("batch-2.manifest")), sorted(GOOD))
    split_all([1, 2])
    same("outside", os.path.exists("../../owned"), False)


def bounds() -> None:
    """Files that pass a bound of the command line, which is named with its line."""
    wide = b"JOB wide 9 99 9 9\nSIGNATURES\nMAIN () -> ()\nCODE\n{ x }\nFUNC MAIN CONST INT 1\n" \
           b"COPY 1 0 COPY 2 0 POP 4 0\nRET\nEND\n"
    parts = b"JOB parts 9 99 9 9\nSIGNATURES\nMAIN () -> ()\nf (INT INT INT) -> ()\nCODE\nFUNC MAIN\n" \
            b"CONST BOOL T\nIF\nCONST INT 1\nPOP 1 0\nELSE\nCONST INT 1\nCONST INT 2\nPOP 2 0\nENDIF\nRET\nFUNC f\nPOP 3 0\nRET\nEND\n"
    write("wide", wide)
    write("parts", parts)
    os.mkdir("packs")
    cases: list[tuple[list[str], str]] = [
        ([], ""), (["--most-entries", "4"], ""),
        (["--most-entries", "3"], "wide:6: more than 3 entries on the stack of a function\n"),
        (["--most-entries", "2"], "wide:6: more than 2 entries on the stack of a function\n"
                                  "parts:17: more than 2 entries on the stack of a function\n"),
        (["--most-entries", "1"], "wide:6: more than 1 entries on the stack of a function\n"
                                  "parts:6: more than 1 entries on the stack of a function\n"),
        (["--most-bytes", str(len(wide) - 1)], f"wide:1: more than {len(wide) - 1} bytes\n"
                                               f"parts:1: more than {len(wide) - 1} bytes\n"),
    ]
    for options, wanted in cases:
        ran = run([PACK, "--out", "packs", *options, "wide", "parts"])
        same(str(options), (ran.stderr.decode(), ran.returncode), (wanted, int(bool(wanted))))
        for name in os.listdir("packs"):
            os.remove(f"packs/{name}")
    # A second job is checked before the file is refused for it, so its stack is bounded too.
    write("two", job("first") + wide)
    ran = run([PACK, "--out", "packs", "--most-entries", "3", "two"])
    same("a second job", ran.stderr.decode(), "two:14: more than 3 entries on the stack of a function\n")


def broken_off() -> None:
    """A report that ends at any byte is named, and only jobs that are whole get their lines."""
    manifest = "batch-1.manifest" if len(owners("batch-1.manifest")) > 1 else "batch-2.manifest"
    jobs = len(owners(manifest))
    report = run([VJOBS, manifest.replace("manifest", "vcode")]).stdout
    for end in range(len(report)):
        found = run([SPLIT, "--out", "broken", manifest], report[:end])
        whole = report[: report.rfind(b"\n", 0, end) + 1].count(b"\nJOB ")
        same(f"exit at {end}", found.returncode, 1)
        same(f"named at {end}", found.stderr, f"vjobs-split: the report breaks off after {whole} jobs\n".encode())
        names = [f"{place}.report" for place in range(1, whole + 1)]
        wanted = {name: read(f"reports-{manifest[6]}/{name}") for name in names}
        there = contents("broken")
        same(f"rows at {end}", there.pop("table.tsv").count(b".report\n"), whole)
        same(f"written at {end}", there, wanted)
        same(f"rest at {end}", jobs >= whole, True)
        shutil.rmtree("broken")


def many() -> None:
    """The 65th job begins the next batch, and a name may have any character."""
    names = [f"job {i}\nof many" for i in range(65)]
    for name in names:
        write(name, read(os.path.join(DATA, "one.vcode")))
    given = b"".join(name.encode() + b"\0" for name in names)
    same("many", run([PACK, "--files-from", "-"], given).returncode, 0)
    same("counts", [len(owners("batch-1.manifest")), len(owners("batch-2.manifest"))], [64, 1])
    split_all([1, 2])


def packed_into(folder: str, names: Sequence[str]) -> bytes:
    """Packs jobs of these names into a folder, and returns the report of their batch."""
    os.mkdir(folder)
    for number, name in enumerate(names):
        write(f"{folder}-{number}", job(name, number))
    same("pack", run([PACK, "--out", folder] + [f"{folder}-{i}" for i in range(len(names))]).returncode, 0)
    return run([VJOBS, f"{folder}/batch-1.vcode"]).stdout


def refused_report(what: str, manifest: str, report: bytes, place: int, name: str) -> None:
    """A report isn't split by a manifest that has another job at a place, and nothing is written."""
    before = contents()
    found = run([SPLIT, "--beside", manifest], report)
    text = f"the manifest has job {name} at place {place}" if name else f"the manifest has {place} jobs"
    wanted = (1, f"vjobs-split: the report is none of this batch: {text}\n".encode())
    same(what, (found.returncode, found.stderr), wanted)
    same(what, run([SPLIT, "--out", "none", manifest], report).returncode, 1)
    same(what, contents(), before)


def other_reports() -> None:
    """A report is split only by its own manifest: each place and each name agree, and the number of jobs."""
    abc, acb, abx = (packed_into(names, names) for names in ("abc", "acb", "abx"))
    ab, abcd = (packed_into(names, names) for names in ("ab", "abcd"))
    manifest = "abc/batch-1.manifest"
    refused_report("another order", manifest, acb, 2, "b")
    refused_report("another name", manifest, abx, 3, "c")
    refused_report("fewer jobs", manifest, ab, 3, "c")
    refused_report("more jobs", manifest, abcd, 3, "")
    refused_report("more jobs, broken off", manifest, abcd[: abcd.rfind(b"END")], 3, "")
    refused_report("another number", manifest, abc.replace(b"END 3 jobs", b"END 4 jobs"), 3, "")
    refused_report("a name with more", manifest, abc.replace(b"JOB 2 b ", b"JOB 2 bb "), 2, "b")
    refused_report("a name cut", manifest, abc.replace(b"JOB 1 a ", b"JOB 1  "), 1, "a")
    refused_report("twice the same", manifest, abc[: abc.index(b"END")] + abc, 3, "")
    refused_report("a refused batch", manifest, b"BATCH line 3 B1 BAD_JOB_LINE\n", 1, "a")
    refused_report("no head", manifest, b"RETURNED\n" + abc, 1, "a")
    same("its own", run([SPLIT, "--out", "own", manifest], abc).returncode, 0)


def other_batches() -> None:
    """The batch beside a manifest is the one that it is for; without it an option is needed."""
    report = packed_into("ab", "ab")
    manifest, batch = "ab/batch-1.manifest", "ab/batch-1.vcode"
    data, says = read(batch), read(manifest)
    other = data.replace(b"CONST INT 1", b"CONST INT 7")
    changed = {"changed": other, "cut": data[:-1], "more": data + b"\n", "no": b""}
    for what, other in changed.items():
        write(batch, other)
        found = run([SPLIT, "--out", "none", manifest], report)
        text = b"vjobs-split: ab/batch-1.vcode: not the batch that the manifest is for\n"
        same(what, (found.returncode, found.stderr), (1, text))
    os.remove(batch)
    found = run([SPLIT, "--out", "none", manifest], report)
    text = b"vjobs-split: ab/batch-1.vcode: the batch isn't there (--without-batch splits without it)\n"
    same("missing", (found.returncode, found.stderr), (3, text))
    same("nothing", os.path.exists("none"), False)
    same("without", run([SPLIT, "--without-batch", "--out", "some", manifest], report).returncode, 0)
    write(batch, data)
    seal, *jobs = says.split(b"\0")[:-1]
    others = {
        "cut": says[:-1],
        "a job less": b"\0".join([seal, *jobs[:-1], b""]),
        "a job twice": b"\0".join([seal, *jobs, jobs[-1], b""]),
        "another format": says.replace(b"vjobs-manifest-2", b"vjobs-manifest-3"),
        "places": says.replace(b"\x002 ", b"\x003 "),
        "no seal": b"\0".join([*jobs, b""]),
        "a path": says.replace(b"batch-1.vcode", b"../ab/batch-1.vcode"),
        "empty": b"",
    }
    for what, other in others.items():
        write("other.manifest", other)
        found = run([SPLIT, "--out", "none", "other.manifest"], report)
        same(what, (found.returncode, found.stderr), (2, b"vjobs-split: other.manifest: not a manifest\n"))
    same("nothing", os.path.exists("none"), False)


def used_folders() -> None:
    """Nothing is packed into a folder that has a batch, and no reports go into a folder that is there."""
    packed_into("ab", "ab")
    for name in ("batch-1.vcode", "batch-1.manifest", "batch-77.vcode", "batch-x.manifest"):
        os.mkdir("old")
        write("old/" + name, b"")
        found = run([PACK, "--out", "old", "ab-0"])
        text = f"vjobs-pack: old/{name}: the folder has a batch already\n".encode()
        same(name, (found.returncode, found.stderr, contents("old")), (3, text, {name: b""}))
        shutil.rmtree("old")
    os.mkdir("old")
    for odd in (b"other-1.vcode", b".vjobs-0.part", b"batch-\xff.txt"):
        write(os.path.join(b"old", odd), b"")
    same("others", run([PACK, "--out", "old", "ab-0"]).returncode, 0)
    report = run([VJOBS, "ab/batch-1.vcode"]).stdout
    for folder in ("old", "ab-0"):
        before = contents()
        found = run([SPLIT, "--out", folder, "ab/batch-1.manifest"], report)
        text = f"vjobs-split: {folder}: there is one already, and reports take a new folder\n".encode()
        same("old", (found.returncode, found.stderr, contents()), (3, text, before))
    same("neither", run([SPLIT, "ab/batch-1.manifest"], report).returncode, 2)
    same("both", run([SPLIT, "--beside", "--out", "new", "ab/batch-1.manifest"], report).returncode, 2)


def beside() -> None:
    """One owner's trouble is named, others get their reports, and no link is followed and no packed file replaced."""
    names = ["linked", "piped", "held", "plain", "plain.report", "again"]
    for number, name in enumerate(names):
        write(name, job("a", number))
    write("victim", b"mine\n")
    os.symlink("victim", "linked.report")
    os.mkfifo("piped.report")
    os.mkdir("held.report")
    write("again.report", b"old\n")
    # The same file by another path.
    os.symlink(".", "here")
    names += ["here/plain"]
    same("pack", run([PACK] + names).returncode, 0)
    found = run([SPLIT, "--beside", "batch-1.manifest"], run([VJOBS, "batch-1.vcode"]).stdout)
    troubles = [
        "piped.report: not a regular file",
        "held.report: not a regular file",
        "plain.report: a file that was packed",
        "here/plain.report: a file that was packed",
    ]
    wanted = ["vjobs-split: " + it for it in troubles]
    same("troubles", (found.returncode, found.stderr.decode().splitlines()), (1, wanted))
    same("victim", read("victim"), b"mine\n")
    same("packed", read("plain.report"), job("a", 4))
    for name in ("linked", "plain.report", "again"):
        same(name, os.path.islink(name + ".report"), False)
        same(name, read(name + ".report"), run([VJOBS, name]).stdout)
    same("parts", [name for name in os.listdir(".") if name.endswith(".part")], [])


def odd_files() -> None:
    """Regular files alone are read, without waiting, and each name takes one line that no terminal acts on."""
    os.mkfifo("pipe")
    os.symlink("pipe", "to-pipe")
    os.mkdir("folder")
    write("good", job("a"))
    write("-x", job("x"))
    write("--out=..", job("y"))
    odd = ["esc\x1b[2Jbell\x07", "forged\ngood:1: no job", "bidi\u202etxt", "back\\slash"]
    files = ["pipe", "to-pipe", "folder", "/dev/zero", "missing"] + odd
    found = run([PACK, "--", *files, "good", "-x", "--out=.."])
    wanted = [
        "pipe:1: not a regular file",
        "to-pipe:1: not a regular file",
        "folder:1: not a regular file",
        "/dev/zero:1: not a regular file",
        "missing:1: No such file or directory (os error 2)",
        "esc\\u{1b}[2Jbell\\u{7}:1: No such file or directory (os error 2)",
        "forged\\ngood:1: no job:1: No such file or directory (os error 2)",
        "bidi\\u{202e}txt:1: No such file or directory (os error 2)",
        "back\\\\slash:1: No such file or directory (os error 2)",
    ]
    same("odd files", (found.returncode, found.stderr.decode().splitlines()), (1, wanted))
    same("packed", owners("batch-1.manifest"), ["good", "-x", "--out=.."])
    os.mkdir("listed")
    found = run([PACK, "--out", "listed", "--files-from", "-"], b"good\0a\xff\x1b\0good")
    same("list", (found.returncode, found.stderr), (1, b"a\\xff\\u{1b}:1: name 2 of the list is not UTF-8\n"))
    os.mkdir("long")
    found = run([PACK, "--out", "long", "--most-bytes", str(len(job("a"))), "good", "-x", "batch-1.vcode"])
    same("option", found.returncode, 2)
    found = run([PACK, "--out", "long", "--most-bytes", str(len(job("a"))), "good", "batch-1.vcode"])
    text = f"batch-1.vcode:1: more than {len(job('a'))} bytes\n".encode()
    same("long", (found.returncode, found.stderr), (1, text))
    os.mkdir("unlisted")
    for words in ([PACK, "--out", "unlisted", "--files-from", "pipe"], [SPLIT, "--beside", "pipe"]):
        found = run(words)
        text = f"{os.path.basename(words[0])}: pipe: not a regular file\n".encode()
        same("pipe", (found.returncode, found.stderr), (3, text))
    for words in ([PACK, "--e\x1b]x\n"], [SPLIT, "--e\x1b]x\n"], [PACK, "--region", "\x1b\n"]):
        found = run(words)
        same("usage", (found.returncode, b"\x1b" in found.stderr), (2, False))


# ---- stops


def killed_at(words: list[str], call: str, count: int, given: bytes) -> int | None:
    """Runs a program that is killed at a call of the system. Returns its status, or nothing if it made fewer calls."""
    inject = f"inject={call}:signal=SIGKILL:when={count}"
    found = run(["strace", "-f", "-o", "trace", "-e", f"trace={call}", "-e", inject, *words], given)
    return None if b"SIGKILL" not in read("trace") else found.returncode


def failed_at(words: list[str], call: str, count: int, given: bytes) -> int | None:
    """Runs a program for which a call of the system finds no room. Returns its status, or nothing if it made fewer."""
    inject = f"inject={call}:error=ENOSPC:when={count}"
    found = run(["strace", "-f", "-o", "trace", "-e", f"trace={call}", "-e", inject, *words], given)
    return None if b"(INJECTED)" not in read("trace") else found.returncode


def limited_at(words: list[str], size: int, given: bytes) -> int:
    """Runs a program whose files may have so many bytes, which is killed where one would have more."""

    def limit() -> None:
        resource.setrlimit(resource.RLIMIT_FSIZE, (size, size))
        signal.signal(signal.SIGXFSZ, signal.SIG_DFL)

    return run(words, given, preexec_fn=limit).returncode


def without_parts(folder: str) -> Contents:
    return {name: data for name, data in contents(folder).items() if not name.endswith(".part")}


def is_part_of(what: str, found: Contents, whole: Contents) -> None:
    """Each file is there as in the whole folder, or not at all."""
    for name, data in found.items():
        same(f"{what}: {name}", data, whole.get(name))


def check_pack_stop(what: str, status: int, whole: Contents) -> None:
    """After a stop each file is whole, a manifest has its batch, and nothing more is packed beside a batch."""
    found = without_parts("stopped")
    is_part_of(what, found, whole)
    for name in found:
        if name.endswith(".manifest"):
            same(f"{what}: {name}", name.replace("manifest", "vcode") in found, True)
            check_manifest("stopped/" + name)
    same(f"{what}: status {status}", status != 0 or found == whole, True)
    again = run([PACK, "--out", "stopped", "a-0"])
    same(f"{what}: again", (again.returncode, without_parts("stopped") == found), (3, True) if found else (0, False))
    shutil.rmtree("stopped")


def check_split_stop(what: str, status: int, whole: Contents) -> None:
    """After a stop each report that is there is whole, and the table is there only if all were tried."""
    found = without_parts("stopped") if os.path.exists("stopped") else {}
    table = found.pop("table.tsv", None)
    is_part_of(what, found, whole)
    same(f"{what}: status {status}", status != 0 or table == whole["table.tsv"], True)
    if table:
        named = [row.split("\t")[1] for row in table.decode().splitlines()[1:] if row[-1] != "\t"]
        same(f"{what}: rows", named, sorted(found))
    shutil.rmtree("stopped", ignore_errors=True)


def stops() -> None:
    """Each stop of either program leaves what is whole, and what it says."""
    packed_into("a", "abc")
    write("ruled", b"BATCH 2\n" + job("d"))
    pack = [PACK, "--out", "stopped", "a-0", "a-1", "ruled", "a-2"]
    split = [SPLIT, "--out", "stopped", "a/batch-1.manifest"]
    report = run([VJOBS, "a/batch-1.vcode"]).stdout
    os.mkdir("stopped")
    same("pack", run(pack).returncode, 0)
    packed = contents("stopped")
    shutil.rmtree("stopped")
    same("split", run(split, report).returncode, 0)
    delivered = contents("stopped")
    shutil.rmtree("stopped")
    count = 0
    for size in range(1 + max(len(data) for data in [*packed.values(), *delivered.values()])):
        os.mkdir("stopped")
        check_pack_stop(f"pack at {size} bytes", limited_at(pack, size, b""), packed)
        check_split_stop(f"split at {size} bytes", limited_at(split, size, report), delivered)
        count += 2
    if not shutil.which("strace"):
        print("no strace: the programs were stopped by the sizes of files alone")
        return
    for how, calls in (killed_at, CALLS), (failed_at, CALLS[1:]):
        for call in calls:
            count += each_stop(how, call, pack, b"", packed, check_pack_stop)
            count += each_stop(how, call, split, report, delivered, check_split_stop)
    print(count, "stops")


def each_stop(how: Callable, call: str, words: list[str], given: bytes, whole: Contents, check: Callable) -> int:
    """Stops a program at each call of this kind in turn. Returns how often."""
    for count in range(1, 1000):
        if check is check_pack_stop:
            os.mkdir("stopped")
        status = how(words, call, count, given)
        if status is None:
            shutil.rmtree("stopped")
            return count - 1
        if how is failed_at and os.path.exists("stopped"):
            same("parts", [name for name in os.listdir("stopped") if name.endswith(".part")], [])
        check(f"{os.path.basename(words[0])}, {how.__name__} {call} {count}", status, whole)
    sys.exit(f"{words[0]} makes too many calls of {call}")


def own_folder(case: Callable[[], None]) -> None:
    """A case has a folder of its own, but for the one that goes on with the files of the case before."""
    if case is not broken_off:
        folder = tempfile.mkdtemp()
        os.makedirs(folder + "/a/b")
        os.chdir(folder + "/a/b")
    case()
    print(case.__name__, "ok")


for each in (bounds, attacks, broken_off, many, other_reports, other_batches, used_folders, beside, odd_files, stops):
    own_folder(each)
