"""Tests the files of editors/: Emacs with dap-mode goes through a job, forward and back, and Vim colours a batch."""
from __future__ import annotations

import json
import os
import shutil
import subprocess
import tempfile
from collections.abc import Iterator
from pathlib import Path
from typing import Any

from histories import records
from wanted import Shown

TOP = Path(__file__).resolve().parents[2]
BATCH = TOP / "examples" / "four_ends.vcode"
SECONDS = 60
# Words of the batch that come one after another, with their faces in Emacs.
FACES = [
    ("JOB", "preprocessor"), ("totals", "function-name"), ("16", "constant"), ("SIGNATURES", "preprocessor"),
    ("MAIN", "function-name"), ("INT", "type"), ("CODE", "preprocessor"), ("Returns", "comment"), ("FUNC", "keyword"),
    ("MAIN", "function-name"), ("CONST", "builtin"), ("INT", "type"), ("1", "constant"), ("MAKE_SEGDES", "builtin"),
    ("+_REDUCE", "builtin"), ("RET", "keyword"), ("END", "preprocessor"),
]
# Places of the batch below, with their groups in Vim.
CROWDED = """BATCH 2
JOB crowded 40 10 4 100
SIGNATURES
MAIN () -> (INT)
CODE
FUNC MAIN {@ a.py:3 x = 1}
CONST INT (5 -6){ a {
comment } +_SCAN INT
CONST BOOL T IF CALL
INDEX ELSE ENDIF <= INT RET
END
"""
GROUPS = {
    (1, 1): "vcodeHead", (2, 1): "vcodeHead", (2, 5): "vcodeName", (2, 13): "vcodeNumber", (3, 1): "vcodeHead",
    (4, 1): "vcodeSignature", (4, 13): "vcodeKind", (5, 1): "vcodeHead", (6, 1): "vcodeControl",
    (6, 6): "vcodeFunction", (6, 11): "vcodeComment", (6, 12): "vcodeMark", (6, 22): "vcodeComment",
    (7, 1): "vcodeInstruction", (7, 7): "vcodeKind", (7, 12): "vcodeNumber", (7, 14): "vcodeNumber",
    (7, 18): "vcodeComment", (8, 3): "vcodeComment", (8, 11): "vcodeInstruction", (8, 13): "vcodeInstruction",
    (8, 18): "vcodeKind", (9, 12): "vcodeFlag", (9, 14): "vcodeControl", (9, 17): "vcodeInstruction",
    (10, 1): "vcodeFunction", (10, 7): "vcodeControl", (10, 12): "vcodeControl", (10, 18): "vcodeInstruction",
    (10, 25): "vcodeControl", (11, 1): "vcodeHead", (4, 9): "",
}


def wrong(what: str, found: Any, wanted: Any) -> Iterator[str]:
    if found != wanted:
        yield f"{what}: {found!r}, and not {wanted!r}"


# ---- Emacs

def emacs(folder: Path, *words: str) -> list[dict[str, Any]]:
    """The objects that Emacs prints, which has this folder as its home."""
    script = TOP / "tests" / "dap" / "emacs.el"
    ran = subprocess.run(["emacs", "--batch", "-q", "-L", TOP / "editors" / "emacs", "-l", script, *words], check=False,
                         capture_output=True, timeout=SECONDS, cwd=folder, env={**os.environ, "HOME": str(folder)})
    lines = [line for line in ran.stdout.decode(errors="replace").splitlines() if line.startswith("{")]
    if ran.returncode or not lines:
        return [*map(json.loads, lines), {"errors": ran.stderr.decode(errors="replace")[-1500:]}]
    return [json.loads(line) for line in lines]


def emacs_colours(folder: Path) -> Iterator[str]:
    [found] = emacs(folder, "colours", str(BATCH), *(word for word, _ in FACES))
    if "faces" not in found:
        yield f"Emacs: {found}"
        return
    yield from wrong("Emacs, the mode", found["mode"], "vcode-mode")
    for (word, want), face in zip(FACES, found["faces"]):
        yield from wrong(f"Emacs, the face of {word!r}", face, f"font-lock-{want}-face")


def labels(variables: list[dict[str, str]]) -> list[str]:
    return [f"{it['name']}: {it['value']}" for it in variables]


def wanted_looks(path: Path) -> list[dict[str, Any]]:
    """What Emacs has to show, from the second writing: where it comes, and why."""
    record = dict(records(path.read_bytes()))[3]
    shown = Shown(record, str(path))

    def look(name: str, number: int, reason: str) -> dict[str, Any]:
        state = record.states[number]
        stack = labels([shown.variable(state, depth) for depth in range(len(state.stack))])
        numbers = [f"{name}: {value}" for name, value in shown.numbers(number).items()]
        calls = [[it["name"], it["line"]] for it in shown.frames(state)]
        return {"after": name, "line": state.place.line, "reason": reason, "calls": calls, "stack": stack,
                "entries": stack, "run": numbers}

    return [look("begin", 0, "entry"), look("continue", 1, "breakpoint"), look("the end", 2, "exception"),
            look("a step back", 1, "breakpoint"), look("a second step back", 0, "entry"),
            look("a state by its number", 2, "goto"), look("all the way back", 1, "breakpoint")]


def same_as_why(path: Path, program: Path, looks: list[dict[str, Any]]) -> Iterator[str]:
    """What differs from what vjobs-why says of the stack at the same states, if it is built."""
    places = (program.with_name("vjobs_why"), program.with_name("vjobs-why"),
              TOP / "crates" / "vjobs_why" / "out" / "vjobs_why")
    why = next((it for it in places if it.is_file()), None)
    if not why:
        print("dap: skipped: Emacs isn't compared with vjobs-why, which isn't built")
        return
    for look in looks:
        number = look["run"][0].removeprefix("state: ")
        words = [why, "--job", "3", "--json", "--after", number, "--all", path]
        data = json.loads(subprocess.run(words, capture_output=True, check=True, timeout=SECONDS).stdout)
        stack = [f"{' '.join([str(depth), *([it['name']] if 'name' in it else [])])}: ({it['values']})"
                 for depth, it in enumerate(data["stack"]["list"])]
        yield from wrong(f"Emacs, beside vjobs-why at state {number}", (look["stack"], look["line"]),
                         (stack, data["next"]))


def emacs_job(folder: Path, program: Path) -> Iterator[str]:
    """What is wrong as Emacs goes through the third job to its fault, and back."""
    path = folder / BATCH.name
    shutil.copy(BATCH, path)
    found = emacs(folder, "job", str(program), str(path), "3", "33")
    looks = [it for it in found if "after" in it]
    others = {name: value for it in found if "after" not in it for name, value in it.items()}
    if others.get("failed") or others.get("errors"):
        yield f"Emacs: {others}, after {[it['after'] for it in looks]}"
        return
    for look, want in zip(looks, wanted_looks(path)):
        yield from wrong(f"Emacs, after {want['after']}", look, want)
    yield from wrong("Emacs, what it showed", len(looks), 7)
    yield from wrong("Emacs, the job at point", others["job"], 3)
    yield from wrong("Emacs, the values", others["values"], "10 20")
    yield from wrong("Emacs, the breakpoints", others["breakpoints"], ["dap-ui-verified-breakpoint-face"])
    yield from wrong("Emacs, the exit", others["exit"], 0)
    if "FAULT line 34 F4 ZERO_DIVISOR, after 2 instructions" not in others["output"]:
        yield f"Emacs, the output: {others['output']!r}"
    yield from same_as_why(path, program, looks)


def emacs_compiles(folder: Path) -> Iterator[str]:
    """What the compiler of Emacs has to say of the file."""
    path = folder / "vcode.el"
    shutil.copy(TOP / "editors" / "emacs" / "vcode.el", path)
    ran = subprocess.run(["emacs", "--batch", "-Q", "--eval", "(setq byte-compile-error-on-warn t)", "-f",
                          "batch-byte-compile", path], check=False, capture_output=True, timeout=SECONDS)
    yield from wrong("Emacs, compiling", (ran.returncode, ran.stderr), (0, b""))


def emacs_faults(program: Path) -> Iterator[str]:
    if not shutil.which("emacs"):
        print("dap: skipped: there is no Emacs")
        return
    with tempfile.TemporaryDirectory() as room:
        yield from emacs_compiles(Path(room))
        yield from emacs_colours(Path(room))
        there = emacs(Path(room), "has-dap")[0]
        if not there.get("dap"):
            print(f"dap: skipped: Emacs has no dap-mode: {there}")
            return
        yield from emacs_job(Path(room), program)


# ---- Vim

def vim_groups(folder: Path, editor: str, path: Path) -> list[str]:
    """The groups at the places, by an editor that takes only the files of editors/vim."""
    found, script = folder / "groups", folder / "look.vim"
    places = ", ".join(f"[{line}, {column}]" for line, column in GROUPS)
    script.write_text(f"set nocompatible runtimepath^={TOP}/editors/vim\nfiletype plugin on\nsyntax on\nedit {path}\n"
                      f"let found = [&filetype, &commentstring]\nfor [line, column] in [{places}]\n"
                      "call add(found, synIDattr(synID(line, column, 1), 'name'))\nendfor\n"
                      f"call writefile(found, '{found}')\nqall!\n")
    words: dict[str, list[Any]] = {"vim": ["-es", "-u", "NONE", "-i", "NONE", "-S", script],
             "nvim": ["--headless", "-u", "NONE", "-i", "NONE", "-S", script]}
    subprocess.run([editor, *words[editor]], check=False, capture_output=True, timeout=SECONDS,
                   stdin=subprocess.DEVNULL, env={**os.environ, "HOME": str(folder)})
    return found.read_text().split("\n")[:-1] if found.is_file() else []


def nvim_setup(folder: Path) -> Iterator[str]:
    """What is wrong with the adapter in Neovim, over a stub of nvim-dap, which Debian hasn't."""
    (folder / "lua").mkdir(exist_ok=True)
    (folder / "lua" / "dap.lua").write_text(
        "local M = { adapters = {}, configurations = {} }\n"
        "local Session = {}\n"
        "function Session:request(command, arguments, done)\n"
        "  M.asked = { command, arguments }\n"
        "  done(nil, { breakpoints = { { verified = true }, { verified = false, message = 'no' } } })\n"
        "end\n"
        "function M.session() return Session end\nreturn M\n")
    found, script = folder / "found", folder / "setup.lua"
    script.write_text(
        f"vim.opt.runtimepath:append('{TOP}/editors/nvim')\nvim.opt.runtimepath:append('{folder}')\n"
        f"vim.cmd('edit {BATCH}')\nvim.api.nvim_win_set_cursor(0, {{ 33, 0 }})\n"
        "local said = {}\nvim.notify = function(text) table.insert(said, text) end\n"
        "require('vcode_dap').setup({ program = '/p/vjobs-dap', memory = 7 })\n"
        "local dap = require('dap')\nlocal it = dap.configurations.vcode[1]\n"
        "vim.cmd('VcodeStops joined nowhere')\n"
        f"vim.fn.writefile({{ vim.json.encode({{ adapter = dap.adapters.vjobs, job = it.job(), batch = it.batch, "
        "memory = it.memory, request = it.request, type = it.type, asked = dap.asked, said = said }) }, "
        f"'{found}')\nvim.cmd('qall!')\n")
    subprocess.run(["nvim", "--headless", "-u", "NONE", "-i", "NONE", "-c", f"luafile {script}", "-c", "qall!"],
                   check=False, capture_output=True, timeout=SECONDS, env={**os.environ, "HOME": str(folder)})
    if not found.is_file():
        yield "Neovim: the adapter isn't set up"
        return
    yield from wrong("Neovim, the adapter", json.loads(found.read_text()), {
        "adapter": {"type": "executable", "command": "/p/vjobs-dap"}, "job": 3, "batch": "${file}", "memory": 7,
        "request": "launch", "type": "vjobs", "said": ["nowhere: no"],
        "asked": ["setFunctionBreakpoints", {"breakpoints": [{"name": "joined"}, {"name": "nowhere"}]}]})


def vim_faults(_: Path) -> Iterator[str]:
    for editor in ("vim", "nvim"):
        if not shutil.which(editor):
            print(f"dap: skipped: there is no {editor}")
            continue
        with tempfile.TemporaryDirectory() as room:
            path = Path(room, "crowded.vcode")
            path.write_text(CROWDED)
            found = vim_groups(Path(room), editor, path)
            yield from wrong(f"{editor}, the options", found[:2], ["vcode", "{ %s }"])
            for place, group, want in zip(GROUPS, found[2:], GROUPS.values()):
                yield from wrong(f"{editor}, the group at {place}", group, want)
            if editor == "nvim":
                yield from nvim_setup(Path(room))
