"""The batches whose pages are opened."""
from __future__ import annotations

from pathlib import Path

TOP = Path(__file__).resolve().parents[2]

# Calls of `fib` execute some millions of instructions each, and `wave` holds some words for a moment.
FIB = """FUNC fib
COPY 1 0
CONST INT 2
< INT
IF
POP 1 0
CONST INT 1
ELSE
COPY 1 0
CONST INT 1
- INT
CALL fib
CPOP 1 1
CONST INT 2
- INT
CALL fib
+ INT
ENDIF
RET
FUNC wave
CONST INT 7
CPOP 1 1
MAKE_SEGDES
DIST INT
POP 1 0
RET
"""
FIB_SIGNATURES = "MAIN () -> (INT)\nfib (INT) -> (INT)\nwave (INT) -> ()\n"


def long_run(depth: int, rounds: int) -> str:
    """A job that calls `fib` and `wave` in turns."""
    turns = "".join(f"CONST INT {500 * (1 + turn)}\nCALL wave\nCONST INT {depth}\nCALL fib\n+ INT\n"
                    for turn in range(rounds))
    return f"JOB long 20000 256 128 1000000000\nSIGNATURES\n{FIB_SIGNATURES}CODE\nFUNC MAIN\nCONST INT 0\n{turns}RET\n{FIB}END\n"


# What a stranger may write where the batch has room for it.
ATTACKS = ["</script><script>window.attacked=1</script>", "<img/src=x/onerror=window.attacked=1>", "<!--<script>",
           "-->]]>",
           "\"'};window.attacked=1;//", "&lt;script&gt;&amp;&#60;b&#62;", "\\u003cb>\\\"", "${window.attacked=1}`",
           "<svg/onload=window.attacked=1>", "javascript:window.attacked=1", "__proto__", "constructor"]


def attacks() -> str:
    """A job for each attack: in its name, in the name of a function that it calls, and in comments."""
    jobs = []
    for attack in ATTACKS:
        function = attack.replace("(", "").replace(")", "").replace("{", "").replace("}", "")[:64]
        comment = attack.replace("}", "")
        jobs.append(f"JOB {attack[:64]} 64 16 4 100\nSIGNATURES\nMAIN () -> (INT)\n{function} (INT) -> (INT)\nCODE\n"
                    f"{{ {comment} <b>bold</b> \x07\x7f\xe9 }}\nFUNC MAIN {{ {comment} }}\nCONST INT 1\nCALL {function} {{ {comment} }}\n"
                    f"RET\nFUNC {function}\nCONST INT 0 {{ {comment} }}\n/ INT {{ {comment} }}\nRET\nEND\n")
    jobs.append("JOB <b>refused</b> 64 16 4 100\nSIGNATURES\nMAIN () -> (INT)\nCODE\nFUNC MAIN\n"
                "<img/src=x/onerror=window.attacked=1> { </script> }\nRET\nEND\n")
    return "".join(jobs)


def budget() -> str:
    """A job that calls itself until its instructions are spent."""
    return ("JOB endless 20000 4096 1024 2500\nSIGNATURES\nMAIN () -> ()\nagain (INT) -> ()\nCODE\nFUNC MAIN\nCONST INT (1 2 3)\n"
            "CALL again\nRET\nFUNC again\nCOPY 1 0\nCONST INT (1 1 1)\n+ INT\nCALL again\nPOP 1 0\nRET\nEND\n")


def narrow() -> str:
    """A job whose names are as long as they may be, and whose numbers are long. The long names have no place to break."""
    name = "a_name_" + 57 * "x"
    return (f"JOB {name} 1000 100 100 1000000000\nSIGNATURES\nMAIN () -> (INT)\n{name} (INT) -> (INT)\nCODE\nFUNC MAIN\n"
            f"CONST INT 300000\nCALL {name}\nRET\nFUNC {name}\n"
            + "COPY 1 0\nCONST INT 0\n> INT\nIF\nCONST INT 1\n- INT\n" + f"CALL {name}\nENDIF\nRET\nEND\n")


def many(count: int = 64) -> str:
    """As many jobs as a batch may have, some of which have a fault."""
    return "".join(f"JOB job_{place} 64 16 4 100\nSIGNATURES\nMAIN () -> (INT)\nCODE\nFUNC MAIN\nCONST INT {place}\n"
                   f"CONST INT {place % 5}\n/ INT\nRET\nEND\n" for place in range(1, count + 1))


def entries() -> str:
    """A job whose stack grows until its limit on entries ends it. Within the widest limits a division by 0 does."""
    return ("JOB entries 5000 40 64 100000\nSIGNATURES\nMAIN () -> (INT)\nmore (INT) -> (INT)\ngrow (INT) -> (INT)\nCODE\n"
            "FUNC MAIN\nCONST INT 12\nCALL more\nCONST INT 0\n/ INT\nRET\nFUNC more\nCALL grow CALL grow\nRET\n"
            "FUNC grow\nCOPY 1 0\nCONST INT 0\n> INT\nIF\nCOPY 1 0\nCOPY 1 0\nCOPY 1 0\nCONST INT 1\n- INT\n"
            "CALL grow\n+ INT\n+ INT\n+ INT\nENDIF\nRET\nEND\n")


def deep() -> str:
    """A job whose calls inside one another end it."""
    return ("JOB deep 5000 64 12 100000\nSIGNATURES\nMAIN () -> (INT)\ninner (INT) -> (INT)\nouter (INT) -> (INT)\nCODE\n"
            "FUNC MAIN\nCONST INT (1 2 3)\nCALL outer\nRET\nFUNC outer\nCONST INT (4 4 4)\n+ INT\nCALL inner\nRET\n"
            "FUNC inner\nCONST INT (1 1 1)\n+ INT\nCALL outer\nRET\nEND\n")


def many_values() -> str:
    """A job that returns many long entries, descriptors and copies."""
    values = " ".join(str(value - 40) for value in range(90))
    lines = "".join(f"CONST INT ({values})\nCONST BOOL (T F {'T ' * place})\n" for place in range(14))
    kinds = "INT BOOL " * 14
    return (f"JOB many_values 5000 64 12 100000\nSIGNATURES\nMAIN () -> ({kinds}INT SEGDES INT)\nCODE\nFUNC MAIN\n{lines}"
            "COPY 1 1\nCONST INT (3 0 2)\nMAKE_SEGDES\nCOPY 1 1\nRET\nEND\n")


def far(count: int) -> str:
    """A job that wants a vector of this many words, which is much more than its limit."""
    return (f"JOB far 8 16 4 100\nSIGNATURES\nMAIN () -> (INT)\nCODE\nFUNC MAIN\nCONST INT 7\nCONST INT {count}\n"
            "MAKE_SEGDES\nDIST INT\nRET\nEND\n")


def tall() -> str:
    """A job with more lines of code than a page shows, of which few are executed, and with a fault in their middle."""
    functions = [f"part_{place}" for place in range(40)]
    signatures = "".join(f"{name} (INT) -> (INT)\n" for name in functions)
    bodies = "".join(f"FUNC {name}\n" + 70 * "CONST INT 1\n+ INT\n" + ("CONST INT 0\n/ INT\n" if name == "part_20" else "")
                     + "RET\n" for name in functions)
    return (f"JOB tall 64 16 4 100000\nSIGNATURES\nMAIN () -> (INT)\n{signatures}CODE\nFUNC MAIN\nCONST INT 1\n"
            f"CALL part_1\nCALL part_20\nRET\n{bodies}END\n")


def chains(depth: int) -> str:
    """A job with two functions at each depth, each of which calls both of the next one."""
    names = [f"{side}_{level}" for level in range(depth) for side in ("left", "right")]
    signatures = "".join(f"{name} (INT) -> (INT)\n" for name in names)
    step = "CONST INT 1\n+ INT\n"
    inner = [f"CALL left_{level + 1}\nCALL right_{level + 1}\n" if level + 1 < depth else "" for level in range(depth)]
    bodies = "".join(f"FUNC {name}\n{step}{inner[place // 2]}RET\n" for place, name in enumerate(names))
    return (f"JOB chains 64 16 64 1000000\nSIGNATURES\nMAIN () -> (INT)\n{signatures}CODE\nFUNC MAIN\nCONST INT 1\n"
            f"CALL left_0\nCALL right_0\nRET\n{bodies}END\n")


def batches() -> dict[str, bytes]:
    """Each batch with the name of its page."""
    examples = TOP / "examples"
    found = {name: (examples / f"{name}.vcode").read_bytes()
             for name in ["quicksort", "four_ends", "reservation_too_small"]}
    found["budget"] = budget().encode()
    found["attacks"] = attacks().encode("latin1")
    found["long"] = long_run(22, 5).encode()
    found |= {"narrow": narrow().encode(), "sixty_four": many().encode(), "far": far(1000).encode(), "tall": tall().encode(),
              "chains": chains(12).encode(), "too_far": far(4_000_000_000).encode(),
              "entries": entries().encode(), "deep": deep().encode(), "many_values": many_values().encode()}
    return found
