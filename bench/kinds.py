#!/usr/bin/env python3
"""Times the verifier on code that copies many entries and drops them again, over stacks of several depths.

Run it at the top of the repository, after `make`. Each code brings the stack to its depth and then does `COPY n 0` and
`POP n 0` again and again. Its job has a budget of 0, so it is read and verified and does nothing; and where its
function isn't called `MAIN` it is read alone. The difference is the verifier's time, which should grow with n, and not
with the depth.
"""
import pathlib
import subprocess
import time

TOP = pathlib.Path(__file__).resolve().parent.parent
ROUNDS = 10_000
# The greatest number that COPY and POP take.
MOST = 4_096


def batch(function: str, depth: int, moved: int) -> str:
    """A job of this function alone, which leaves nothing; the depth is a multiple of MOST."""
    lines = ["JOB kinds 0 1 1 0", "SIGNATURES", "MAIN () -> ()", "CODE", f"FUNC {function}", "CONST INT 1"]
    lines += [f"COPY {2 ** power} 0" for power in range(12)]
    lines += [f"COPY {MOST} 0"] * (depth // MOST - 1)
    lines += [f"COPY {moved} 0", f"POP {moved} 0"] * ROUNDS
    lines += [f"POP {MOST} 0"] * (depth // MOST)
    return "\n".join([*lines, "RET", "END", ""])


def seconds(text: str, end: str) -> float:
    """The least of five times that a run takes, which has to end the job so."""
    least = float("inf")
    for _ in range(5):
        begin = time.perf_counter()
        run = subprocess.run([TOP / "bin" / "vjobs", "-"], input=text, capture_output=True, text=True)
        least = min(least, time.perf_counter() - begin)
        if not run.stdout.startswith(f"JOB 1 kinds {end}"):
            raise SystemExit(f"another end than {end}: {run.stdout}")
    return least


def row(depth: int, moved: int) -> None:
    whole = seconds(batch("MAIN", depth, moved), "BUDGET")
    took = whole - seconds(batch("main", depth, moved), "REFUSED line 5 V7 NO_MAIN")
    print(f"{depth:9} {moved:9} {took:9.4f} {took / ROUNDS / moved * 1e9:9.3f}")


def main() -> None:
    print(f"{ROUNDS} times COPY n 0 and POP n 0")
    print(f"{'depth':>9} {'n':>9} {'seconds':>9} {'ns a kind':>9}")
    for depth in (4_096, 8_192, 40_960, 409_600):
        row(depth, MOST)
    for moved in (1_024, 2_048):
        row(4_096, moved)


if __name__ == "__main__":
    main()
