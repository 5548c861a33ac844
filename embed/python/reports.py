#!/usr/bin/env python3
"""Prints the reports of batches: reports.py LIBRARY FILE.., where LIBRARY is the shared object."""
import ctypes
import sys

MOST_WORDS = 1_048_576
BATCH_REFUSED, NO_MEMORY, TOO_SMALL, BAD_REGION = range(2, 6)


class Jobs:
    """Runs batches by the shared object at a path."""

    def __init__(self, path: str) -> None:
        self.call = ctypes.CDLL(path).vjobs_run
        self.call.restype = ctypes.c_uint32
        size = ctypes.c_size_t
        self.call.argtypes = [ctypes.c_char_p, size, ctypes.c_uint32, ctypes.c_char_p, size, ctypes.POINTER(size)]

    def run(self, batch: bytes, region: int = MOST_WORDS, room: int = 64) -> tuple[int, bytes]:
        """The status of a batch, 0 to 2, and its report. `room` is the length of the first buffer."""
        needed = ctypes.c_size_t()
        out = ctypes.create_string_buffer(max(room, 1))
        answer = self.call(batch, len(batch), region, out, len(out), ctypes.byref(needed))
        if answer == TOO_SMALL:
            return self.run(batch, region, needed.value)
        if answer == NO_MEMORY:
            raise MemoryError
        if answer == BAD_REGION:
            raise ValueError(f"no region has {region} words")
        return answer, out.raw[: needed.value]


def main(library: str, *files: str) -> None:
    jobs, worst = Jobs(library), 0
    for name in files:
        with open(name, "rb") as file:
            status, report = jobs.run(file.read())
        sys.stdout.buffer.write(report)
        worst = max(worst, status)
    sys.exit(worst)


if __name__ == "__main__":
    main(*sys.argv[1:])
