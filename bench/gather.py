#!/usr/bin/env python3
"""How long it takes to gather a set: `gather.py WDYL` lists a main module with 127 libraries of 65,536 bytes each, and then twice
as many.

Each library needs the next, and the main module needs them all. They export the entry alone and import nothing, so that the time
goes into reading and checking the files. Printed is the processor time of both, the best of three, and the ratio. The exit status is
1 where twice as many members take more than 2.5 times as long.
"""

import os
import sys
import tempfile

from timing import best, doubled, written
from make_examples import NOP, module, record, section

SIZE = 65536
COUNTS = (128, 256)


def of_size(size, exports, dylink):
    """A module of exactly so many bytes: a body of nops, and a custom section for what is missing."""
    nops = size - len(module([b""], exports, dylink)) - 20
    file = module([NOP * nops], exports, dylink)
    return file + section(0, b"\x00" + bytes(size - len(file) - 3))


def set_of(count):
    names = [f"m{n}.so" for n in range(1, count)]
    files = {"main.wasm": of_size(SIZE, [("_start", 0)], record(needed=names))}
    for n, text in enumerate(names):
        files[text] = of_size(SIZE, [], record(needed=names[n + 1:n + 2]))
    return files


def seconds(wdyl, count):
    with tempfile.TemporaryDirectory() as folder:
        written(set_of(count), folder)
        return best([wdyl, "plan", "main.wasm"], folder)


def main():
    wdyl = os.path.abspath(sys.argv[1])
    half, whole = (seconds(wdyl, count) for count in COUNTS)
    return 0 if doubled("gathering members of 65,536 bytes", COUNTS, half, whole) else 1


if __name__ == "__main__":
    sys.exit(main())
