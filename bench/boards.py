#!/usr/bin/env python3
"""What turns take: `boards.py WDYL`.

The same program is run so often one after the other, by `run`, and as so many programs of a board, in turns of 1,000 steps: first 64
programs of one loop each, and then 64 that put a byte in each turn of a shorter loop, so that each turn ends at a host call.

Printed is processor time in seconds, the best of three. The exit status is 1 where the board of loops takes more than 1.1 times as
long as the runs one after the other.
"""

import os
import sys
import tempfile

from timing import best, written
from make_examples import items, name, record, section, signed, unsigned

HEADER = b"\x00asm\x01\x00\x00\x00"
PROGRAMS = 64
TURNS_OF_LOOP = 250_000
PUTS = 2_000
MOST = 1.1


def number(n):
    return b"\x41" + signed(n)


def function(inside):
    code = b"\x01\x02\x7f" + inside + b"\x0b"
    return unsigned(len(code)) + code


def loop(times, turn):
    """Local 0 counts down, and local 1 becomes three times itself and 1 more."""
    down = b"\x20\x00" + number(1) + b"\x6b\x22\x00\x0d\x00"
    return number(times) + b"\x21\x00\x03\x40" + turn + b"\x20\x01" + number(3) + b"\x6c" + number(1) + b"\x6a\x21\x01" + down + b"\x0b"


def looping():
    """A main module that makes 11 steps in each of its turns."""
    parts = [section(1, b"\x01\x60\x00\x00"), section(3, b"\x01\x00"), section(7, items([name("_start") + b"\x00" + unsigned(0)]))]
    return HEADER + record() + b"".join(parts) + section(10, items([function(loop(TURNS_OF_LOOP, b""))]))


def putting():
    """One that puts a byte in each."""
    types = section(1, items([b"\x60\x00\x00", b"\x60\x04\x7f\x7f\x7f\x7f\x01\x7f"]))
    imports = section(2, items([name("env") + name("memory") + b"\x02\x00\x01", name("wasi_snapshot_preview1") + name("fd_write") + b"\x00\x01"]))
    store = lambda at, n: number(at) + number(n) + b"\x36\x02\x00"
    put = b"".join(map(number, (1, 1024, 1, 1032))) + b"\x10\x00\x1a"
    body = function(store(1024, 1040) + store(1028, 1) + store(1040, 0x2E) + loop(PUTS, put))
    exports = section(7, items([name("_start") + b"\x00" + unsigned(1)]))
    return HEADER + record() + types + imports + section(3, b"\x01\x00") + exports + section(10, items([body]))


def measured(wdyl, what, main):
    """How many times as long a board of the program takes as its runs one after the other."""
    with tempfile.TemporaryDirectory() as folder:
        written({"main.wasm": main}, folder)
        alone = PROGRAMS * best([wdyl, "run", "main.wasm"], folder)
        board = best([wdyl, "board", "--slice", "1000", *["main.wasm"] * PROGRAMS], folder)
    print(f"{PROGRAMS} programs {what}: one after the other {alone:.3f} s, in turns {board:.3f} s, {board / alone:.2f} times as long", flush=True)
    return board / alone


def main():
    wdyl = os.path.abspath(sys.argv[1])
    ratio = measured(wdyl, f"of {11 * TURNS_OF_LOOP:,} steps", looping())
    measured(wdyl, f"of {PUTS:,} host calls", putting())
    return 0 if ratio <= MOST else 1


if __name__ == "__main__":
    sys.exit(main())
