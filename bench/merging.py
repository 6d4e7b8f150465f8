#!/usr/bin/env python3
"""Times merging beside decoding, checking and encoding the same bytes.

    python3 bench/merging.py bin/wdyl

It builds bench/codec/main.rattle over copies of the crates, as codec.py does, and makes sets of 1, 16 and 256 members with 16 MB of
code between them: functions with blocks, branches, loads and operators as compilers write them. Printed is processor time in
seconds, the best of some rounds in each of which all is done once: `wdyl merge` of the set; decoding, checking and encoding what it
wrote, less the reading of it; and how many times as long merging takes. Behind that stands what decoding, checking and encoding the
files of the set takes, one after the other, less the starts of these processes, and at last the peak of memory of `wdyl merge` and
of the codec over what it wrote. The exit status is 1 where merging takes more than 1.7 times as long as the first of these, or more
than 2.5 times the memory.
"""

import os
import sys
import tempfile

import codec
import crates
from timing import MB, waited, written
from make_examples import body, items, name, record, section, unsigned

MOST = 1.7
MOST_MEMORY = 2.5
COUNTS = (1, 16, 256)
ROUNDS = 9
ADDER = unsigned(len(codec.BODY)) + codec.BODY


def member(size, dylink, entry):
    """Functions of [i32] -> [i32] with the same body, as many as go into so many bytes, and perhaps an entry that returns."""
    count = (size - 1000 - len(dylink)) // (len(ADDER) + 1)
    return b"\x00asm\x01\x00\x00\x00" + dylink + b"".join([
        section(1, b"\x02\x60\x01\x7f\x01\x7f\x60\x00\x00"),
        section(2, items([name("env") + name("memory") + b"\x02\x00\x01"])),
        section(3, unsigned(count + entry) + bytes(count) + b"\x01" * entry),
        section(7, items([name("_start") + b"\x00" + unsigned(count)] * entry)),
        section(10, unsigned(count + entry) + ADDER * count + body(b"") * entry),
    ])


def code_set(count):
    names = [f"m{n}.so" for n in range(1, count)]
    share = 16 * MB // count
    return {"main.wasm": member(share, record(needed=names), 1), **{text: member(share, record(), 0) for text in names}}


def worked(program, work, paths):
    """One work over some files, one after the other."""
    times = [codec.processor_time([program, work, path]) for path in paths]
    if "0" in (printed for _, printed in times):
        sys.exit(f"{work}: it failed")
    return sum(time for time, _ in times)


def coded(program, paths):
    """Decoding, checking and encoding some files, less the reading of them."""
    return worked(program, "all", paths) - worked(program, "read", paths)


def measured(wdyl, program, count):
    with tempfile.TemporaryDirectory() as folder:
        files = code_set(count)
        written(files, folder)
        merged = os.path.join(folder, "merged")
        merge = [wdyl, "merge", os.path.join(folder, "main.wasm"), merged]
        paths = [os.path.join(folder, file) for file in files]
        rounds = [(waited(merge, folder)[0], coded(program, [merged]), coded(program, paths)) for _ in range(ROUNDS)]
        held, coded_in = waited(merge, folder)[1], waited([program, "all", merged], folder)[1]
    merging, coding, apart = map(min, zip(*rounds))
    ratio = merging / coding
    print(f"{count:3} members: merge {merging:.3f} s, the codec {coding:.3f} s, {ratio:.2f} times as long; ", end="")
    print(f"file by file {apart:.3f} s, {merging / apart:.2f} times; ", end="")
    print(f"memory {held / MB:.0f} MB and {coded_in / MB:.0f} MB, {held / coded_in:.2f} times", flush=True)
    return ratio <= MOST and held <= MOST_MEMORY * coded_in


def main():
    wdyl = os.path.abspath(sys.argv[1])
    with tempfile.TemporaryDirectory() as folder:
        program = crates.build(folder, "codec", codec.USED, [])
        return 0 if all([measured(wdyl, program, count) for count in COUNTS]) else 1


if __name__ == "__main__":
    sys.exit(main())
