#!/usr/bin/env python3
"""How long a call of `dlsym` takes by `wdyl run`, and in a merged file by node: `dlsym.py WDYL`.

A main module calls `dlsym` with the default handle 100,000 times, and ends where the name isn't found. A run of the same set that
calls it once is taken off. There are three pairs of sets:

- one library that defines 4,096 names, and one that defines 65,536: it may take 1.5 times as long;
- 128 and 256 members, of which the last defines the name;
- a name of 1,000 letters, and one of 2,000.

The sets of the first pair are merged, too, and the merged files run by node, where the search is their own code: it may take twice as long.

Printed are microseconds a call, the best of three: of processor time, and of node by its own clock. The exit status is 1 where the first takes more than 1.5 times as
long, one of the others more than 2.5 times, or the merged one more than twice.
"""

import os
import subprocess
import sys
import tempfile

from timing import MOST_GROWTH, RUNS, best, written
from make_examples import body, call, items, name, record, section, signed, unsigned

HEADER = b"\x00asm\x01\x00\x00\x00"
CALLS = 100_000
MOST_WITH_NAMES = 1.5
MOST_IN_NODE = 2
# What node says of the milliseconds that the entry of a module takes, once its functions are compiled. Its second compiler, which is left out,
# takes minutes for a function of some megabytes.
IN_NODE = ["node", "--liftoff-only", "--input-type=module", "-e", """
import { readFileSync } from "node:fs";
const { exports } = new WebAssembly.Instance(new WebAssembly.Module(readFileSync("merged.wasm")));
exports._start();
const begun = performance.now();
exports._start();
console.log(performance.now() - begun);
"""]


def loop(calls):
    """Calls function 0 with the default handle and the text at the base, so many times. An answer of 0 is a trap."""
    found = b"\x41\x00\x23\x00" + call(0) + b"\x45\x04\x40\x00\x0b"
    turn = found + b"\x20\x00\x41\x01\x6b\x22\x00\x0d\x00"
    inside = b"\x01\x01\x7f" + b"\x41" + signed(calls) + b"\x21\x00" + b"\x03\x40" + turn + b"\x0b\x0b"
    return unsigned(len(inside)) + inside


def main_module(text, needed, calls):
    """A main module with the text in its region of memory."""
    data = text.encode() + b"\x00"
    imports = [
        name("env") + name("dlsym") + b"\x00\x01",
        name("env") + name("memory") + b"\x02\x00\x01",
        name("env") + name("__memory_base") + b"\x03\x7f\x00",
    ]
    return HEADER + record((len(data), 0, 0, 0), needed) + b"".join([
        section(1, b"\x02\x60\x00\x00\x60\x02\x7f\x7f\x01\x7f"),
        section(2, items(imports)),
        section(3, b"\x01\x00"),
        section(7, items([name("_start") + b"\x00\x01"])),
        section(10, items([loop(calls)])),
        section(11, items([b"\x00\x23\x00\x0b" + unsigned(len(data)) + data])),
    ])


def library(names):
    """A library that defines these names as one function."""
    return HEADER + record() + b"".join([
        section(1, b"\x01\x60\x00\x00"),
        section(3, b"\x01\x00"),
        section(7, items(name(text) + b"\x00\x00" for text in names)),
        section(10, items([body(b"")])),
    ])


def set_of(text, libraries, calls):
    """A main module that needs these libraries, each a list of names."""
    names = [f"m{n}.so" for n in range(len(libraries))]
    return {"main.wasm": main_module(text, names, calls), **{file: library(listed) for file, listed in zip(names, libraries)}}


def of_names(count):
    return f"name{count - 1}", [[f"name{n}" for n in range(count)]]


def of_members(count):
    return "last", [[f"name{n}"] for n in range(count - 2)] + [["last"]]


def of_length(count):
    return "n" * count, [["n" * count]]


def microseconds(wdyl, text, libraries):
    """Of one call."""
    seconds = []
    for calls in (1, CALLS):
        with tempfile.TemporaryDirectory() as folder:
            written(set_of(text, libraries, calls), folder)
            seconds.append(best([wdyl, "run", "main.wasm"], folder))
    return (seconds[1] - seconds[0]) / CALLS * 1e6


def microseconds_in_node(wdyl, text, libraries):
    """Of one call, by the code of the merged file."""
    with tempfile.TemporaryDirectory() as folder:
        written(set_of(text, libraries, CALLS), folder)
        subprocess.run([wdyl, "merge", "main.wasm", "merged.wasm"], cwd=folder, check=True)
        told = [subprocess.run(IN_NODE, cwd=folder, check=True, stdout=subprocess.PIPE).stdout for _ in range(RUNS)]
    return min(map(float, told)) * 1e3 / CALLS


def compared(wdyl, what, made, sizes, most, measure=microseconds):
    less, more = (measure(wdyl, *made(size)) for size in sizes)
    ratio = more / less
    print(f"{what}: {sizes[0]:,}: {less:.2f} us a call, {sizes[1]:,}: {more:.2f} us, {ratio:.2f} times as long, at most {most}", flush=True)
    return ratio <= most


def main():
    wdyl = os.path.abspath(sys.argv[1])
    fits = [
        compared(wdyl, "names that are defined", of_names, (4096, 65_536), MOST_WITH_NAMES),
        compared(wdyl, "members that are searched", of_members, (128, 256), MOST_GROWTH),
        compared(wdyl, "letters of the name", of_length, (1000, 2000), MOST_GROWTH),
        compared(wdyl, "names, merged, by node", of_names, (4096, 65_536), MOST_IN_NODE, microseconds_in_node),
    ]
    return 0 if all(fits) else 1


if __name__ == "__main__":
    sys.exit(main())
