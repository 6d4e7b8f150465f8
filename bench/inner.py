#!/usr/bin/env python3
"""Times the memories and integer operators of a run beside the same work in C.

    python3 bench/inner.py

It builds bench/inner/main.rattle over copies of the crates, with the compiler that builds the program, and
bench/inner/main.c with `cc -O2`. Each work is done three times by either, and the best time counts: the processor time
of the process, less that of a process that does nothing. The exit status is 1 where the two print different checksums.
The first build proves crates that weren't built before, which takes minutes.
"""

import os
import subprocess
import sys
import tempfile

import crates

HERE = os.path.dirname(os.path.abspath(__file__))
# The crates that the Rattle program uses; those below them are looked up in crates.txt.
USED = ["wasm_form", "wasm_num", "wasm_space"]
RUNS = 3
COUNT = 100_000_000
# How many KiB a gigabyte has.
KIB = 1 << 20
# The pages of the memory: 4 MiB.
PAGES = "64"

# A word of the command line, what it does, and how often.
WORKS = [
    ("load8", "load of 8 bytes", COUNT),
    ("load4", "load of 4 bytes", COUNT),
    ("store8", "store of 8 bytes", COUNT),
    ("store4", "store of 4 bytes", COUNT),
    ("add64", "i64.add", COUNT),
    ("add32", "i32.add", COUNT),
    ("divide64", "i64.div_s", COUNT),
    ("divide32", "i32.div_s", COUNT),
    ("turns64", "eight operators of i64 by turns", COUNT),
    ("copy64k", "copy of 1 KiB, in 64 KiB", KIB),
    ("copy1m", "copy of 1 KiB, in 1 MiB", KIB),
    ("up64k", "copy of 1 KiB, to 8 bytes further on", KIB),
    ("down64k", "copy of 1 KiB, to 8 bytes before", KIB),
    ("init64k", "init of 1 KiB, in 64 KiB", KIB),
    ("fill64k", "fill of 1 KiB, in 64 KiB", KIB),
    ("fill1m", "fill of 1 KiB, in 1 MiB", KIB),
]


def build(folder):
    """Builds both programs, and answers where they stand."""
    in_c = os.path.join(folder, "inner_in_c")
    subprocess.run(["cc", "-O2", "-o", in_c, os.path.join(HERE, "inner", "main.c")], check=True)
    return crates.build(folder, "inner", USED, [PAGES, "start"]), in_c


def run(program, word):
    """The processor time of one run in nanoseconds, and what it printed."""
    process = subprocess.Popen([program, PAGES, word], stdout=subprocess.PIPE)
    printed = process.stdout.read()
    _, status, usage = os.wait4(process.pid, 0)
    process.returncode = os.waitstatus_to_exitcode(status)
    if process.returncode != 0 or not printed:
        sys.exit(f"{program} {word}: status {process.returncode}")
    return (usage.ru_utime + usage.ru_stime) * 1e9, printed


def best(program, word):
    """The best time of some runs, and what the last one printed."""
    runs = [run(program, word) for _ in range(RUNS)]
    return min(time for time, _ in runs), runs[-1][1]


def compare(programs):
    """Prints the table, and answers whether the checksums agree."""
    starts = [best(program, "start")[0] for program in programs]
    print(f"{'':37} {'Rattle ns':>10} {'C ns':>8} {'ratio':>7}")
    agreed = True
    for word, name, count in WORKS:
        done = [best(program, word) for program in programs]
        ours, theirs = [(time - start) / count for (time, _), start in zip(done, starts)]
        same = done[0][1] == done[1][1]
        agreed = agreed and same
        said = "" if same else "  OTHER CHECKSUM"
        print(f"{name:37} {ours:10.2f} {theirs:8.2f} {ours / theirs:7.2f}{said}", flush=True)
    return agreed


def main():
    if len(sys.argv) != 1:
        print("usage: inner.py", file=sys.stderr)
        return 64
    with tempfile.TemporaryDirectory() as folder:
        return 0 if compare(build(folder)) else 1


if __name__ == "__main__":
    sys.exit(main())
