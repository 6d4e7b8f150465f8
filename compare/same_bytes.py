#!/usr/bin/env python3
"""Sees that `wdyl` gives the same bytes for the same set: as it lies in two folders, at two times, by each program that is given.

    python3 compare/same_bytes.py bin/wdyl [OTHERS ..] [--count N] [--seed S]

OTHERS are further programs of wdyl, as another compiler builds it. It makes N random sets (200 if not said) from seed S (0 if not said) on,
and takes those examples that are built. The members of every second set open others while they run; those of every other two call their
host only once the entry has begun, so that there are snapshots. The files of a set are written to two folders, in another order, and with
times that are ten years apart. In the first folder the paths of the order begin there, in the second one at the root of the system. `plan`,
`merge`, `snap` and `trace` are performed twice in each by each program: statuses, lines, outputs and the bytes of the file that is written
have to be equal. A line tells a path as it was given, so the folder is left out of it. A difference is printed with the seed, or the
example, and the exit status is 1. It prints how many bytes were compared, and how many orders were refused.
"""

import argparse
import collections
import os
import sys
import tempfile

from compare import by_wdyl
from compare_sets import written
from opening_sets import OpeningSet
from sets import Set
from snapshots import QuietOpeningSet, QuietSet

EXAMPLES = os.path.join(os.path.dirname(os.path.abspath(__file__)), "..", "examples")
OUT = "what_is_written"
COMMANDS = {"plan": [], "merge": [OUT], "snap": [OUT], "trace": [OUT]}
# two times of files, in seconds, and two names of folders
PLACES = (("here", 1_000_000_000, False), ("elsewhere/in another folder", 1_315_360_000, True))
KINDS = (Set, OpeningSet, QuietSet, QuietOpeningSet)


class Example:
    """A main module of the examples and the libraries that lie beside it."""

    options = []

    def __init__(self, folder, main):
        self.main, self.files = main, {}
        for name in sorted(os.listdir(folder)):
            if name == main or name.endswith(".so"):
                with open(os.path.join(folder, name), "rb") as file:
                    self.files[name] = file.read()


def examples():
    for folder, _, names in sorted(os.walk(EXAMPLES)):
        for name in sorted(names):
            if name == "main.wasm":
                yield os.path.relpath(os.path.join(folder, name), EXAMPLES), Example(folder, name)


def in_the_system(made, folder):
    """The main module and the options of a set whose paths are those of the system."""
    options = list(made.options)
    for n, word in enumerate(options):
        if n and options[n - 1] == "--path":
            options[n] = ":".join(os.path.join(folder, path) for path in word.split(":"))
    return os.path.join(folder, made.main), options


def laid_out(made, folder, time, backwards):
    """Writes the files of a set, in this order, with this time."""
    made.files = dict(sorted(made.files.items(), reverse=backwards))
    os.makedirs(folder)
    written(made, folder)
    for n, path in enumerate(made.files):
        os.utime(os.path.join(folder, path), (time + n, time + n))


def done(wdyl, name, made, folder, apart):
    """How a command ended, and the bytes that it wrote or put."""
    main, options = in_the_system(made, folder) if apart else (made.main, made.options)
    out = os.path.join(folder, OUT)
    if os.path.exists(out):
        os.remove(out)
    status, line, output = by_wdyl(wdyl, name, *options, main, *COMMANDS[name], folder=folder)
    data = b""
    if os.path.exists(out):
        with open(out, "rb") as file:
            data = file.read()
    return status, line.replace(folder + "/", ""), output, data


def compare(programs, made, folder, told, lengths):
    """Performs each command in each place, by each program, twice."""
    for name, time, apart in PLACES:
        laid_out(made, os.path.join(folder, name), time, apart)
    for command in COMMANDS:
        first = None
        for name, _, apart in PLACES:
            for wdyl in programs * 2:
                answer = done(wdyl, command, made, os.path.join(folder, name), apart)
                first = first or answer
                if answer != first:
                    told(command, "by", wdyl, "in", name, "gave", short(answer), "where the first gave", short(first))
        size = len(first[3]) or len(first[2]) // 2
        lengths[command, "refused" if first[0] == 65 else "bytes"] += 1 if first[0] == 65 else size


def short(answer):
    return *answer[:2], f"{len(answer[2]) // 2} bytes put", f"{len(answer[3])} bytes written"


def main():
    words = argparse.ArgumentParser(description="Compares what wdyl writes for one set in two folders, at two times.")
    words.add_argument("programs", nargs="+", metavar="WDYL")
    words.add_argument("--count", type=int, default=200)
    words.add_argument("--seed", type=int, default=0)
    asked = words.parse_args()
    programs = [os.path.abspath(path) for path in asked.programs]
    lengths = collections.Counter()
    differences = 0

    def told(*what):
        nonlocal differences
        differences += 1
        print(*what)

    sets = [(f"seed {seed}:", lambda seed=seed: KINDS[seed % 4](seed)) for seed in range(asked.seed, asked.seed + asked.count)]
    sets += [(f"{name}:", lambda made=made: made) for name, made in examples()]
    for name, make in sets:
        with tempfile.TemporaryDirectory() as folder:
            compare(programs, make(), folder, lambda *what: told(name, *what), lengths)
    print(f"{len(sets)} sets, by {len(programs)} programs")
    for (command, what), number in sorted(lengths.items()):
        print(f"{number:10,} {what} of {command}" if what == "bytes" else f"{number:10,} refused by {command}")
    print(f"{differences} differences")
    sys.exit(1 if differences else 0)


if __name__ == "__main__":
    main()
