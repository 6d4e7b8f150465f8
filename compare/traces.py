#!/usr/bin/env python3
"""Traces random programs by `wdyl`, and replays the traces, also with a byte changed.

    python3 compare/traces.py bin/wdyl [COUNT] [SEED]

It makes COUNT programs (2,000 if not said) from SEED (0 if not said) on: by turns one module, a set, and a set that opens modules.
Every fourth one may make a few steps alone. Each is run and traced, which has to end alike with the same output. Its trace is
replayed, which has to be done; and then once more with one byte of it changed, left out or put in, which must not be done, since the
program determines each line of a trace but its answers. Two kinds of change are told apart from that: a run over other answers of the
host may well be one, and a run that was stopped may have been stopped elsewhere, which a trace with as many steps shows.

What is wrong is printed with the seed, and the exit status is 1. It prints how the runs ended, and what came of the changes.
"""

import collections
import os
import random
import sys
import tempfile

import modules
from compare import by_wdyl
from compare_sets import written
from opening_sets import OpeningSet
from sets import Set

TRACE, STOPPED = "trace_of_a_run", "trace_of_a_stopped_run"
DONE = (0, "", "")
ANSWERS = (b"put", b"reply", b"exit")


class Program:
    """One module, or a set, in a folder of its own."""

    def __init__(self, wdyl, seed, folder):
        self.wdyl, self.seed, self.folder = wdyl, seed, folder
        self.random = random.Random(seed)
        self.one = seed % 3 == 0
        made = modules.Module(seed) if self.one else Set(seed) if seed % 3 == 1 else OpeningSet(seed)
        self.main, self.options = ("main.wasm", ["--one"]) if self.one else (made.main, list(made.options))
        self.steps = ["--steps", str(self.random.randrange(400))] if seed % 4 == 0 else []
        os.makedirs(folder, exist_ok=True)
        if self.one:
            self.write("main.wasm", made.bytes)
        else:
            written(made, folder)

    def write(self, name, data):
        with open(os.path.join(self.folder, name), "wb") as file:
            file.write(data)

    def read(self, name):
        """What a file holds, or nothing if there is none."""
        path = os.path.join(self.folder, name)
        if not os.path.exists(path):
            return None
        with open(path, "rb") as file:
            return file.read()

    def run(self):
        if self.one:
            return by_wdyl(self.wdyl, "exec", *self.steps, self.main, folder=self.folder)
        return by_wdyl(self.wdyl, "run", *self.options, *self.steps, self.main, folder=self.folder)

    def trace(self, name, steps):
        return by_wdyl(self.wdyl, "trace", *self.options, *steps, self.main, name, folder=self.folder)

    def replay(self, name):
        return by_wdyl(self.wdyl, "replay", *self.options, name, self.main, folder=self.folder)


def changed(text, chance):
    """A trace with one byte changed, left out or put in."""
    place = chance.randrange(len(text))
    byte = bytes([chance.choice(b"0123456789 \n-abcdef" + text)])
    return chance.choice((text[:place] + byte + text[place + 1:], text[:place] + text[place + 1:], text[:place] + byte + text[place:]))


def determined(text):
    """The lines of a trace but its answers."""
    return [line for line in text.split(b"\n") if line.split(b" ")[0] not in ANSWERS]


def steps_of_stop(text):
    """The steps of a trace of a run that was stopped, if it is one."""
    last = text.rstrip(b"\n").split(b"\n")[-1].split(b" ")
    return last[1].decode() if len(last) == 3 and last[0] == b"end" and last[2] == b"steplimit" else None


def without_last_call(text):
    """A trace without its last call. Where a run is stopped as it waits, the answer may be told or not."""
    lines = text.split(b"\n")
    calls = [number for number, line in enumerate(lines) if line.startswith(b"call ")]
    return b"\n".join(lines[:calls[-1]] + lines[-2:]) if calls else text


def kind_of_done(program, text, other):
    """How a changed trace that is taken differs, where that is right."""
    if determined(text) == determined(other):
        return "done, with another answer"
    steps = steps_of_stop(other)
    if steps is not None and steps_of_stop(text) is not None:
        program.trace(STOPPED, ["--steps", steps])
        if program.read(STOPPED) in (other, without_last_call(other)):
            return "done, stopped elsewhere"
    return None


def compare(program, tell, ends, changes):
    run, traced = program.run(), program.trace(TRACE, program.steps)
    text = program.read(TRACE)
    if run != traced:
        tell("run", run, "trace", traced)
    if text is None:
        ends["refused"] += 1
        return
    ends[" ".join(text.decode().rstrip("\n").split("\n")[-1].split(" ")[2:3])] += 1
    changes["host calls in all"] += sum(line.startswith(b"call ") for line in text.split(b"\n"))
    if program.replay(TRACE) != DONE:
        tell("the trace is refused:", program.replay(TRACE))
    other = changed(text, program.random)
    if other == text:
        changes["the same text"] += 1
        return
    program.write(TRACE, other)
    done = program.replay(TRACE)
    if done == DONE:
        kind = kind_of_done(program, text, other)
        if kind is None:
            tell("a changed trace is taken:", other)
        changes[kind or "done, and wrong"] += 1
    else:
        changes[" ".join(done[1].split(" ")[:2])] += 1


def main():
    if len(sys.argv) < 2:
        sys.exit("usage: traces.py WDYL [COUNT] [SEED]")
    wdyl = os.path.abspath(sys.argv[1])
    count, first = [int(word) for word in sys.argv[2:4]] + [2000, 0][len(sys.argv[2:4]):]
    ends, changes = collections.Counter(), collections.Counter()
    wrong = 0
    for seed in range(first, first + count):
        def tell(*told):
            nonlocal wrong
            wrong += 1
            print(f"seed {seed}:", *told)

        with tempfile.TemporaryDirectory() as folder:
            compare(Program(wdyl, seed, folder), tell, ends, changes)
    print("ends of runs:")
    for end, times in sorted(ends.items()):
        print(f"{times:8} {end}")
    print("changed traces:")
    for change, times in sorted(changes.items()):
        print(f"{times:8} {change}")
    print(f"{wrong} wrong")
    sys.exit(1 if wrong else 0)


if __name__ == "__main__":
    main()
