#!/usr/bin/env python3
"""Compares boards of random sets with the run of each set alone.

    python3 compare/boards.py bin/wdyl [COUNT] [SEED]

It makes COUNT boards (1,000 if not said) from SEED (0 if not said) on, of one to six sets. Each set is run and traced alone, by which
it is known after how many steps it calls its host, what each call puts, and how it ends. By that, by the order of the turns and by
their limits it is worked out here what the board puts, call by call, how each program ends, and the status. The board has to do just
that, and where a set is refused alone the first such one has to be refused, and nothing run. The sets read nothing, so that each has
the answers on the board that it has alone.

A difference is printed with the seed, and the exit status is 1. It prints how the programs ended.
"""

import collections
import os
import random
import subprocess
import sys
import tempfile

from compare_sets import written
from opening_sets import OpeningSet
from sets import Set

TRACE = "trace_of_a_run"
STEPS, SLICE, TURNS = 1_000_000_000, 1_000, 1_048_576
# the texts of the limits, by their words in a trace, with their statuses
LIMITS = {"steplimit": ("step limit", 124), "depthlimit": ("depth limit", 125), "hostcalllimit": ("host call limit", 126)}


def by_wdyl(wdyl, folder, *words):
    """The status of a command, and what it put to the output and to the errors."""
    done = subprocess.run([wdyl, *words], cwd=folder, stdin=subprocess.DEVNULL, capture_output=True)
    return done.returncode, done.stdout, done.stderr


class Run:
    """The run of a set alone: after how many steps each of its calls waits, and what that puts; after how many it ended, and how."""

    def __init__(self, wdyl, folder, main, options):
        self.status, output, self.errors = by_wdyl(wdyl, folder, "trace", *options, main, TRACE)
        path = os.path.join(folder, TRACE)
        self.is_refused = not os.path.exists(path)
        if self.is_refused:
            return
        with open(path, encoding="ascii") as file:
            lines = [line.split(" ") for line in file.read().splitlines()]
        os.remove(path)
        self.calls, sizes, at = [], [], None
        for words in lines[1:]:
            if words[0] == "call":
                self.calls.append(int(words[1]))
                sizes.append(0)
                at = words[7] if words[3] == "fd_write" and words[4] == "1" else None
            elif words[0] == "put" and words[1] == at:
                sizes[-1] = int.from_bytes(bytes.fromhex(words[2]), "little")
        self.steps, self.end = int(lines[-1][1]), " ".join(lines[-1][2:])
        # a program of these sets puts to the output alone
        assert sum(sizes) == len(output), (sizes, output)
        self.puts = []
        for size in sizes:
            self.puts.append(output[:size])
            output = output[size:]


class Program:
    """A program of a board: its run, how many steps it has made, and how many of its calls are answered."""

    def __init__(self, run, most):
        self.run, self.most, self.steps, self.answered = run, most, 0, 0

    def waits(self):
        return self.answered < len(self.run.calls) and self.run.calls[self.answered] == self.steps

    def is_done(self):
        """Whether it has ended, or a limit of its own is due."""
        return self.steps in (self.run.steps, self.most)

    def turn(self, slice_of):
        """Makes the steps of a turn, and gives what the call puts at which it stopped."""
        stops = [self.run.steps, self.most, self.steps + slice_of, *self.run.calls[self.answered:self.answered + 1]]
        self.steps = min(stops)
        if self.is_done() or not self.waits():
            return b""
        self.answered += 1
        return self.run.puts[self.answered - 1]

    def told(self):
        """The text of its end, if it has one, and its status."""
        if not self.is_done():
            return "turn limit", 124
        if self.run.end in LIMITS:
            return LIMITS[self.run.end]
        words = self.run.end.split(" ")
        if words[0] == "trap":
            return self.run.end, 134
        return None, int(words[1]) % 256 if words[0] == "exit" else 0


def worked_out(runs, most, slice_of, turns):
    """What a board of these runs does: its status, what it puts, and the texts of ends."""
    programs = [Program(run, most) for run in runs]
    output, turn = b"", 0
    while turn < turns and not all(program.is_done() for program in programs):
        output += programs[turn % len(programs)].turn(slice_of)
        turn += 1
    ends = [program.told() for program in programs]
    statuses = [status for _, status in ends if status]
    lines = [f"wdyl: program {p}: {text}\n" for p, (text, _) in enumerate(ends) if text]
    return (statuses or [0])[0], output, "".join(lines).encode(), [text or "returned or exited" for text, _ in ends]


def options_of(chance):
    """The options of all sets of a board, and those of its turns."""
    alone = []
    if chance.random() < 0.3:
        alone += ["--steps", str(chance.randrange(3_000))]
    if chance.random() < 0.2:
        alone += ["--pages", str(chance.choice((2, 3, 1_024)))]
    if chance.random() < 0.2:
        alone += ["--stack", str(chance.choice((16, 1_000, 100_000)))]
    turns = []
    if chance.random() < 0.7:
        turns += ["--slice", str(chance.choice((1, 2, 7, 50, 333, 1_000_000)))]
    if chance.random() < 0.4:
        turns += ["--turns", str(chance.randrange(60) if chance.random() < 0.5 else chance.randrange(3_000))]
    return alone, turns


def value(options, name, unless):
    return int(options[options.index(name) + 1]) if name in options else unless


def compare(wdyl, seed, folder, tell, ends):
    chance = random.Random(seed)
    alone, turns = options_of(chance)
    mains, runs = [], []
    for number in range(chance.choice((1, 2, 2, 3, 3, 4, 6))):
        made = chance.choice((Set, OpeningSet))(chance.randrange(1 << 30))
        place, main = os.path.join(folder, str(number)), f"{number}/{made.main}"
        os.makedirs(place)
        written(made, place)
        # from the folder of the board, since a name with a slash is a path from there
        runs.append(Run(wdyl, folder, main, alone))
        # a main module that is refused makes a board of nothing: few of them have one
        if runs[-1].is_refused and chance.random() < 0.9:
            runs.pop()
        else:
            mains.append(main)
    if not mains:
        return
    done = by_wdyl(wdyl, folder, "board", *alone, *turns, *mains)
    refused = [run for run in runs if run.is_refused]
    if refused:
        ends["refused, with all of its board"] += 1
        if (done[0], done[1], done[2]) != (refused[0].status, b"", refused[0].errors):
            tell(alone, turns, mains, done, "where this is refused alone:", refused[0].errors)
        return
    limits = value(alone, "--steps", STEPS), value(turns, "--slice", SLICE), value(turns, "--turns", TURNS)
    *told, texts = worked_out(runs, *limits)
    ends.update(texts)
    if list(done) != told:
        tell(alone, turns, mains, done, "where this is worked out:", told)


def main():
    if len(sys.argv) < 2:
        sys.exit("usage: boards.py WDYL [COUNT] [SEED]")
    wdyl = os.path.abspath(sys.argv[1])
    count, first = [int(word) for word in sys.argv[2:4]] + [1000, 0][len(sys.argv[2:4]):]
    ends = collections.Counter()
    wrong = 0
    for seed in range(first, first + count):
        def tell(*told):
            nonlocal wrong
            wrong += 1
            print(f"seed {seed}:", *told)

        with tempfile.TemporaryDirectory() as folder:
            compare(wdyl, seed, folder, tell, ends)
    print("ends of programs:")
    for end, times in sorted(ends.items()):
        print(f"{times:8} {end}")
    print(f"{wrong} wrong")
    sys.exit(1 if wrong else 0)


if __name__ == "__main__":
    main()
