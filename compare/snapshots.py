#!/usr/bin/env python3
"""Compares the snapshots of random sets with the runs of these sets.

    python3 compare/snapshots.py bin/wdyl [COUNT] [SEED]

It makes sets from SEED (0 if not said) on, until COUNT of them (2,000 if not said) have a snapshot. The members of every second one
open others while they run. They are those of compare_sets.py, but that they call their host only once the entry has begun. Each set
is run, and its snapshot is taken and run by wdyl and by node: all runs have to end alike with the same output, where none finds a
limit. Where the set is refused, the snapshot has to be refused by the same line. Where start-up traps or comes to a limit, the run has
to end so with no output. A difference is printed with the seed, and the exit status is 1. It prints how many ended how, and how many
had no snapshot.
"""

import collections
import os
import sys
import tempfile

from compare import BATCH, by_node, by_wdyl, end_of, is_same, told_words
from compare_sets import LIMITS, written
from modules import EMPTY, END, I32_STORE, IF, PUT, i32
from opening_sets import OpeningMember, OpeningSet
from sets import Member, Set

SNAPSHOT = "snapshot_of_a_set"
I32_LOAD = b"\x28"
# where the entry keeps that it has begun
BEGUN = 1_000


class Quiet:
    """What members are that call their host only once the entry has begun."""

    yields = False
    begins = i32(BEGUN) + i32(1) + I32_STORE + b"\x02\x00"
    put_code = i32(BEGUN) + I32_LOAD + b"\x02\x00" + IF + EMPTY + PUT + END


class QuietMember(Quiet, Member):
    """A member of this kind."""


class QuietOpeningMember(Quiet, OpeningMember):
    """A member of this kind that opens others."""


class QuietSet(Set):
    """A random set of such members."""

    def with_code(self, *parts):
        return QuietMember(*parts)


class QuietOpeningSet(OpeningSet):
    """A random set of such members that open others."""

    def with_code(self, *parts):
        return QuietOpeningMember(self.known, *parts)


def refused(run, done, tell):
    """Why there is no snapshot, where the run of the set ended so."""
    status, line, _ = done
    text = line.removeprefix("snapshot: ").removesuffix(" in start-up")
    if status != 65 or text == line:
        # the set itself is refused, or it should have been taken
        if done != run:
            tell("snap", done, "where run told", run)
        return "refused" if line else "nothing told"
    if text != "host call" and (run[1], run[2]) != (text, ""):
        tell("snap", done, "where run told", run)
    return f"no snapshot: {text}"


def compare(wdyl, made, folder, tell):
    """How the run of a set ended, and the path of its snapshot, or why there is none."""
    command = lambda name, *after: by_wdyl(wdyl, name, *made.options, made.main, *after, folder=folder)
    run = command("run")
    done = command("snap", SNAPSHOT)
    if done != (0, "", ""):
        return refused(run, done, tell), None
    executed = by_wdyl(wdyl, "exec", SNAPSHOT, folder=folder)
    if executed != run and executed[1] not in LIMITS and run[1] not in LIMITS:
        tell("exec of the snapshot", executed, "where run told", run)
    return run, os.path.join(folder, SNAPSHOT)


def batch(wdyl, seeds, folder, differs, ends):
    """Compares these sets, and gives how many had a snapshot."""
    taken = []
    for seed in seeds:
        made = (QuietOpeningSet if seed % 2 else QuietSet)(seed)
        place = os.path.join(folder, str(seed))
        written(made, place)
        run, path = compare(wdyl, made, place, lambda *told: differs(seed, *told))
        if path:
            taken.append((seed, path, run))
        else:
            ends[run] += 1
    for (seed, _, run), other in zip(taken, by_node([path for _, path, _ in taken])):
        end = end_of(*run[:2])
        if not is_same(end, run[2], other):
            differs(seed, "node, of the snapshot", other, "where run told", run)
        ends["exit" if end.startswith("exit") else end] += 1
    return len(taken)


def main():
    wdyl, count, seed = told_words("snapshots.py", 2000)
    ends = collections.Counter()
    differences = 0

    def differs(seed, *told):
        nonlocal differences
        differences += 1
        print(f"seed {seed}:", *told)

    while count > 0:
        with tempfile.TemporaryDirectory() as folder:
            count -= batch(wdyl, range(seed, seed + BATCH), folder, differs, ends)
        seed += BATCH
    for end, times in sorted(ends.items()):
        print(f"{times:8} {end}")
    print(f"{differences} differences")
    sys.exit(1 if differences else 0)


if __name__ == "__main__":
    main()
