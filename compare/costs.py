#!/usr/bin/env python3
"""Counts the steps of random sets, and those of their merged modules.

    python3 compare/costs.py bin/wdyl [COUNT] [SEED]

It makes COUNT sets (1,000 if not said) from SEED (0 if not said) on. The members of every second one open others while they run. Where
one ends by itself, its steps are counted, and those of its merged module: the number is that of the trace, and the run has to end by
the limit of steps where it may make one fewer. The merged module has to make no fewer steps than the set, and at most what these cost
by docs/FORMATS.md, "What a merged module costs", of which a loader for node tells what the loader's work costs. Where a set opens no
member and asks the loader nothing, code costs nothing more: from the call of the entry on, each host call has to be waited for as many
steps later as in the set. A difference is printed with the seed, and the exit status is 1. It prints how many runs were held against
each other, and how many times as many steps as were made the loader's work may cost.
"""

import collections
import os
import sys
import tempfile

from compare import BATCH, by_node, by_wdyl, told_words
from compare_sets import MERGED, order, written
from opening_sets import OpeningSet
from sets import Set

TRACE = "trace_of_a_run"
STEP_LIMIT = (124, "step limit")
BY_ITSELF = ("return", "exit", "trap")


class Run:
    """A run of wdyl: how it ended, its steps, and the number of steps after which each host call was waited for."""

    def __init__(self, wdyl, words, folder):
        self.wdyl, self.words, self.folder = wdyl, words, folder
        by_wdyl(wdyl, "trace", *words[1:-1], words[-1], TRACE, folder=folder)
        with open(os.path.join(folder, TRACE), encoding="utf-8") as file:
            lines = [line.split() for line in file]
        self.calls = [int(line[1]) for line in lines if line[0] == "call"]
        self.steps, self.end = int(lines[-1][1]), lines[-1][2]

    def ends_there(self):
        """Whether it ends by itself where it may make so many steps, and by their limit where it may make one fewer."""
        by_steps = lambda n: by_wdyl(self.wdyl, self.words[0], "--steps", str(n), *self.words[1:], folder=self.folder)[:2]
        return by_steps(self.steps) != STEP_LIMIT and by_steps(self.steps - 1) == STEP_LIMIT


class OneRun(Run):
    """The same of one module."""

    def __init__(self, wdyl, path, folder):
        super().__init__(wdyl, ["exec", "--one", path], folder)
        self.words = ["exec", path]


def counted(wdyl, made, folder, loaded, differs, slack):
    """Holds the steps of a set and of its merged module against each other. What was found out, in words."""
    run = Run(wdyl, ["run", *made.options, made.main], folder)
    if run.end not in BY_ITSELF:
        return f"{run.end} of the set"
    if loaded["end"] in ("time", "depth"):
        return "a limit of node"
    if by_wdyl(wdyl, "merge", *made.options, made.main, MERGED, folder=folder) != (0, "", ""):
        return "not merged"
    merged = OneRun(wdyl, MERGED, folder)
    # the end costs one more, unless the program exits, and so does the call of the entry
    most = run.steps + loaded["more"] + (run.end != "exit") + 1
    if merged.end != run.end:
        differs("ends:", run.end, merged.end)
    elif not run.steps <= merged.steps <= most:
        differs("steps:", run.steps, merged.steps, "most:", most)
    if not run.ends_there() or not merged.ends_there():
        differs("the limit of steps:", run.steps, merged.steps)
    asks = loaded["asked"]
    if not asks and loaded.get("begun") is not None:
        after = {there - here for here, there in zip(run.calls[loaded["begun"]:], merged.calls[loaded["begun"]:])}
        after |= {merged.steps - run.steps - (run.end != "exit")} - ({merged.steps - run.steps - 1} if run.end == "trap" else set())
        if len(after) > 1:
            differs("code:", sorted(after))
    kind = "asks the loader nothing"
    if asks:
        kind = "gives it a string without an end" if loaded["counts"]["endless"] else "asks the loader"
    slack[kind].append((most - run.steps) / (merged.steps - run.steps))
    return kind


def main():
    wdyl, count, first = told_words("costs.py", 1000)
    found, slack = collections.Counter(), collections.defaultdict(list)
    differences = 0

    for begin in range(first, first + count, BATCH):
        with tempfile.TemporaryDirectory() as folder:
            seeds = range(begin, min(begin + BATCH, first + count))
            sets = [(seed, OpeningSet(seed) if seed % 2 else Set(seed), os.path.join(folder, str(seed))) for seed in seeds]
            for _, made, place in sets:
                written(made, place)
            for (seed, made, place), loaded in zip(sets, by_node([order(made, place) for _, made, place in sets], "load.mjs")):

                def differs(*told):
                    nonlocal differences
                    differences += 1
                    print(f"seed {seed}:", *told)

                found["refused" if loaded["end"] == "refused" else counted(wdyl, made, place, loaded, differs, slack)] += 1
    for what, times in sorted(found.items()):
        print(f"{times:8} {what}")
    for what, ratios in sorted(slack.items()):
        ratios.sort()
        print(f"{what}: the steps more that are allowed, by those that were made: {ratios[0]:.2f} to {ratios[-1]:.2f}, half of them up to {ratios[len(ratios) // 2]:.2f}")
    print(f"{differences} differences")
    sys.exit(1 if differences else 0)


if __name__ == "__main__":
    main()
