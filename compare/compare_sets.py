#!/usr/bin/env python3
"""Compares `wdyl` with a loader for node on random sets of modules.

    python3 compare/compare_sets.py bin/wdyl [COUNT] [SEED]

It makes COUNT sets (4,000 if not said) from SEED (0 if not said) on. The members of every second one open others while they run.
Each set is listed, run and merged by wdyl, and what was merged is run by wdyl and by node. The listing has to be that of loader.mjs,
all runs have to end alike with the same output, and a set that the loader refuses has to be refused by all three commands with the
same line. A difference is printed with the seed, and the exit status is 1. It prints how the runs by the loader ended, and what the
sets did that opened modules.
"""

import collections
import json
import os
import sys
import tempfile

from opening_sets import OpeningSet
from sets import Set
from compare import BATCH, by_node, by_wdyl, end_of, is_same, told_words

MERGED = "merged_module"
LIMITS = ("step limit", "depth limit", "host call limit")
DONE = {
    "opened": "opened a member that hadn't started",
    "nested": "did so while a member was being opened",
    "promoted": "promoted a member",
    "errors": "were told an error of the loader",
    "endless": "gave the loader a string without an end",
}


def written(made, folder):
    for path, data in made.files.items():
        os.makedirs(os.path.dirname(os.path.join(folder, path)), exist_ok=True)
        with open(os.path.join(folder, path), "wb") as file:
            file.write(data)


def order(made, folder):
    """What load.mjs is asked for."""
    asked = {"folder": folder, "main": made.main}
    words = iter(made.options)
    for word in words:
        if word == "--no-duplicates":
            asked["noDuplicates"] = True
        else:
            value = next(words)
            asked[word[2:]] = {"--dl": value.split(","), "--path": value.split(":")}.get(word) or int(value)
    return json.dumps(asked)


class Comparison:
    """What wdyl does with one set, beside what the loader did. `told` is called with each difference."""

    def __init__(self, wdyl, made, folder, loaded, told):
        self.wdyl, self.made, self.folder, self.loaded, self.told = wdyl, made, folder, loaded, told

    def command(self, name, *after):
        return by_wdyl(self.wdyl, name, *self.made.options, self.made.main, *after, folder=self.folder)

    def compare(self):
        """The path of the merged module, if there is one that node has to run."""
        merge = lambda: self.command("merge", MERGED)
        if self.loaded["end"] == "refused":
            for name, done in (("plan", self.command("plan")), ("run", self.command("run")), ("merge", merge())):
                if done != (65, self.loaded["line"], ""):
                    self.told(name, done, "where the loader refuses:", self.loaded["line"])
            return None
        self.listed(self.command("plan"))
        run = self.command("run")
        self.ended("run", run)
        return self.merged(merge(), run)

    def listed(self, done):
        listing = self.loaded["listing"].encode().hex()
        if done != (0, "", listing):
            self.told("plan", done[:2], bytes.fromhex(done[2]).decode(errors="replace"), "where the loader lists:", self.loaded["listing"])

    def ended(self, name, done):
        other = self.loaded
        refused = done[0] == 65 and done[1]
        if refused or not is_same(end_of(*done[:2]), done[2], other):
            self.told(name, end_of(*done[:2]), done[2], other["end"], other["output"])

    def merged(self, done, run):
        """The merged module is run, and has to end as the set does where none finds a limit."""
        if done != (0, "", ""):
            self.told("merge", done)
            return None
        executed = by_wdyl(self.wdyl, "exec", MERGED, folder=self.folder)
        self.ended("exec of the merged module", executed)
        if executed != run and executed[1] not in LIMITS and run[1] not in LIMITS:
            self.told("exec of the merged module", executed, "where run told", run)
        return os.path.join(self.folder, MERGED)


def same_in_node(other, loaded):
    """Whether node ended a merged module as the loader ended the set, or one of the two found a limit of its own."""
    limits = ("time", "depth")
    return other["end"] in limits or loaded["end"] in limits or (other["end"], other["output"]) == (loaded["end"], loaded["output"])


def batch(wdyl, seeds, folder, differs, ends):
    made = [(seed, OpeningSet(seed) if seed % 2 else Set(seed), os.path.join(folder, str(seed))) for seed in seeds]
    for _, one, place in made:
        written(one, place)
    loads = by_node([order(one, place) for _, one, place in made], "load.mjs")
    merges = []
    for (seed, one, place), loaded in zip(made, loads):
        comparison = Comparison(wdyl, one, place, loaded, lambda *told, seed=seed: differs(seed, *told))
        path = comparison.compare()
        if path:
            merges.append((seed, path, loaded))
        ends[loaded["end"] if not loaded["end"].startswith("exit") else "exit"] += 1
        ends.update(told for what, told in DONE.items() if loaded.get("counts", {}).get(what))
    for (seed, _, loaded), other in zip(merges, by_node([path for _, path, _ in merges])):
        if not same_in_node(other, loaded):
            differs(seed, "node, of the merged module", other, loaded["end"], loaded["output"])


def main():
    wdyl, count, first = told_words("compare_sets.py", 4000)
    ends = collections.Counter()
    differences = 0

    def differs(seed, *told):
        nonlocal differences
        differences += 1
        print(f"seed {seed}:", *told)

    for begin in range(first, first + count, BATCH):
        with tempfile.TemporaryDirectory() as folder:
            batch(wdyl, range(begin, min(begin + BATCH, first + count)), folder, differs, ends)
    for end, times in sorted(ends.items()):
        print(f"{times:8} {end}")
    print(f"{differences} differences")
    sys.exit(1 if differences else 0)


if __name__ == "__main__":
    main()
