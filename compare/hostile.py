#!/usr/bin/env python3
"""Gives `wdyl` damaged files, with a limit on memory and time, and sees that it always ends as docs/FORMATS.md says.

    python3 compare/hostile.py bin/wdyl [--minutes N] [--seed S] [--count N]

From each seed on (0 if none is said) it takes a good set or module: of the rows, of the examples, or a random one. It damages one file
or more (damage.py has how), and performs `plan`, `run` and `merge` over the set, `exec` of what was merged, and `exec` of the main
module alone. It does so for 10 minutes if not said, or for COUNT seeds. A finding is

- an end by a signal, or by the limit of 20 seconds of processor time, also where a run may make 1,000 steps alone; a status, a line or
  an output that the documents don't name; status 71, under a limit of 2 GB, and for a run under one of 8 GB too;
- a set that one of `plan`, `run` and `merge` refuses and another one doesn't, or for another reason; a fault of the main module's bytes
  that `plan` tells and `exec` doesn't, or the other way;
- a merged file that `exec` refuses, or that ends in another way than the set where neither finds a limit, or whose output isn't that of
  the set as far as both came;
- another answer to the same order, or another merged file;
- a file that changed, but what `merge` writes, or that one where a merge is refused.

Findings are printed with their seeds, and their files are kept. At the end it prints the last seed, how the orders ended, and which of
them took the most time and memory. The exit status is 1 where something was found.
"""

import argparse
import collections
import os
import random
import re
import resource
import shutil
import subprocess
import sys
import tempfile
import time

import damage
import modules
import rows
from opening_sets import OpeningSet
from sets import Set

EXAMPLES = os.path.join(rows.HERE, "..", "examples")
OUT = "merged.wasm"
GB = 1 << 30
SECONDS, LIMITS, WRITTEN = 20, (2 * GB, 8 * GB), GB // 4
# how many bytes a good set may have
LARGEST = 100_000
STEPS, MERGED_STEPS, FEW_STEPS = 100_000, 3_000_000, 1_000
WANT = b"wdyl: out of memory\n"
# what a set asks for that isn't the same twice
CHANGING = (b"clock_time_get", b"random_get")
STOPPED = ("step limit", "depth limit", "host call limit")

NAME, N = r"[!-\[\]-~]|\\[0-9a-f]{2}", r"\d+"
NAME = f"(?:{NAME})*"
# the lines of a module's bytes, which are the first thing that is looked at
SPELLED = (rf"module {N} malformed after {N} sections", rf"module {N} counts differ", rf"module {N} too (?:deep|many locals) in function {N}")
CHECKED = (
    *SPELLED, "files too long", f"missing {NAME}", rf"module {N} unsupported instruction (?:[0-9a-f]{{2}}|fc[0-9a-f]{{2}}) in function {N}",
    rf"module {N} unsupported type in (?:import|function|table|global|element|body) {N}",
    rf"module {N} invalid (?:import|function|table|memory|global|export|start|element|data)", rf"module {N} invalid body of function {N}", "no entry",
)
LINKED = (
    *CHECKED, "more than 256 modules", rf"module {N} has no dylink\.0 section", rf"module {N} dylink\.0 malformed after {N} subsections",
    rf"memory of {N} pages is above {N}", rf"table of {N} entries is above {N}", rf"module {N} has its own memory", rf"module {N} has TLS export {NAME}",
    rf"unresolved (?:function|mem|func|other) {NAME} in {N}", rf"ill-typed (?:function|mem|func|other) {NAME} in {N}", rf"duplicate {NAME} in {N} and {N}",
)
OPENED = (*CHECKED, f"no host import {NAME} {NAME}", f"ill-typed host import {NAME} {NAME}", "segment out of bounds")
READ = {66: (f"read fault {NAME}",)}
RUN = {
    0: ("",), 124: ("step limit",), 125: ("depth limit",), 126: ("host call limit",),
    134: (r"trap (?:unreachable|memory bounds|table bounds|null entry|wrong type|divide by zero|overflow)",),
}
LINES = {
    "plan": {0: ("",), 65: LINKED, **READ},
    "merge": {0: ("",), 65: (*LINKED, rf"section {N} too long"), **READ},
    "run": {65: LINKED, **READ, **RUN},
    "exec": {65: OPENED, **READ, **RUN},
}
LISTED = re.compile(rf"""(?:memory|table|stack|texts|heap) {N} {N}|module {N} {NAME} {N} {N} {N} {N}|slot {N} (?:{N}|loader|host) {NAME}
|bind {N} (?:function {NAME} (?:{N}|loader|host|weak)|mem {NAME} {N}|func {NAME} {N})""".replace("\n", ""))

Done = collections.namedtuple("Done", "status line output errors")


def read(path):
    with open(path, "rb") as file:
        return file.read()


class Good:
    """Good sets: their files, options and main module."""

    def __init__(self):
        self.sets, self.modules = [], []
        for row in rows.rows():
            self.add_row(row)
        for folder in ("smallest", "calls", "trap", "recursion", "says", "diamond"):
            self.add(self.folder(os.path.join(EXAMPLES, folder)), [], "main.wasm")
        for folder in ("modules", "extended"):
            files = self.folder(os.path.join(EXAMPLES, "programs", folder))
            for main in ("checksums", "timetable", "count", "shapes"):
                self.add(files, [], main + ".wasm")
            self.add(files, ["--dl", "libupper.so,librot13.so"], "filters.wasm")

    def folder(self, path):
        return {file: read(os.path.join(path, file)) for file in sorted(os.listdir(path)) if file.endswith((".wasm", ".so"))}

    def add(self, files, options, main, is_set=True):
        if sum(map(len, files.values())) <= LARGEST:
            (self.sets if is_set else self.modules).append((files, options, main))

    def add_row(self, row):
        """The set that a row runs and merges, or the module that it runs."""
        for one in row.commands:
            main = one.text.split()[-1:]
            if one.key == "both":
                self.add(one.files(), one.text.split(), "main.wasm")
            elif one.key == "wdyl" and one.text.startswith("exec ") and main[0] in one.parts and dict(one.told).get("status") != b"65":
                self.add(one.files(), [], main[0], False)

    def file(self, rng):
        """The bytes of one file."""
        files, _, _ = rng.choice(self.sets)
        return files[rng.choice(list(files))]

    def set(self, rng):
        choice = rng.random()
        if choice < 0.6:
            return rng.choice(self.sets if choice < 0.5 else self.modules)
        seed = rng.getrandbits(32)
        if choice < 0.65:
            return {"main.wasm": modules.Module(seed).bytes}, [], "main.wasm"
        made = OpeningSet(seed) if choice < 0.9 else Set(seed)
        return made.files, made.options, made.main


class Trial:
    """A damaged set in a folder, and what is found in what `wdyl` does with it."""

    def __init__(self, wdyl, seed, good, counts, dearest):
        rng = random.Random(seed)
        self.wdyl, self.seed, self.counts, self.dearest = wdyl, seed, counts, dearest
        files, options, self.main = good.set(rng)
        self.files, self.options = damage.Damage(rng, files, lambda: good.file(rng)).set(files, options)
        self.is_twice = rng.random() < 0.2
        self.is_same = not any(text in data for text in CHANGING for data in self.files.values())
        self.place = tempfile.mkdtemp()
        self.folder = os.path.join(self.place, "set")
        self.found = []
        for path, data in self.files.items():
            os.makedirs(os.path.dirname(os.path.join(self.folder, path)), exist_ok=True)
            with open(os.path.join(self.folder, path), "wb") as file:
                file.write(data)

    # ---- one order

    def ended(self, words, limit):
        """How an order ended under a limit of memory, what it put, and what it took in seconds and bytes."""
        paths = [os.path.join(self.place, name) for name in ("output", "errors")]
        with open(paths[0], "wb") as output, open(paths[1], "wb") as errors:
            process = subprocess.Popen([self.wdyl, *words], cwd=self.folder, stdin=subprocess.DEVNULL, stdout=output, stderr=errors, restore_signals=False)
            resource.prlimit(process.pid, resource.RLIMIT_CPU, (SECONDS, SECONDS))
            resource.prlimit(process.pid, resource.RLIMIT_AS, (limit, limit))
            resource.prlimit(process.pid, resource.RLIMIT_FSIZE, (WRITTEN, WRITTEN))
            _, status, usage = os.wait4(process.pid, 0)
            process.returncode = os.waitstatus_to_exitcode(status)
        cost = usage.ru_utime + usage.ru_stime, usage.ru_maxrss * 1024
        return process.returncode, *map(read, paths), cost

    def performed(self, *words):
        """What an order did. Where memory was wanting it is performed again with more, where time was with fewer steps."""
        status, output, errors, cost = self.ended(words, LIMITS[0])
        if words[0] in ("run", "exec") and errors.endswith(WANT):
            self.counts[f"{words[0]} 71 under the first limit of memory"] += 1
            status, output, errors, cost = self.ended(words, LIMITS[1])
        if status < 0 and cost[0] >= SECONDS - 1 and "--steps" in words:
            self.counts[f"{words[0]} took too long with all its steps"] += 1
            at = words.index("--steps") + 1
            status, output, errors, cost = self.ended((*words[:at], str(FEW_STEPS), *words[at + 1:]), LIMITS[0])
        self.dearest[words[0]] = max(self.dearest.get(words[0], ((0, 0), 0)), (cost, self.seed))
        line = re.search(rb"wdyl: ([^\n]*)\n\Z", errors)
        done = Done(status, line[1].decode(errors="replace") if line else "", output, errors[:line.start()] if line else errors)
        self.judge(words, done)
        return done

    def judge(self, words, done):
        """Whether the documents name this end of an order."""
        command, lines = words[0], LINES[words[0]]
        name = re.sub(r"^(missing|read fault|unresolved \w+|ill-typed \w+|duplicate|no host import|ill-typed host import) .*", r"\1 ..", done.line)
        name = re.sub(r"(TLS export|unsupported instruction) .*", r"\1 ..", re.sub(N, "N", name))
        self.counts[f"{command} {done.status} {name}" if name else f"{command} {'exit' if done.status else 'done'}"] += 1
        is_exit = command in ("run", "exec") and 0 <= done.status and not done.line
        is_known = any(re.fullmatch(line, done.line) for line in lines.get(done.status, ()))
        if not is_exit and not is_known:
            self.finds(words, "ended so:", done.status, done.line, done.errors[-300:])
        if command in ("plan", "merge") and (done.errors or command == "merge" and done.output):
            self.finds(words, "put:", done.output[-300:], done.errors[-300:])

    def finds(self, *told):
        self.found.append(" ".join(map(str, told)))

    # ---- all orders

    def perform(self):
        """Performs all orders, and gives what was found."""
        plan = self.performed("plan", *self.options, self.main)
        self.listed(plan)
        run = self.performed("run", "--steps", str(STEPS), *self.options, self.main)
        merge = self.performed("merge", *self.options, self.main, OUT)
        merged = self.written(merge)
        refused = plan.status in (65, 66)
        for command, done in (("run", run), ("merge", merge)):
            is_refused = done.status in (65, 66) and bool(done.line) and not done.line.startswith("section ")
            if is_refused != refused or refused and done[:2] != plan[:2]:
                self.finds(command, "told", done[:2], "and plan", plan[:2])
        if merged is not None:
            self.executed(run)
        self.alone(plan)
        if self.is_twice:
            self.again(plan, run, merge, merged)
        return self.found

    def listed(self, plan):
        lines = plan.output.decode(errors="replace").split("\n")
        if plan.status == 0 and (lines[-1] or not all(map(LISTED.fullmatch, lines[:-1]))) or plan.status != 0 and plan.output:
            self.finds("plan put", plan.output[:500])

    def written(self, merge):
        """What a merge wrote, if it is done. No other file may have changed."""
        there = {}
        for folder, _, names in os.walk(self.folder):
            for path in (os.path.join(folder, name) for name in names):
                there[os.path.relpath(path, self.folder)] = read(path)
        merged = there.pop(OUT, None)
        if there != {os.path.normpath(path): data for path, data in self.files.items()}:
            self.finds("a file changed:", *[path for path in {*there, *self.files} if there.get(path) != self.files.get(path)])
        if (merged is None) != (merge.status != 0):
            self.finds("merge", merge[:2], "but" if merged is None else "and", "a file was written")
        return merged

    def executed(self, run):
        """The merged file runs, and ends as the set does."""
        done = self.performed("exec", "--steps", str(MERGED_STEPS), OUT)
        if done.status == 65 and done.line and done.line != "files too long":
            self.finds("exec refuses the merged file:", done.line)
        elif self.is_same and done.line != "files too long":
            is_stopped = done.line in STOPPED or run.line in STOPPED
            is_alike = run.output.startswith(done.output) or done.output.startswith(run.output) if is_stopped else run == done
            if not is_alike:
                self.finds("exec of the merged file told", done[:2], done.output[-100:], "and run", run[:2], run.output[-100:])

    def alone(self, plan):
        """The main module is run alone, unless it is a member that can't be opened so."""
        is_spelled = lambda told: "module 0" in told.line and any(re.fullmatch(line, told.line) for line in SPELLED)
        if b"\x03env" in self.files.get(self.main, b"") and not is_spelled(plan) and self.seed % 4:
            return
        done = self.performed("exec", "--steps", str(STEPS), self.main)
        if (is_spelled(plan) or is_spelled(done)) and plan[:2] != done[:2]:
            self.finds("exec of the main module told", done[:2], "and plan", plan[:2])

    def again(self, plan, run, merge, merged):
        """The same orders have the same answers."""
        orders = [(plan, ("plan", *self.options, self.main)), (merge, ("merge", *self.options, self.main, OUT))]
        if self.is_same:
            orders.append((run, ("run", "--steps", str(STEPS), *self.options, self.main)))
        for done, words in orders:
            other = self.performed(*words)
            if other != done:
                self.finds(words, "told", done[:2], "and then", other[:2])
        if merged is not None and read(os.path.join(self.folder, OUT)) != merged:
            self.finds("the merged file is another one")

    def leave(self):
        """What was found is printed, and its files are kept."""
        if self.found:
            print(f"seed {self.seed}, options {self.options}, main {self.main}, files in {self.place}", flush=True)
            for told in self.found:
                print(f"    {told}", flush=True)
        else:
            shutil.rmtree(self.place)


def main():
    words = argparse.ArgumentParser()
    words.add_argument("wdyl")
    words.add_argument("--minutes", type=float, default=10)
    words.add_argument("--seed", type=int, default=0)
    words.add_argument("--count", type=int)
    told = words.parse_args()
    wdyl, good, counts, dearest = os.path.abspath(told.wdyl), Good(), collections.Counter(), {}
    print(f"{len(good.sets)} good sets and {len(good.modules)} good modules, from seed {told.seed} on", flush=True)
    seed, findings, end = told.seed, 0, time.monotonic() + 60 * told.minutes
    while seed < told.seed + told.count if told.count else time.monotonic() < end:
        trial = Trial(wdyl, seed, good, counts, dearest)
        findings += bool(trial.perform())
        trial.leave()
        seed += 1
    for end, times in sorted(counts.items()):
        print(f"{times:8} {end}")
    for command, ((seconds, memory), at) in sorted(dearest.items()):
        print(f"{command} took at most {seconds:.2f} seconds, and then {memory >> 20} MB, at seed {at}")
    print(f"the last seed was {seed - 1}, {findings} sets with findings")
    sys.exit(1 if findings else 0)


if __name__ == "__main__":
    main()
