#!/usr/bin/env python3
"""Refuses each request for memory of `wdyl` in turn, and sees that nothing else comes of it than want of memory.

    python3 compare/refused.py bin/wdyl [--jobs N] [--only WORD]

Each order below is performed once, and its requests for memory are counted: calls of malloc and its like. Then it is performed again
for each number of a request, once with this one refused, and once with this one and all that follow. Where there are more than 20,000,
a sample is taken: the first and the last 1,000 and 2,000 between them, at equal distances. Each time the order has to end as if none was
refused, or with status 71. Then it has put a part of the output, perhaps none, and the line of that status, or a part of it where the
line's own memory was refused. No file may have changed but what `merge`, `snap` and `trace` write, and at status 71 that neither; but
`trace` may have written the trace of the whole run by then.

It needs cc, since what counts and refuses is refused.c, which is loaded before the C library. Any other end is printed with the number
of the request, and the exit status is 1. --only takes the orders with a word in their names alone, --jobs is how many run at once.
"""

import argparse
import collections
import concurrent.futures
import os
import shutil
import struct
import subprocess
import sys
import tempfile

import rows

PROGRAMS = os.path.join(rows.HERE, "..", "examples", "programs")
OUT, BEFORE = "out.wasm", b"what stood here before"
LINE = b"wdyl: out of memory\n"
WANT = 71
ALL, EDGE, BETWEEN = 20_000, 1_000, 2_000
LAST = (1 << 64) - 1
SECONDS = 60

Order = collections.namedtuple("Order", "name words files input", defaults=(b"",))
# the status, what was put to the output and to the errors, and what stands at OUT
Ended = collections.namedtuple("Ended", "status output errors out")


class Place:
    """A folder with the files of an order, in which it is performed."""

    def __init__(self, wdyl, shim, order):
        self.command, self.order = [wdyl, *order.words], order
        self.folder, counts = tempfile.mkdtemp(), tempfile.NamedTemporaryFile(delete=False)
        self.counts = counts.name
        counts.close()
        self.environment = {**os.environ, "LD_PRELOAD": shim, "REFUSED_COUNTS": self.counts}
        for path, data in {**order.files, OUT: BEFORE}.items():
            os.makedirs(os.path.dirname(os.path.join(self.folder, path)), exist_ok=True)
            self.write(path, data)
        self.seen = self.shown()

    def write(self, path, data):
        with open(os.path.join(self.folder, path), "wb") as file:
            file.write(data)

    def read(self, path):
        with open(os.path.join(self.folder, path), "rb") as file:
            return file.read()

    def shown(self):
        """Each file but OUT, with what changes where it is written."""
        seen = {}
        for folder, _, names in os.walk(self.folder):
            for path in (os.path.join(folder, name) for name in names):
                told = os.stat(path)
                seen[os.path.relpath(path, self.folder)] = told.st_ino, told.st_size, told.st_mtime_ns
        seen.pop(OUT, None)
        return seen

    def perform(self, first=0, last=0):
        """How the order ended with these requests refused, how many were made, how many of these refused, and whether other files changed."""
        if self.read(OUT) != BEFORE:
            self.write(OUT, BEFORE)
        with open(self.counts, "wb") as file:
            file.write(bytes(16))
        told = {**self.environment, "REFUSED_FROM": str(first), "REFUSED_TO": str(last)}
        try:
            done = subprocess.run(self.command, cwd=self.folder, env=told, input=self.order.input, capture_output=True, timeout=SECONDS)
        except subprocess.TimeoutExpired:
            return Ended("no end", b"", b"", b""), 0, 0, False
        with open(self.counts, "rb") as file:
            made, refused = struct.unpack("<QQ", file.read())
        return Ended(done.returncode, done.stdout, done.stderr, self.read(OUT)), made, refused, self.shown() != self.seen

    def leave(self):
        shutil.rmtree(self.folder)
        os.unlink(self.counts)


def numbers(count):
    """The requests that are refused, of so many."""
    if count <= ALL:
        return range(1, count + 1)
    middle = [EDGE + 1 + k * (count - 2 * EDGE) // BETWEEN for k in range(BETWEEN)]
    return [*range(1, EDGE + 1), *middle, *range(count - EDGE + 1, count + 1)]


def kind(whole, ended, is_trace):
    """What came of a refusal, in words, or nothing where it is none of these."""
    if ended == whole:
        return "as if none was refused"
    if ended.status == WANT and whole.output.startswith(ended.output) and LINE.startswith(ended.errors):
        told = f"with status {WANT}" if ended.errors == LINE else f"with status {WANT} and a part of the line"
        if ended.out == BEFORE:
            return told
        if is_trace and ended.out == whole.out:
            return f"{told}, and the trace is written"
    return None


def refused(place, whole, listed, is_last):
    """What came of refusing each of these requests, and all behind it where it is to be so. Others are told with their numbers."""
    ends, others = collections.Counter(), []
    for n in listed:
        ended, made, count, is_changed = place.perform(n, LAST if is_last else n)
        told = None if is_changed or not count else kind(whole, ended, place.order.words[0] == "trace")
        if told:
            ends[told] += 1
        else:
            others.append(f"request {n}{' and all behind it' if is_last else ''}: {count} of {made} refused, other files changed: {is_changed}, {ended}")
    return ends, others


def tried(wdyl, shim, order, jobs):
    """Performs an order with each of its requests refused. Whether it ended as it may each time."""
    places = [Place(wdyl, shim, order) for _ in range(jobs)]
    whole, count, _, is_changed = places[0].perform()
    print(f"{order.name}: {count:,} requests", flush=True)
    if whole.status != 0 or whole.errors or is_changed:
        sys.exit(f"{order.name} isn't done: {whole}, other files changed: {is_changed}")
    listed, fits = numbers(count), True
    for is_last, what in ((False, "one refused"), (True, "one and all behind it refused")):
        ends, others = collections.Counter(), []
        with concurrent.futures.ThreadPoolExecutor(jobs) as pool:
            for part, more in pool.map(lambda k: refused(places[k], whole, listed[k::jobs], is_last), range(jobs)):
                ends.update(part)
                others += more
        shown = ", ".join(f"{times:,} {end}" for end, times in sorted(ends.items()))
        print(f"    {what}, {len(listed):,} times: {shown}, {len(others)} otherwise", flush=True)
        for other in others:
            print(f"        {other}", flush=True)
        fits = fits and not others
    for place in places:
        place.leave()
    return fits


def performed(wdyl, shim, order):
    """What stands at OUT after an order, and how many requests for memory it made."""
    place = Place(wdyl, shim, order)
    ended, count, _, _ = place.perform()
    place.leave()
    return ended.out, count


def orders_of_set(wdyl, shim, name, files, options, main, input):
    """The orders over a set: it is listed, run, merged, and the merged file is run; its run is traced and held against the trace; and two
    of it run in turns."""
    merge = Order(f"{name}: merge", ["merge", *options, main, OUT], files)
    merged, _ = performed(wdyl, shim, merge)
    trace = Order(f"{name}: trace", ["trace", *options, main, OUT], files, input)
    traced, _ = performed(wdyl, shim, trace)
    yield Order(f"{name}: plan", ["plan", *options, main], files)
    yield Order(f"{name}: run", ["run", *options, main], files, input)
    yield merge
    yield Order(f"{name}: exec of the merged file", ["exec", "merged.wasm"], {"merged.wasm": merged}, input)
    yield trace
    yield Order(f"{name}: replay", ["replay", *options, "its.trace", main], {**files, "its.trace": traced})
    snap = Order(f"{name}: snap", ["snap", *options, main, OUT], files)
    if performed(wdyl, shim, snap)[0] != BEFORE:
        yield snap
    if not options:
        yield Order(f"{name}: board of two", ["board", main, main], files, input)


def largest_plan(wdyl, shim, listed):
    """Of the rows whose set is listed that one with the most requests for memory."""
    found = []
    for row in listed:
        for one in row.commands:
            is_done = dict(one.told).get("status", b"0") == b"0" and not one.others and not any(path.endswith("/") for path in one.parts)
            if one.key == "wdyl" and one.text.startswith("plan ") and is_done:
                order = Order(f"{row.name}, the largest row of plan", one.text.split(), one.files())
                found.append((performed(wdyl, shim, order)[1], len(found), order))
    return max(found)[2]


def orders(wdyl, shim):
    listed = rows.rows()
    for row in listed:
        if row.name in ("cycle-run", "nested-opening"):
            one, = row.commands
            yield from orders_of_set(wdyl, shim, row.name, one.files(), one.text.split(), "main.wasm", one.input)
    yield Order("gen 3", ["gen", "3"], {})
    modules = os.path.join(PROGRAMS, "modules")
    files = {}
    for file in os.listdir(modules):
        with open(os.path.join(modules, file), "rb") as data:
            files[file] = data.read()
    with open(os.path.join(PROGRAMS, "input.txt"), "rb") as data:
        input = data.read()
    yield from orders_of_set(wdyl, shim, "checksums", files, [], "checksums.wasm", input)
    yield largest_plan(wdyl, shim, listed)


def main():
    words = argparse.ArgumentParser()
    words.add_argument("wdyl")
    words.add_argument("--jobs", type=int, default=os.cpu_count())
    words.add_argument("--only", default="")
    told = words.parse_args()
    if not shutil.which("cc"):
        sys.exit("cc is missing")
    wdyl, fits = os.path.abspath(told.wdyl), True
    with tempfile.TemporaryDirectory() as folder:
        shim = os.path.join(folder, "refused.so")
        subprocess.run(["cc", "-O1", "-shared", "-fPIC", "-o", shim, os.path.join(rows.HERE, "refused.c")], check=True)
        for order in orders(wdyl, shim):
            if told.only in order.name:
                fits = tried(wdyl, shim, order, told.jobs) and fits
    sys.exit(0 if fits else 1)


if __name__ == "__main__":
    main()
