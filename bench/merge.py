#!/usr/bin/env python3
"""Times `wdyl merge`, and says whether its time grows in line with the file.

    python3 bench/merge.py bin/wdyl

There are two series: files of 1 to 16 MB (of 1,048,576 bytes) with one long body of nops, and modules of 1,000 to
65,536 functions with as many exports, which call each other. Each is merged three times, and the best processor time counts; the
peak of memory is the greatest of the three, and at least that of this script, about 14 MB. The exit status is 1 where a
file of twice the size took more than 2.7 times as long.
"""

import math
import os
import subprocess
import sys
import tempfile

from timing import MB, RUNS, waited
from make_examples import NOP, call, module

# How many times as long a file of twice the size may take.
MOST_GROWTH = 2.7
# A shorter run is mostly the start of the program, and isn't compared.
SHORTEST = 0.02


def long_body(size):
    """A file of exactly so many bytes: one function with a long body of nops."""
    nops = size - 100
    # The numbers in the file take as many bytes for the few nops that are missing.
    nops += size - len(module([NOP * nops], [("_start", 0)]))
    data = module([NOP * nops], [("_start", 0)])
    assert len(data) == size
    return data


def many_functions(count):
    """Functions that call each other as a tree: function k calls 2 k + 1 and 2 k + 2, where these are there."""
    bodies = [b"".join(call(f) for f in (2 * k + 1, 2 * k + 2) if f < count) for k in range(count)]
    exports = [("_start", 0)] + [(f"f{k}", k) for k in range(1, count)]
    return module(bodies, exports)


MAKERS = {"nops": long_body, "functions": many_functions}
SERIES = {
    "nops": [MB, 2 * MB, 4 * MB, 8 * MB, 16 * MB],
    "functions": [1000, 2000, 4000, 8000, 16000, 32000, 65536],
}


def grows_in_line(before, now):
    """Whether the time grew by at most MOST_GROWTH for each doubling. None where it is too short to say."""
    if before is None or now[1] < SHORTEST or before[1] < SHORTEST:
        return None
    doublings = math.log2(now[0] / before[0])
    return now[1] / before[1] <= MOST_GROWTH ** doublings


def series(wdyl, kind, folder):
    """Measures a series, and answers whether each step of it grew in line."""
    source, target = os.path.join(folder, "main.wasm"), os.path.join(folder, "out.wasm")
    before, linear = None, True
    for size in SERIES[kind]:
        # A process of its own makes the file: the peak of a child counts that of its parent.
        subprocess.run([sys.executable, os.path.abspath(__file__), "--make", kind, str(size), source], check=True)
        runs = [waited([wdyl, "merge", source, target], folder) for _ in range(RUNS)]
        seconds, peak = min(run[0] for run in runs), max(run[1] for run in runs)
        length = os.path.getsize(source)
        now = (length, seconds)
        answer = grows_in_line(before, now)
        growth = "" if before is None else f"{seconds / before[1]:5.2f} times as long"
        said = {None: "", True: "in line", False: "MORE THAN IN LINE"}[answer]
        print(f"{kind:9} {size:10,}: {length:11,} bytes {seconds:8.3f} s {length / MB / seconds:8.1f} MB/s "
              f"{peak / MB:7.0f} MB at the peak  {growth}  {said}".rstrip(), flush=True)
        linear = linear and answer is not False
        before = now
    return linear


def main(words):
    if len(words) == 4 and words[0] == "--make":
        with open(words[3], "wb") as out:
            out.write(MAKERS[words[1]](int(words[2])))
        return 0
    if len(words) != 1:
        print("usage: merge.py WDYL", file=sys.stderr)
        return 64
    with tempfile.TemporaryDirectory() as folder:
        linear = all([series(os.path.abspath(words[0]), kind, folder) for kind in SERIES])
    print(f"at most {MOST_GROWTH} times as long for twice the size: {'yes' if linear else 'NO'}")
    return 0 if linear else 1


if __name__ == "__main__":
    sys.exit(main(sys.argv[1:]))
