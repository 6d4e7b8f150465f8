#!/usr/bin/env python3
"""Times short runs of `wdyl exec` beside those of another program of wdyl, apart for the two states of a processor.

    python3 bench/short.py bin/wdyl OTHER

It runs each program of bench/exec for 600,000 steps by wdyl, by the other program and by wdyl again, all three on one processor,
thirty times, on each processor in its turn. A turn counts where both runs of wdyl took nearly as long. Some hosts keep a processor
from foretelling indirect jumps for seconds or minutes, and a run then takes some three times as long: so turns in which wdyl took
more than 1.7 times its least time are told apart. Printed are the milliseconds of wdyl, less those of a run of no step, and how many
times as long the other took (the medians of these), with the number of turns.
"""

import os
import statistics
import sys
import tempfile

from exec import compiled, timed

STEPS = 600_000
TURNS = 30
ALIKE = 0.06
APART = 1.7


def seconds(wdyl, module, steps):
    """The processor time of so many steps, with that of the start."""
    return timed([wdyl, "exec", module, "--steps", str(steps)])[0]


def start_of(wdyl, module):
    """The processor time of a run of no step, at least."""
    return min(seconds(wdyl, module, 0) for _ in range(9))


def turns(wdyl, other, module):
    """The seconds of wdyl, and those of the other program by them, of each turn that counts."""
    processors, counted = sorted(os.sched_getaffinity(0)), []
    start, other_start = start_of(wdyl, module), start_of(other, module)
    for turn in range(TURNS):
        os.sched_setaffinity(0, {processors[turn % len(processors)]})
        first = seconds(wdyl, module, STEPS) - start
        beside = seconds(other, module, STEPS) - other_start
        second = seconds(wdyl, module, STEPS) - start
        if abs(second - first) < ALIKE * first:
            mean = (first + second) / 2
            counted.append((mean, beside / mean))
    os.sched_setaffinity(0, processors)
    return counted


def shown(counted):
    """The medians of turns, and their number."""
    if not counted:
        return "none".rjust(24)
    mean, ratio = (statistics.median(column) for column in zip(*counted))
    return f"{mean * 1000:8.2f} ({ratio:4.2f}, {len(counted):2} turns)"


def main():
    if len(sys.argv) != 3:
        sys.exit("usage: short.py WDYL OTHER")
    wdyl, other = map(os.path.abspath, sys.argv[1:])
    print("program".ljust(10), "foretold".rjust(24), "not foretold".rjust(24))
    with tempfile.TemporaryDirectory() as folder:
        for program, module in compiled(folder).items():
            counted = turns(wdyl, other, module)
            least = min((mean for mean, _ in counted), default=0)
            near = [turn for turn in counted if turn[0] < APART * least]
            far = [turn for turn in counted if turn[0] >= APART * least]
            print(program.ljust(10), shown(near), shown(far), flush=True)


if __name__ == "__main__":
    main()
