#!/usr/bin/env python3
"""Proves a program and builds it, by `rt run`, and prints each time a crate is done how many are, and the time so far.

    python3 tools/prove.py crates/wdyl build.log

All that rt says goes to the second file. The program is run without words: rt ends with the status of that run, and this script with 0
where it is 64, and else with the last lines of what rt said and status 1.
"""
import re
import subprocess
import sys
import time
from pathlib import Path

INVALID_WORDS = 64
SHOWN = 40


def below(name, edges):
    """The crates of this repository that a crate stands on."""
    found = set()
    left = [name]
    while left:
        for other in edges[left.pop()]:
            if other in edges and other not in found:
                found.add(other)
                left.append(other)
    return found


def edges_of(file):
    rows = [line.split(":") for line in file.read_text(encoding="utf-8").split("\n") if line and not line.startswith("#")]
    return {row[0].split()[0]: row[1].split() for row in rows}


def main(folder, log):
    crate = Path(folder)
    wanted = len(below(crate.name, edges_of(Path("crates.txt")))) + 1
    start = time.monotonic()
    done, named = 0, ""
    print(f"{wanted} crates are to be proved, less those that stand proved from before; {log} has what rt says of each", flush=True)
    with open(log, "w", encoding="utf-8") as kept:
        with subprocess.Popen(["rt", "run"], cwd=crate, stdin=subprocess.DEVNULL, stdout=subprocess.PIPE, stderr=subprocess.STDOUT,
                              text=True, errors="replace") as ran:
            for line in ran.stdout:
                kept.write(line)
                kept.flush()
                found = re.match(r"crate (\w+): ", line)
                named = found[1] if found else named
                if line.startswith("logic=proved "):
                    done += 1
                    seconds = int(time.monotonic() - start)
                    print(f"{done} of {wanted} crates, {seconds // 60}:{seconds % 60:02} minutes: {named}", flush=True)
    if ran.returncode != INVALID_WORDS:
        print(*Path(log).read_text(encoding="utf-8").split("\n")[-SHOWN:], sep="\n")
        sys.exit(f"rt ended with status {ran.returncode}, and not with {INVALID_WORDS}; {log} has all that it said")


main(*sys.argv[1:])
