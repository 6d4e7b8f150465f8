#!/usr/bin/env python3
"""Compares `wdyl exec` with other engines on random modules.

    python3 compare/compare.py bin/wdyl [COUNT] [SEED]

It makes COUNT modules (1,000 if not said) from SEED (0 if not said) on. Each is run by wdyl and by node, which have to end alike
with the same output. Of each it also makes one with a few bytes changed, which wdyl and wasm-validate of wabt have to take or
refuse alike, and which is run where both take it. A difference is printed with the seed, and the exit status is 1.

Engines may differ where wdyl has a limit of its own, or where a module has floats or a feature that wdyl doesn't support.
"""

import collections
import json
import os
import random
import shutil
import subprocess
import sys
import tempfile

import modules

HERE = os.path.dirname(os.path.abspath(__file__))
BATCH = 100
VALIDATE = ["wasm-validate", "--disable-simd", "--ignore-custom-section-errors"]


def by_wdyl(wdyl, *words, folder=None):
    """How a command of wdyl ended, and what it wrote."""
    done = subprocess.run([wdyl, *words], cwd=folder, stdin=subprocess.DEVNULL, capture_output=True)
    line = done.stderr.decode().rstrip("\n")
    # a module may have written to the standard error itself
    line = line.rsplit("\n", 1)[-1]
    line = line[line.rfind("wdyl: ") + 6:] if "wdyl: " in line else ""
    return done.returncode, line, done.stdout.hex()


def by_node(asked, script="run.mjs"):
    """The same for many, as a script of node tells it."""
    done = subprocess.run(["node", os.path.join(HERE, script)], input="\n".join(asked), capture_output=True, text=True, check=True)
    return [json.loads(line) for line in done.stdout.splitlines()]


def is_refused(status, line):
    """Whether wdyl took the file for no valid module."""
    return status == 65 and line.startswith("module 0 ")


def is_limited(line):
    """Whether wdyl may refuse a module that others take."""
    return " unsupported " in line or " too deep " in line or " too many locals " in line


def end_of(status, line):
    """The end of a run in the words of run.mjs."""
    if line.startswith("trap "):
        return "trap no such function" if line in ("trap null entry", "trap wrong type") else line
    if line.startswith("no host import") or line.startswith("ill-typed"):
        return "link"
    if line in ("step limit", "depth limit", "no entry", "segment out of bounds", "host call limit"):
        return line
    if line:
        return f"{status}: {line}"
    return "returned" if status == 0 else f"exit {status}"


def is_same(end, output, other):
    """Whether two runs ended alike. Where one found a limit, or node could not run the module with its two host functions and an
    exported memory, nothing is said."""
    if other["end"] in ("time", "depth", "link", "hidden") or end in ("step limit", "depth limit", "host call limit", "no entry"):
        return True
    if other["end"] == "exit 0":
        other = {**other, "end": "returned"}
    if end == "segment out of bounds":
        return other["end"].startswith("opening ")
    if other["end"].startswith("opening trap"):
        return end == other["end"][8:]
    if other["end"].startswith("opening "):
        return end.startswith("trap ") and end[5:] == other["end"][8:]
    return end == other["end"] and output == other["output"]


def told_words(script, count):
    """The words of a script: the program, how many, and the first seed."""
    if len(sys.argv) < 2:
        sys.exit(f"usage: {script} WDYL [COUNT] [SEED]")
    if not shutil.which("node"):
        sys.exit("node is missing")
    return os.path.abspath(sys.argv[1]), int(sys.argv[2]) if len(sys.argv) > 2 else count, int(sys.argv[3]) if len(sys.argv) > 3 else 0


def main():
    wdyl, count, first = told_words("compare.py", 1000)
    has_wabt = shutil.which("wasm-validate") is not None
    ends = collections.Counter()
    differences = 0

    def differs(seed, what, *told):
        nonlocal differences
        differences += 1
        print(f"seed {seed}: {what}:", *told)

    with tempfile.TemporaryDirectory() as folder:
        for begin in range(first, first + count, BATCH):
            runs = []
            for seed in range(begin, min(begin + BATCH, first + count)):
                whole = modules.Module(seed).bytes
                for kind, data in (("module", whole), ("changed", modules.changed(whole, random.Random(seed)))):
                    path = os.path.join(folder, f"{kind}_{seed}.wasm")
                    with open(path, "wb") as file:
                        file.write(data)
                    runs.append((seed, kind, path))
            for (seed, kind, path), node in zip(runs, by_node([path for _, _, path in runs])):
                status, line, output = by_wdyl(wdyl, "exec", path)
                refused = is_refused(status, line)
                if kind == "module" and refused:
                    differs(seed, kind, line)
                if kind == "changed" and has_wabt and not is_limited(line):
                    valid = subprocess.run([*VALIDATE, path], capture_output=True).returncode == 0
                    # what node refuses is not valid, whatever wabt says
                    if valid == refused and not (refused and node["end"] == "refused"):
                        differs(seed, kind, "wabt", "takes" if valid else "refuses", "what wdyl tells:", status, line)
                if not refused and node["end"] != "refused":
                    end = end_of(status, line)
                    if not is_same(end, output, node):
                        differs(seed, kind, end, output, node)
                    ends[f"{kind} {end.split(' ')[0] if end.startswith('exit') else end}"] += 1
                else:
                    ends[f"{kind} refused"] += 1
    for end, times in sorted(ends.items()):
        print(f"{times:8} {end}")
    print(f"{differences} differences")
    sys.exit(1 if differences else 0)


if __name__ == "__main__":
    main()
