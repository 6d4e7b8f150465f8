#!/usr/bin/env python3
"""Times whole programs as modules linked alone, as members of a set, and merged.

    python3 bench/programs.py bin/wdyl

Each program of bench/exec is compiled twice: as one module, as exec.py does, and as position-independent code that is linked as the
main module of a set, which `wdyl merge` then merges. Printed is processor time in seconds, the least of nine turns: `exec` of the
module, `run` of the set and `exec` of the merged module by wdyl, the module and the merged module by node, and the module by
wasm-interp, where these are there; and two ratios of these. Results have to be the same; the exit status is 1 where they aren't.

The aims: node takes at most 1.1 times as long for the merged module as for the module. `run` and `exec` of the merged module
interpret the same code, and `run` may take 1.05 times as long.
"""

import glob
import os
import shutil
import subprocess
import sys
import tempfile

from exec import HERE, compiled, engines, ratio, shown, turns

CLANG = ["clang", "--target=wasm32-unknown-emscripten", "-O2", "-fPIC", "-fvisibility=hidden", "-mbulk-memory", "-mmutable-globals"]
LINK = ["wasm-ld", "--experimental-pic", "-pie", "--import-memory", "--import-table", "--no-entry", "--export=_start", "-o"]


def linked(folder):
    """The main modules of the programs, by their names."""
    mains = {}
    for source in sorted(glob.glob(os.path.join(HERE, "exec", "*.c"))):
        name = os.path.splitext(os.path.basename(source))[0]
        objects = os.path.join(folder, name + ".o")
        mains[name] = os.path.join(folder, name + ".main.wasm")
        subprocess.run([*CLANG, "-nostdlib", "-c", "-o", objects, source], check=True)
        subprocess.run([*LINK, mains[name], objects], check=True)
    return mains


def runs(wdyl, module, main, merged):
    """The commands with their names, and how the result of each is read."""
    subprocess.run([wdyl, "merge", main, merged], check=True)
    listed = {}
    for name, (command, result_of) in engines(wdyl).items():
        if name == "wdyl":
            listed["exec"] = ([*command, module], result_of)
            listed["run"] = ([wdyl, "run", main], result_of)
            listed["exec merged"] = ([*command, merged], result_of)
        else:
            listed[name] = ([*command, module], result_of)
        if name == "node":
            listed["node merged"] = ([*command, merged], result_of)
    return listed


def told(taken):
    """The seconds, and how many times as long `run` and the merged module take."""
    parts = [f"{name} {min(seconds):.3f}" for name, seconds in taken.items()]
    parts.append(f"run by exec merged {ratio(taken['run'], taken['exec merged']):.2f}")
    if "node" in taken:
        parts.append(f"node merged by node {ratio(taken['node merged'], taken['node']):.2f}")
    return ", ".join(parts)


def main():
    if len(sys.argv) != 2:
        sys.exit("usage: programs.py WDYL")
    for tool in ["clang", "wasm-ld"]:
        if not shutil.which(tool):
            sys.exit(f"{tool} is missing: the programs can't be compiled")
    wdyl = os.path.abspath(sys.argv[1])
    same = True
    with tempfile.TemporaryDirectory() as folder:
        modules, mains = compiled(folder), linked(folder)
        for program, module in modules.items():
            listed = runs(wdyl, module, mains[program], os.path.join(folder, program + ".merged.wasm"))
            taken, results = turns(listed)
            same = same and len(results) == 1
            print(program.ljust(10), shown(results), told(taken), flush=True)
    if not same:
        sys.exit("the results differ")


if __name__ == "__main__":
    main()
