#!/usr/bin/env python3
"""Times `wdyl exec` beside other engines on whole programs.

    python3 bench/exec.py bin/wdyl [OTHER]

It compiles the programs of bench/exec by clang with wasm-ld, and runs each by wdyl, by another program of wdyl where one is
given, by wasm-interp of wabt and by node, of these as many as there are. They run by turns, nine times each. Printed are the least
processor times of the process in seconds, and beside each but the first how many times as long it took: what else the machine, or
the host below it, does only adds to a time. A program ends with a result as its exit code, modulo 256, which has to be the same for
all; the exit status is 1 where it isn't.
"""

import glob
import os
import re
import shutil
import subprocess
import sys
import tempfile

HERE = os.path.dirname(os.path.abspath(__file__))
TURNS = 9
CLANG = ["clang", "--target=wasm32", "-O2", "-mbulk-memory", "-nostdlib", "-Wl,--no-entry", "-Wl,--export=_start", "-o"]


def compiled(folder):
    """The modules of the programs, by their names."""
    modules = {}
    for source in sorted(glob.glob(os.path.join(HERE, "exec", "*.c"))):
        name = os.path.splitext(os.path.basename(source))[0]
        modules[name] = os.path.join(folder, name + ".wasm")
        subprocess.run([*CLANG, modules[name], source], check=True)
    return modules


def timed(command):
    """The processor time of a command in seconds, its exit status and what it printed."""
    process = subprocess.Popen(command, stdout=subprocess.PIPE, stderr=subprocess.DEVNULL)
    printed = process.stdout.read().decode()
    _, status, usage = os.wait4(process.pid, 0)
    return usage.ru_utime + usage.ru_stime, os.waitstatus_to_exitcode(status), printed


def by_status(status, printed):
    return status


def by_call(status, printed):
    """wasm-interp has no WASI: it prints the call of the function that it doesn't know."""
    found = re.search(r"proc_exit\(i32:(\d+)\)", printed)
    return int(found[1]) % 256 if found else None


def engines(wdyl):
    """The engines that are there: how each runs a module, and how its result is read."""
    listed = {"wdyl": ([wdyl, "exec"], by_status)}
    if shutil.which("wasm-interp"):
        listed["wasm-interp"] = (["wasm-interp", "--dummy-import-func", "--run-all-exports"], by_call)
    if shutil.which("node"):
        listed["node"] = (["node", os.path.join(HERE, "exec", "run.mjs")], by_status)
    return listed


def turns(listed):
    """The seconds of each command at each turn, by its name, and the results of all."""
    taken, results = {name: [] for name in listed}, set()
    for _ in range(TURNS):
        for name, (command, result_of) in listed.items():
            seconds, status, printed = timed(command)
            taken[name].append(seconds)
            results.add(result_of(status, printed))
    return taken, results


def ratio(one, other):
    """How many times as long the one took as the other, by the least times of both."""
    return min(one) / max(min(other), 0.0005)


def shown(results):
    """The result, or those that differ."""
    return "/".join(map(str, sorted(results, key=str))).rjust(6)


def main():
    if len(sys.argv) not in (2, 3):
        sys.exit("usage: exec.py WDYL [OTHER]")
    for tool in ["clang", "wasm-ld"]:
        if not shutil.which(tool):
            sys.exit(f"{tool} is missing: the programs can't be compiled")
    first, *others = engines(os.path.abspath(sys.argv[1])).items()
    listed = dict([first, *(("other", ([os.path.abspath(path), "exec"], by_status)) for path in sys.argv[2:]), *others])
    print("program".ljust(10), "result", *(name.rjust(8 if name == "wdyl" else 16) for name in listed))
    same = True
    with tempfile.TemporaryDirectory() as folder:
        for program, module in compiled(folder).items():
            taken, results = turns({name: ([*command, module], result_of) for name, (command, result_of) in listed.items()})
            same = same and len(results) == 1
            columns = [f"{min(taken['wdyl']):8.3f}"]
            columns += [f"{min(taken[name]):9.3f} ({ratio(taken[name], taken['wdyl']):4.2f})" for name in listed if name != "wdyl"]
            print(program.ljust(10), shown(results), *columns, flush=True)
    if not same:
        sys.exit("the results differ")


if __name__ == "__main__":
    main()
