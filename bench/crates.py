"""Builds a program of a bench over copies of the crates that it uses, outside of the repository's own gate."""

import os
import re
import shutil
import subprocess
import sys

HERE = os.path.dirname(os.path.abspath(__file__))
ROOT = os.path.dirname(HERE)


def listed():
    """The crates of crates.txt, each with those that it uses."""
    with open(os.path.join(ROOT, "crates.txt")) as lines:
        found = [re.match(r"(\w+)\s*:(.*)", line) for line in lines]
    return {match[1]: match[2].split() for match in found if match}


def below(names, crates):
    """These crates and all below them that the repository has."""
    closed = set()
    names = list(names)
    while names:
        name = names.pop()
        if name in crates and name not in closed:
            closed.add(name)
            names += crates[name]
    return sorted(closed)


def lay_out(folder, program, used):
    """A repository of the crates that are used, with what was built of them, and of bench/PROGRAM/main.rattle."""
    crates = listed()
    names = below(used, crates)
    for name in names:
        shutil.copytree(os.path.join(ROOT, "crates", name), os.path.join(folder, "crates", name))
    source = os.path.join(folder, "crates", program, "src")
    os.makedirs(source)
    # No file ends in .rt outside of crates/, since the check wants to prove each.
    shutil.copy(os.path.join(HERE, program, "main.rattle"), os.path.join(source, "main.rt"))
    with open(os.path.join(folder, "crates.txt"), "w") as out:
        out.writelines(f"{name}: {' '.join(crates[name])}\n" for name in names)
        out.write(f"{program}: {' '.join(used)}\n")


def build(folder, program, used, words):
    """Builds the program by LLVM, which runs it once with these words, and answers where it stands."""
    lay_out(folder, program, used)
    crate = os.path.join(folder, "crates", program)
    built = subprocess.run(["rt", "run", "--", *words], cwd=crate, stdout=subprocess.PIPE, stderr=subprocess.STDOUT)
    if built.returncode != 0:
        sys.exit(built.stdout.decode(errors="replace"))
    return os.path.join(crate, "out", program)
