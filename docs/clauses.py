#!/usr/bin/env python3
"""Prints the contracts of the public functions of a crate, as they stand in its code: what may be relied on of it.

    python3 docs/clauses.py CRATE            all of them
    python3 docs/clauses.py CRATE NAME ..    those with these names, as `merge` or `Store::advance`
    python3 docs/clauses.py --uses NAME      the clauses of any crate that cite a definition, with their files

A clause may cite definitions: the lines `ghost use` at the head of the file say from which crate and file each comes.
"""
import re
import sys
from pathlib import Path

TOP = Path(__file__).resolve().parent.parent
CRATES = TOP / "crates"
HEAD = re.compile(r"( *)(pub )?(?:const )?(?:unsafe )?fn (\w+)")
BLOCK = re.compile(r"(?:pub )?(?:unsafe )?(impl|trait)\b(?:<[^{]*?>(?= ))? ?(?:(.*?) for )?(\w+)")


def is_end(line):
    """Whether what stands before a body ends in a line: the body begins there, or there is none."""
    is_clause = re.match(r" *(requires|ensures) ", line)
    return line.endswith(";") or not is_clause and (line.strip() in ("{", "{}") or line.endswith((" {", " {}")))


def functions(file):
    """Each public function of a file: its name with its type, the line at which it begins, and what stands before its body."""
    lines = file.read_text(encoding="utf-8").split("\n")
    owner, is_public = "", False
    for at, line in enumerate(lines):
        block = BLOCK.match(line)
        if block and not line.startswith("//"):
            owner = block[3] + "::"
            # what a trait asks for, and what an impl of one promises, is as public as the trait
            is_public = block[1] == "trait" or block[2] is not None
        elif line.startswith("}"):
            owner, is_public = "", False
        head = HEAD.match(line)
        if head and (head[2] or is_public and head[1]):
            begin, end = at, at
            while begin and re.match(r" *(///|#\[)", lines[begin - 1]):
                begin -= 1
            while not is_end(lines[end]):
                end += 1
            shown = lines[begin:end] if lines[end].strip() in ("{", "{}") else lines[begin:end + 1]
            yield owner + head[3], begin + 1, "\n".join(line.removesuffix(" {") for line in shown)


def sources(crate):
    return sorted((CRATES / crate / "src").rglob("*.rt"))


def print_crate(crate, names):
    found = False
    for file in sources(crate):
        for name, line, text in functions(file):
            if not names or name in names or name.split("::")[-1] in names:
                print(f"{file.relative_to(TOP)}:{line}\n{text}\n")
                found = True
    if not found:
        sys.exit(f"{crate} has no such public function")


def print_uses(name):
    word = re.compile(r"(?<![\w.])" + re.escape(name) + r"\b")
    for crate in sorted(path.name for path in CRATES.iterdir() if (path / "src").is_dir()):
        for file in sources(crate):
            for function, _, text in functions(file):
                clauses = [line.strip() for line in text.split("\n") if re.match(r" *(requires|ensures) ", line) and word.search(line)]
                for clause in clauses:
                    print(f"{file.relative_to(TOP)}: {function}\n    {clause}")


def main():
    match sys.argv[1:]:
        case ["--uses", name]:
            print_uses(name)
        case [crate, *names] if (CRATES / crate / "src").is_dir():
            print_crate(crate, names)
        case _:
            sys.exit(__doc__)


main()
