#!/usr/bin/env python3
"""Measures the house: crates, edges, chain, paths, the longest clause and the longest function.

    python3 docs/figures.py            prints the figures that stand in docs/ARCHITECTURE.md
    python3 docs/figures.py --check    ends with status 1 where others stand there
    python3 docs/figures.py --write    puts them there
    python3 docs/figures.py --long     prints each clause above 200 letters and each body above 40 lines, the longest first

An edge is a crate of this repository that a line of crates.txt names. The chain is the most crates that stand on one another. A path begins
at any crate and goes down from edge to edge, as far as one likes. A clause is counted in letters, runs of blanks as one; a function in the
lines of its body. It needs nothing but Python.
"""
import functools
import re
import sys
from pathlib import Path

TOP = Path(__file__).resolve().parent.parent
CRATES = TOP / "crates"
PAGE = TOP / "docs/ARCHITECTURE.md"
BEGIN, END = "<!-- made by docs/figures.py -->\n\n", "\n<!-- figures to here -->\n"

# What holds braces that open and close nothing: comments, texts, and letters.
QUIET = re.compile(r'//[^\n]*|b?"(?:\\.|[^"\\])*"|b?\'(?:\\.[^\']*|[^\'\\\n])\'', re.S)
CLAUSE = re.compile(r"\b(?:ensures|requires)\b(?:\s+\w+)?\s*\{")
FUNCTION = re.compile(r"^[ \t]*(?:pub(?:\([a-z]+\))? )?(?:const |unsafe )*fn (\w+)", re.M)


def graph():
    """The edges of crates.txt between crates of this repository."""
    stands_on = {}
    for line in (TOP / "crates.txt").read_text(encoding="utf-8").split("\n"):
        name, colon, below = line.split("#")[0].partition(":")
        if colon:
            stands_on[name.split()[0]] = below.split()
    return {name: [one for one in below if one in stands_on] for name, below in stands_on.items()}


def house():
    stands_on = graph()

    @functools.lru_cache(None)
    def chain(name):
        return 1 + max((chain(one) for one in stands_on[name]), default=0)

    @functools.lru_cache(None)
    def paths(name):
        return 1 + sum(paths(one) for one in stands_on[name])

    return (len(stands_on), sum(map(len, stands_on.values())), max(map(chain, stands_on)), sum(map(paths, stands_on)))


def closing(text, at):
    """Where the brace closes that opens at a place."""
    depth = 0
    for brace in re.compile(r"[{}]").finditer(text, at):
        depth += 1 if brace[0] == "{" else -1
        if depth == 0:
            return brace.end()
    return len(text)


def body(text, at):
    """Where the body of a function begins that is named at a place; none where only its head stands there."""
    while True:
        stop = re.compile(r"\b(?:ensures|requires|decreases)\b(?:\s+\w+)?\s*\{|[{;]").search(text, at)
        if stop is None or stop[0] == ";":
            return None
        if stop[0] == "{":
            return stop.start()
        at = closing(text, stop.end() - 1)


def lengths():
    """The clauses and the bodies of all functions, each with its length and its place."""
    clauses, bodies = [], []
    for path in sorted(CRATES.glob("*/src/**/*.rt")):
        whole = path.read_text(encoding="utf-8")
        text = QUIET.sub(lambda it: re.sub(r"[^\n]", " ", it[0]), whole)
        place = str(path.relative_to(CRATES))
        heads = list(FUNCTION.finditer(text))
        for clause in CLAUSE.finditer(text):
            inner = whole[clause.end():closing(text, clause.end() - 1) - 1]
            of = [head[1] for head in heads if head.start() < clause.start()]
            clauses.append((len(" ".join(inner.split())), place, of[-1] if of else ""))
        for head in heads:
            begin = body(text, head.end())
            if begin is not None:
                bodies.append((text.count("\n", begin, closing(text, begin)), place, head[1]))
    return sorted(clauses, reverse=True), sorted(bodies, reverse=True)


def listing():
    crates, edges, chain, paths = house()
    clauses, bodies = lengths()
    clause, function = clauses[0], bodies[0]
    return "\n".join([
        f"- crates: {crates:,}",
        f"- edges of `crates.txt`: {edges:,}",
        f"- longest chain: {chain:,}",
        f"- paths down: {paths:,}",
        f"- longest clause: {clause[0]:,} letters, `{clause[2]}` in `{clause[1]}`",
        f"- longest function: {function[0]:,} lines, `{function[2]}` in `{function[1]}`",
    ]) + "\n"


def main():
    if "--long" in sys.argv:
        clauses, bodies = lengths()
        for length, place, name in clauses:
            if length > 200:
                print(f"{length:6} letters  {name}  {place}")
        for length, place, name in bodies:
            if length > 40:
                print(f"{length:6} lines    {name}  {place}")
        return
    made = listing()
    if len(sys.argv) == 1:
        print(made, end="")
        return
    page = PAGE.read_text(encoding="utf-8")
    begin = page.index(BEGIN) + len(BEGIN)
    end = page.index(END)
    if "--write" in sys.argv:
        PAGE.write_text(page[:begin] + made + page[end:], encoding="utf-8")
    elif page[begin:end] != made:
        sys.exit("docs/ARCHITECTURE.md has other figures than docs/figures.py finds; --write puts them there")


main()
