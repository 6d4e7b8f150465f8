#!/usr/bin/env python3
"""Makes the tables of crates that stand in docs/ARCHITECTURE.md, a table for each group of crates.txt.

    python3 docs/rooms.py            prints them
    python3 docs/rooms.py --check    ends with status 1 where others stand there
    python3 docs/rooms.py --write    puts them there

What a crate is, is the first paragraph at the head of its src/lib.rt, or of src/main.rt.
"""
import re
import sys
from pathlib import Path

TOP = Path(__file__).resolve().parent.parent
PAGE = TOP / "docs/ARCHITECTURE.md"
BEGIN, END = "<!-- made by docs/rooms.py -->\n\n", "<!-- end of what docs/rooms.py made -->\n"


def what_it_is(name):
    """The first paragraph at the head of a crate."""
    root = next(TOP / "crates" / name / "src" / file for file in ("lib.rt", "main.rt") if (TOP / "crates" / name / "src" / file).exists())
    lines = re.match(r"(?://!.*\n)*", root.read_text(encoding="utf-8"))[0].replace("//!", "").split("\n")
    words = [line.strip() for line in lines]
    return " ".join(words[:words.index("")]).replace("|", "\\|")


def tables():
    """All tables, under the names of their groups."""
    out = []
    for line in (TOP / "crates.txt").read_text(encoding="utf-8").split("\n"):
        if line.startswith("# "):
            out += [f"### {line[2].upper()}{line[3:]}", "", "| Crate | What it is |", "|---|---|"]
        elif line:
            name = line.split(":")[0].split()[0]
            out.append(f"| `{name}` | {what_it_is(name)} |")
        else:
            out.append("")
    return "\n".join(out).strip("\n") + "\n\n"


def main():
    text = PAGE.read_text(encoding="utf-8")
    if BEGIN not in text or END not in text:
        sys.exit("docs/ARCHITECTURE.md has no place for the tables of crates")
    front, rest = text.split(BEGIN)
    there, back = rest.split(END)
    made = tables()
    if "--write" in sys.argv:
        PAGE.write_text(front + BEGIN + made + END + back, encoding="utf-8")
    elif "--check" not in sys.argv:
        print(made)
    elif made != there:
        sys.exit("docs/ARCHITECTURE.md has other tables of crates: `python3 docs/rooms.py --write` puts these there")


if __name__ == "__main__":
    main()
