#!/usr/bin/env python3
"""How long it takes to link a set: `link.py WDYL` measures two kinds of sets, each in two sizes.

The first is a set of 256 members with 100,000 exports and 100,000 imports in all, and one of half as many. Each member exports its
share of functions, and imports as many of the next member: every other one as a function, the others as a cell with its slot. The
time of gathering alone is that of the same set where the last library is missing. Linking is what `wdyl run` takes above that, whose
entry returns at once: the opening of the members is counted with it. What `wdyl plan` takes above gathering, the listing of all names
included, is printed beside it.

The second is a library that exports 65,536 functions, each with its place in the library's part of the table, and one of half as
many, by `wdyl plan`.

Printed is processor time, the best of three. The exit status is 1 where twice as much takes more than 2.5 times as long, or where
linking takes twice the time of gathering or more.
"""

import os
import sys
import tempfile

from timing import best, doubled, written
from make_examples import body, items, module, name, record, section, unsigned

NAMES = 100_000
MEMBERS = 256
ENTRIES = 65_536
HEADER = b"\x00asm\x01\x00\x00\x00"
TABLE_BASE = name("env") + name("__table_base") + b"\x03\x7f\x00"
TABLE = name("env") + name("__indirect_function_table") + b"\x01\x70\x00\x00"
NULLARY = section(1, b"\x01\x60\x00\x00")


def share_name(member, n):
    return f"symbol_{member}_{n}"


def imported(member, n):
    """An import of function n of a member: as a function, or as a cell with its slot."""
    text = share_name(member, n)
    return name("env") + name(text) + b"\x00\x00" if n % 2 == 0 else name("GOT.func") + name(text) + b"\x03\x7f\x01"


def member(number, following, share, dylink, entry):
    functions = (share + 1) // 2
    exports = [name(share_name(number, n)) + b"\x00" + unsigned(functions + n) for n in range(share)]
    if entry:
        exports.append(name("_start") + b"\x00" + unsigned(functions))
    return HEADER + dylink + NULLARY + b"".join([
        section(2, items(imported(following, n) for n in range(share))),
        section(3, unsigned(share) + bytes(share)),
        section(7, items(exports)),
        section(10, unsigned(share) + body(b"") * share),
    ])


def named_set(members, share, missing):
    libraries = [f"m{n}.so" for n in range(1, members)]
    needed = libraries + ["missing.so"] * missing
    files = {"main.wasm": member(0, 1, share, record(needed=needed), True)}
    for n, text in enumerate(libraries, 1):
        files[text] = member(n, (n + 1) % members, share, record(), False)
    return files


def placed_set(entries):
    """A main module and a library of so many functions, the last of them first in the table."""
    element = section(9, b"\x01\x00\x23\x00\x0b" + items(unsigned(n) for n in reversed(range(entries))))
    library = HEADER + record((0, 0, entries, 0)) + NULLARY + b"".join([
        section(2, items([TABLE_BASE, TABLE])),
        section(3, unsigned(entries) + bytes(entries)),
        section(7, items(name(f"f{n}") + b"\x00" + unsigned(n) for n in range(entries))),
        element,
        section(10, unsigned(entries) + body(b"") * entries),
    ])
    return {"main.wasm": module([b""], [("_start", 0)], record(needed=["library.so"])), "library.so": library}


def seconds(wdyl, command, files, status=0):
    with tempfile.TemporaryDirectory() as folder:
        written(files, folder)
        return best([wdyl, command, "main.wasm"], folder, status)


def names_in_line(wdyl):
    gathering, linking, listing = [], [], []
    for members in (MEMBERS // 2, MEMBERS):
        share = NAMES // MEMBERS
        # the missing one is not the 257th
        gathering.append(seconds(wdyl, "plan", named_set(members - 1, share, 1), 65))
        linked = named_set(members, share, 0)
        linking.append(seconds(wdyl, "run", linked) - gathering[-1])
        listing.append(seconds(wdyl, "plan", linked) - gathering[-1])
    sizes = (f"{NAMES // 2:,} imports", f"{NAMES:,}")
    in_line = all([
        doubled("gathering named members", sizes, *gathering),
        doubled("linking and opening them", sizes, *linking),
        doubled("linking and listing them", sizes, *listing),
    ])
    ratio = linking[1] / gathering[1]
    print(f"linking takes {ratio:.2f} times the time of gathering, where less than 2 is due")
    return in_line and ratio < 2


def entries_in_line(wdyl):
    sizes = (ENTRIES // 2, ENTRIES)
    return doubled("a plan with entries in a segment", sizes, *(seconds(wdyl, "plan", placed_set(entries)) for entries in sizes))


def main():
    wdyl = os.path.abspath(sys.argv[1])
    return 0 if names_in_line(wdyl) & entries_in_line(wdyl) else 1


if __name__ == "__main__":
    sys.exit(main())
