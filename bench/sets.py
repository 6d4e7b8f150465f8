#!/usr/bin/env python3
"""What runs and merges of sets take: `sets.py WDYL`.

Printed, each the best of three, in processor time:

- calls: a loop of 2,000,000 calls of a function of the main module, and of one of a library, by `run`;
- opening: `run` of 256 members with 16 MB of data between them and an entry that returns, beside `plan` of the same;
- merging: sets of 1, 16 and 256 members with 16 MB of code between them, and of 256 with 100,000 imports (those of link.py),
  with the bytes that were read and written, and how many may be written;
- merging of twice as much: 128 and 256 members with 8 and 16 MB of code, with 50,000 and 100,000 imports, and with 32,768 and 65,536
  names, where the main module imports `dlsym`: the merged module searches all names by its own code.

The merged file may have 1.1 times the bytes of the members' own sections, and 200 bytes a member and 10 a function that is called
across members. The exit status is 1 where it has more, where a call of another member takes more than 1.1 times as long, where
opening takes a second more than `plan`, or where merging of twice as much takes more than 2.5 times as long.
"""

import os
import sys
import tempfile

import gather
import link
from timing import MB, best, doubled, written
from make_examples import body, call, items, name, record, section, signed, unsigned

HEADER = b"\x00asm\x01\x00\x00\x00"
TYPES = section(1, b"\x02\x60\x00\x00\x60\x01\x7f\x01\x7f")
CALLS = 2_000_000
MOST_OF_CALLS = 1.1
MOST_OF_OPENING = 1.0
MEMBERS = 256
NAMES = 65_536
# a file has less than 64 KB, so that 256 of them and their records have no more than 16 MB
SEGMENT = 65_000


def in_folder(files, measure):
    with tempfile.TemporaryDirectory() as folder:
        written(files, folder)
        return measure(folder)


def exported(text, function):
    return section(7, items([name(text) + b"\x00" + unsigned(function)]))


# ---- calls

# [i32] -> [i32]: local 0 times 3, and 1 more
STEP = b"\x20\x00\x41\x03\x6c\x41\x01\x6a"


def loop(function):
    """Two locals: the number of turns that are left, and what the function makes of itself."""
    turns = b"\x41" + signed(CALLS) + b"\x21\x00"
    turn = b"\x20\x01" + call(function) + b"\x21\x01" + b"\x20\x00\x41\x01\x6b\x22\x00\x0d\x00"
    inside = b"\x01\x02\x7f" + turns + b"\x03\x40" + turn + b"\x0b\x0b"
    return unsigned(len(inside)) + inside


def own_calls():
    """A main module whose `_start` calls function 0."""
    parts = [TYPES, section(3, b"\x02\x01\x00"), exported("_start", 1), section(10, items([body(STEP), loop(0)]))]
    return {"main.wasm": HEADER + record() + b"".join(parts)}


def other_calls():
    """The same, where function 0 is imported."""
    main = [TYPES, section(2, items([name("env") + name("step") + b"\x00\x01"])), section(3, b"\x01\x00")]
    main += [exported("_start", 1), section(10, items([loop(0)]))]
    library = [TYPES, section(3, b"\x01\x01"), exported("step", 0), section(10, items([body(STEP)]))]
    return {"main.wasm": HEADER + record(needed=["library.so"]) + b"".join(main), "library.so": HEADER + record() + b"".join(library)}


def calls_measured(wdyl):
    run = lambda folder: best([wdyl, "run", "main.wasm"], folder)
    own, other = in_folder(own_calls(), run), in_folder(other_calls(), run)
    print(f"{CALLS:,} calls within a member: {own:.3f} s, of another member: {other:.3f} s, {other / own:.2f} times as long", flush=True)
    return other / own <= MOST_OF_CALLS


# ---- opening

def data_set():
    """Members with a segment at their base, and an entry that returns."""
    base = section(2, items([name("env") + name("memory") + b"\x02\x00\x01", name("env") + name("__memory_base") + b"\x03\x7f\x00"]))
    segment = section(11, b"\x01\x00\x23\x00\x0b" + unsigned(SEGMENT) + bytes(range(250)) * (SEGMENT // 250))
    names = [f"m{n}.so" for n in range(1, MEMBERS)]
    main = [TYPES, base, section(3, b"\x01\x00"), exported("_start", 0), section(10, items([body(b"")])), segment]
    files = {text: HEADER + record((SEGMENT, 4, 0, 0)) + base + segment for text in names}
    return {"main.wasm": HEADER + record((SEGMENT, 4, 0, 0), names) + b"".join(main), **files}


def opening_measured(wdyl):
    both = lambda folder: (best([wdyl, "plan", "main.wasm"], folder), best([wdyl, "run", "main.wasm"], folder))
    plan, run = in_folder(data_set(), both)
    what = f"opening {MEMBERS} members with {MEMBERS * SEGMENT:,} bytes of data"
    print(f"{what}: run {run:.3f} s, plan {plan:.3f} s, opening {run - plan:.3f} s", flush=True)
    return run - plan < MOST_OF_OPENING


# ---- merging

def code_set(count):
    """So many members with 16 MB of code between them."""
    if count == MEMBERS:
        return gather.set_of(count)
    names = [f"m{n}.so" for n in range(1, count)]
    made = lambda exports, dylink: gather.of_size(16 * MB // count, exports, dylink)
    return {"main.wasm": made([("_start", 0)], record(needed=names)), **{text: made([], record()) for text in names}}


def halves_of_code():
    """Members of 64 KB of code each, half as many and all."""
    return [gather.set_of(count) for count in (MEMBERS // 2, MEMBERS)]


def halves_of_imports():
    """Members with their share of imports, half as many and all."""
    return [link.named_set(count, link.NAMES // link.MEMBERS, 0) for count in (MEMBERS // 2, MEMBERS)]


def halves_of_names():
    """A main module that imports `dlsym`, and libraries that define their share of names."""
    share = NAMES // MEMBERS
    return [searched_set(count, share) for count in (MEMBERS // 2, MEMBERS)]


def searched_set(count, share):
    names = [f"m{n}.so" for n in range(count - 1)]
    dlsym = [section(1, b"\x02\x60\x00\x00\x60\x02\x7f\x7f\x01\x7f"), section(2, items([name("env") + name("dlsym") + b"\x00\x01"]))]
    main = [*dlsym, section(3, b"\x01\x00"), exported("_start", 1), section(10, items([body(b"")]))]
    files = {"main.wasm": HEADER + record(needed=names) + b"".join(main)}
    for m, text in enumerate(names):
        exports = section(7, items(name(f"symbol_{m}_{n}") + b"\x00" + unsigned(n) for n in range(share)))
        parts = [section(1, b"\x01\x60\x00\x00"), section(3, unsigned(share) + bytes(share)), exports, section(10, items([body(b"")] * share))]
        files[text] = HEADER + record() + b"".join(parts)
    return files


def own_sections(files):
    """The bytes of the members' sections but the custom ones."""
    total = 0
    for data in files.values():
        at = 8
        while at < len(data):
            size, end = number(data, at + 1)
            total += end + size - at if data[at] else 0
            at = end + size
    return total


def number(data, at):
    """The unsigned number at a place, and the place after it."""
    value, scale = 0, 1
    while True:
        value, scale, byte = value + data[at] % 128 * scale, scale * 128, data[at]
        at += 1
        if byte < 128:
            return value, at


def merging_measured(wdyl, what, files, called):
    def both(folder):
        seconds = best([wdyl, "merge", "main.wasm", "merged.out"], folder), best([wdyl, "plan", "main.wasm"], folder)
        return (*seconds, os.path.getsize(os.path.join(folder, "merged.out")))
    merge, plan, size = in_folder(files, both)
    sections = own_sections(files)
    most = 1.1 * sections + 200 * len(files) + 10 * called
    read = sum(map(len, files.values()))
    print(f"merging {what}: {merge:.3f} s, plan {plan:.3f} s", flush=True)
    print(f"    {read:,} bytes were read, {size:,} written, at most {most:,.0f} may be", flush=True)
    return size <= most


def merging_doubled(wdyl, what, sizes, halves):
    """Merging of a set and of one twice as large, with the bytes that were read and written."""
    seconds, bytes_of = [], []
    for files in halves:
        def merged(folder):
            time = best([wdyl, "merge", "main.wasm", "merged.out"], folder)
            return time, os.path.getsize(os.path.join(folder, "merged.out"))
        time, size = in_folder(files, merged)
        seconds.append(time)
        bytes_of.append(f"{sum(map(len, files.values())):,} to {size:,}")
    print(f"    bytes read to bytes written: {', '.join(bytes_of)}", flush=True)
    return doubled(f"merging {what}", sizes, *seconds)


def main():
    wdyl = os.path.abspath(sys.argv[1])
    fits = [calls_measured(wdyl), opening_measured(wdyl)]
    for count in (1, 16, MEMBERS):
        fits.append(merging_measured(wdyl, f"{count} members with 16 MB of code", code_set(count), 0))
    share = link.NAMES // link.MEMBERS
    named = link.named_set(MEMBERS, share, 0)
    called = MEMBERS * ((share + 1) // 2)
    fits.append(merging_measured(wdyl, f"{MEMBERS} members with {link.NAMES:,} imports", named, called))
    fits.append(merging_doubled(wdyl, "members", ("8 MB of code", "16 MB"), halves_of_code()))
    fits.append(merging_doubled(wdyl, "members", (f"{link.NAMES // 2:,} imports", f"{link.NAMES:,}"), halves_of_imports()))
    fits.append(merging_doubled(wdyl, "members that are searched", (f"{NAMES // 2:,} names", f"{NAMES:,}"), halves_of_names()))
    return 0 if all(fits) else 1


if __name__ == "__main__":
    sys.exit(main())
