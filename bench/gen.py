#!/usr/bin/env python3
"""How long `wdyl gen 255` takes, and what its parts take: `gen.py WDYL`.

The parts are measured over files with the same set, which is written here by what docs/FORMATS.md says of it: gathering is `plan`
where the last library is missing; linking is what `plan` takes above that, merging what `merge` takes above `plan`, the loaded run
what `run` does, and the merged run is `exec` of what was merged. Each run has to put the sum of 1 to 255, and `gen` has to print it
for both.

Printed is processor time in seconds, the best of three. The exit status is 1 where `gen 255` takes 5 seconds or more.
"""

import os
import subprocess
import sys
import tempfile

from timing import best, written
from make_examples import body, items, name, record, section, signed, unsigned

MEMBERS = 255
LIMIT = 5
TOTAL = (MEMBERS * (MEMBERS + 1) // 2).to_bytes(4, "little")
HEADER = b"\x00asm\x01\x00\x00\x00"
BASE, VALUE, SLOT = b"\x23\x00", b"\x23\x01", b"\x23\x02"
ADD, SUBTRACT = b"\x6a", b"\x6b"


def load(offset):
    return b"\x28\x02" + unsigned(offset)


def store(offset):
    return b"\x36\x02" + unsigned(offset)


def number(n):
    return b"\x41" + signed(n)


def write(address, n):
    return number(address) + number(n) + store(0)


VALUE_OF_MEMBER = BASE + load(0)
CALL_NEXT = b"\x20\x00" + number(1) + SUBTRACT + SLOT + b"\x11\x01\x00" + ADD
FUNCTION = b"\x20\x00\x45\x04\x7f" + VALUE_OF_MEMBER + b"\x05" + VALUE_OF_MEMBER + CALL_NEXT + b"\x0b"
RELOCATIONS = BASE + VALUE + store(4)
CONSTRUCTOR = BASE + load(4) + BASE + load(4) + load(0) + number(1) + ADD + store(0)
START = b"\x10\x04" + number(1024) + number(MEMBERS - 1) + b"\x10\x00" + store(0) + write(1032, 1024) + write(1036, 4) \
    + b"".join(map(number, (1, 1032, 1, 1040))) + b"\x10\x01\x1a"


def file_name(k):
    return f"m{k}.so" if k else "m0.wasm"


def member(k):
    """File k. The main module has an entry, and imports two functions for it."""
    following = (k + 1) % MEMBERS
    alone = k == 0
    align = 16 if k == MEMBERS - 1 else 2
    types = [b"\x60\x00\x00", b"\x60\x01\x7f\x01\x7f"] + [b"\x60\x04\x7f\x7f\x7f\x7f\x01\x7f"] * alone
    imports = [
        name("env") + name("memory") + b"\x02\x00\x01",
        name("env") + name("__indirect_function_table") + b"\x01\x70\x00\x00",
        name("env") + name("__memory_base") + b"\x03\x7f\x00",
        name("GOT.mem") + name(f"v{following}") + b"\x03\x7f\x01",
        name("GOT.func") + name(f"f{following}") + b"\x03\x7f\x01",
    ] + [name("env") + name(f"f{following}") + b"\x00\x01", name("wasi_snapshot_preview1") + name("fd_write") + b"\x00\x02"] * alone
    first = 2 if alone else 0
    exports = [
        name(f"f{k}") + b"\x00" + unsigned(first),
        name(f"v{k}") + b"\x03\x03",
        name("__wasm_apply_data_relocs") + b"\x00" + unsigned(first + 1),
        name("__wasm_call_ctors") + b"\x00" + unsigned(first + 2),
    ] + [name("_start") + b"\x00" + unsigned(first + 3)] * alone
    return HEADER + b"".join([
        record((8, align, 0, 0), [file_name(following)] + ["e.so"] * alone),
        section(1, items(types)),
        section(2, items(imports)),
        section(3, items([b"\x01", b"\x00", b"\x00"] + [b"\x00"] * alone)),
        section(6, items([b"\x7f\x00" + number(0) + b"\x0b"])),
        section(7, items(exports)),
        section(10, items(map(body, [FUNCTION, RELOCATIONS, CONSTRUCTOR] + [START] * alone))),
        section(11, items([b"\x00" + BASE + b"\x0b\x08" + k.to_bytes(4, "little") + bytes(4)])),
    ])


def printed(command, folder):
    return subprocess.run(command, cwd=folder, stdout=subprocess.PIPE, check=True).stdout


def main():
    wdyl = os.path.abspath(sys.argv[1])
    with tempfile.TemporaryDirectory() as folder:
        files = {file_name(k): member(k) for k in range(MEMBERS)}
        written({**files, "e.so": HEADER + record()}, folder)
        last = os.path.join(folder, file_name(MEMBERS - 1))
        os.rename(last, last + ".away")
        gathering = best([wdyl, "plan", "m0.wasm"], folder, 65)
        os.rename(last + ".away", last)
        linked = best([wdyl, "plan", "m0.wasm"], folder)
        merged = best([wdyl, "merge", "m0.wasm", "merged.wasm"], folder)
        loaded = best([wdyl, "run", "m0.wasm"], folder)
        alone = best([wdyl, "exec", "merged.wasm"], folder)
        whole = best([wdyl, "gen", str(MEMBERS)], folder)
        outputs = printed([wdyl, "run", "m0.wasm"], folder), printed([wdyl, "exec", "merged.wasm"], folder)
        lines = printed([wdyl, "gen", str(MEMBERS)], folder).decode().splitlines()
        sizes = printed([wdyl, "plan", "m0.wasm"], folder).decode().splitlines()[:2]
    if outputs != (TOTAL, TOTAL):
        sys.exit(f"a run put {outputs}")
    expected = [f"modules {MEMBERS + 1}", *sizes, *(f"{run} return 1 {TOTAL.hex()}" for run in ("run", "exec"))]
    if lines != expected:
        sys.exit(f"gen printed {lines} where {expected} is due")
    for what, seconds in [
        ("gathering", gathering),
        ("linking", linked - gathering),
        ("merging", merged - linked),
        ("the loaded run", loaded - linked),
        ("the merged run", alone),
        (f"gen {MEMBERS}", whole),
    ]:
        print(f"{what}: {seconds:.3f} s")
    return 0 if whole < LIMIT else 1


if __name__ == "__main__":
    sys.exit(main())
