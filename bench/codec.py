#!/usr/bin/env python3
"""Times decoding, encoding and checking of growing modules, beside tools of wabt where they are installed.

    python3 bench/codec.py

It builds bench/codec/main.rattle over copies of the crates. The works are done by turns, five times each, and the best time
counts: the processor time of the process, less that of one which reads the file alone; what `encode` and `check` take is less
that of one which decodes. Figures are megabytes of the file in a second, and how many times as long wasm-validate takes as
decoding and checking together: the aim for code is 3. The first build proves crates that weren't built before, which takes
minutes.
"""

import os
import resource
import shutil
import subprocess
import sys
import tempfile

import crates

USED = ["dyl_outside", "wasm_form", "wasm_decode", "wasm_encode", "wasm_check"]
RUNS = 5
MIB = 1 << 20
SIZES = [1, 4, 16]
WABT = [("wasm-validate", ["wasm-validate"]), ("wasm-objdump -h", ["wasm-objdump", "-h"])]


def number(n):
    """An unsigned number in its shortest form."""
    out = bytearray()
    while n > 0x7F:
        out.append(n & 0x7F | 0x80)
        n >>= 7
    out.append(n)
    return bytes(out)


def section(id, contents):
    return bytes([id]) + number(len(contents)) + contents


def vector(items):
    return number(len(items)) + b"".join(items)


def module(sections):
    return bytes([0x00, 0x61, 0x73, 0x6D, 0x01, 0x00, 0x00, 0x00]) + b"".join(sections)


# A loop that adds words of the memory: blocks, branches, loads, constants and operators as compilers write them.
BODY = bytes.fromhex(
    "01 02 7F 02 40 20 00 45 0D 00 03 40 20 01 20 00 28 02 00 6A 21 01 20 00 41 04 6A 22 00 41 80 08 48 0D 00 0B 0B"
    "20 01 41 10 74 20 01 41 10 76 72 20 01 73 0B"
)


def code_heavy(size):
    """Many functions of [i32] -> [i32] with the same body."""
    body = number(len(BODY)) + BODY
    count = size // (len(body) + 1)
    return module([
        section(1, vector([bytes([0x60, 1, 0x7F, 1, 0x7F])])),
        section(3, vector([b"\0"] * count)),
        section(5, vector([b"\0\1"])),
        section(10, vector([body] * count)),
    ])


def data_heavy(size):
    """One data segment, passive."""
    return module([section(5, vector([b"\0\1"])), section(12, number(1)), section(11, vector([b"\1" + number(size) + bytes(size)]))])


def many_sections(size):
    """Custom sections of ten bytes each."""
    one = section(0, number(4) + b"name" + b"123")
    return module([one] * (size // len(one)))


def processor_time(words):
    """The processor time of a run, and what it printed."""
    before = resource.getrusage(resource.RUSAGE_CHILDREN)
    run = subprocess.run(words, capture_output=True, check=False)
    after = resource.getrusage(resource.RUSAGE_CHILDREN)
    took = after.ru_utime + after.ru_stime - before.ru_utime - before.ru_stime
    return took, run.stdout.decode(errors="replace").strip()


def by_turns(works):
    """The best processor time of each work, and what it printed last."""
    best, printed = {}, {}
    for _ in range(RUNS):
        for name, words in works.items():
            took, printed[name] = processor_time(words)
            best[name] = min(took, best.get(name, took))
    return best, printed


def rate(size, seconds):
    return f"{size / MIB / max(seconds, 0.0005):8.0f}"


def main():
    with tempfile.TemporaryDirectory() as folder:
        program = crates.build(folder, "codec", USED, [])
        tools = [(name, words) for name, words in WABT if shutil.which(words[0])]
        names = [*(f"{name:>8}" for name in ["decode", "encode", "check"]), *(name for name, _ in tools)]
        print("MB per second".ljust(26), *names)
        for kind, make in [("code", code_heavy), ("data", data_heavy), ("small sections", many_sections)]:
            for size in SIZES:
                path = os.path.join(folder, "module.wasm")
                data = make(size * MIB)
                with open(path, "wb") as out:
                    out.write(data)
                works = {work: [program, work, path] for work in ["read", "decode", "encode", "check"]}
                times, printed = by_turns(works | {name: words + [path] for name, words in tools})
                if printed["encode"] == "0" or printed["check"] == "":
                    sys.exit(f"{kind}, {size} MiB: a work failed")
                read, decoded = times["read"], times["decode"]
                columns = [rate(len(data), seconds) for seconds in [decoded - read, times["encode"] - decoded, times["check"] - decoded]]
                columns += [rate(len(data), times[name]).rjust(len(name)) for name, _ in tools]
                if "wasm-validate" in times:
                    columns.append(f"wasm-validate takes {times['wasm-validate'] / max(times['check'] - read, 0.0005):.2f} times as long")
                print(f"{kind}, {size} MiB".ljust(26), *columns, flush=True)


if __name__ == "__main__":
    main()
