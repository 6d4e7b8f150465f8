#!/usr/bin/env python3
"""How long a call of random_get takes: `random.py WDYL` runs a module that draws 65,536 random bytes so many times.

A run that draws none is taken off. Printed are milliseconds a call, the best of three.
"""
import pathlib
import subprocess
import sys
import tempfile
import time

CALLS = 400


def number(n):
    """A number as an unsigned LEB128."""
    out = bytearray()
    while True:
        byte, n = n & 0x7F, n >> 7
        out.append(byte | (0x80 if n else 0))
        if not n:
            return bytes(out)


def signed(n):
    """A number as a signed LEB128."""
    out = bytearray()
    while True:
        byte, n = n & 0x7F, n >> 7
        done = n == (-1 if byte & 0x40 else 0)
        out.append(byte | (0 if done else 0x80))
        if done:
            return bytes(out)


def counted(items):
    return number(len(items)) + b"".join(items)


def section(id, contents):
    return bytes([id]) + number(len(contents)) + contents


def text(name):
    return number(len(name)) + name


def module(calls):
    """A module whose `_start` calls random_get for bytes 0 to 65,535 of its memory so many times."""
    types = [b"\x60\x02\x7f\x7f\x01\x7f", b"\x60\x00\x00"]
    imports = [text(b"wasi_snapshot_preview1") + text(b"random_get") + b"\x00\x00"]
    exports = [text(b"_start") + b"\x00\x01"]
    # block; loop; the counter is 0: leave; draw; the counter less 1; again
    body = (
        b"\x01\x01\x7f"
        + b"\x41" + signed(calls) + b"\x21\x00"
        + b"\x02\x40\x03\x40\x20\x00\x45\x0d\x01"
        + b"\x41\x00\x41" + signed(65536) + b"\x10\x00\x1a"
        + b"\x20\x00\x41\x01\x6b\x21\x00\x0c\x00\x0b\x0b\x0b"
    )
    return (
        b"\0asm\1\0\0\0"
        + section(1, counted(types))
        + section(2, counted(imports))
        + section(3, counted([b"\x01"]))
        + section(5, counted([b"\x00\x01"]))
        + section(7, counted(exports))
        + section(10, counted([text(body)]))
    )


def seconds(wdyl, path):
    best = None
    for _ in range(3):
        begun = time.monotonic()
        subprocess.run([wdyl, "exec", str(path)], check=True)
        spent = time.monotonic() - begun
        best = spent if best is None else min(best, spent)
    return best


def main():
    wdyl = sys.argv[1]
    with tempfile.TemporaryDirectory() as folder:
        path = pathlib.Path(folder) / "random.wasm"
        path.write_bytes(module(0))
        none = seconds(wdyl, path)
        path.write_bytes(module(CALLS))
        all = seconds(wdyl, path)
    print(f"random_get of 65,536 bytes: {(all - none) / CALLS * 1000:.2f} ms a call")


main()
