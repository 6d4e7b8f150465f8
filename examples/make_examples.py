#!/usr/bin/env python3
"""Writes the example modules, and beside each a listing of its bytes by parts.

    python3 examples/make_examples.py

Each function of the main modules of sets is given by the bytes of its body, without the byte 0B that ends it. `says` is an
ordinary module.
"""

import os

UNREACHABLE = b"\x00"
NOP = b"\x01"


def unsigned(n):
    """An unsigned number in its shortest spelling (LEB128)."""
    out = bytearray()
    while n >= 128:
        out.append(n % 128 + 128)
        n //= 128
    out.append(n)
    return bytes(out)


def signed(n):
    """A signed number in its shortest spelling (LEB128)."""
    out = bytearray()
    while not -64 <= n < 64:
        out.append(n % 128 + 128)
        n >>= 7
    out.append(n % 128)
    return bytes(out)


def name(text):
    data = text.encode("utf-8")
    return unsigned(len(data)) + data


def call(function):
    return b"\x10" + unsigned(function)


def body(code):
    """A body: its size, no locals, its instructions, and the byte that ends it."""
    inside = unsigned(0) + code + b"\x0b"
    return unsigned(len(inside)) + inside


def section(number, contents):
    return bytes([number]) + unsigned(len(contents)) + contents


def items(listed):
    """A count and then the things that are counted."""
    listed = list(listed)
    return unsigned(len(listed)) + b"".join(listed)


def record(memory=(0, 0, 0, 0), needed=(), exports=(), imports=(), paths=()):
    """The section dylink.0: memory information, needed names, exports with flags, imports (module, field) with flags, paths."""
    listed = [section(1, b"".join(map(unsigned, memory)))]
    if needed:
        listed.append(section(2, items(map(name, needed))))
    if exports:
        listed.append(section(3, items(name(text) + unsigned(flags) for text, flags in exports)))
    if imports:
        listed.append(section(4, items(name(module) + name(field) + unsigned(flags) for module, field, flags in imports)))
    if paths:
        listed.append(section(5, items(map(name, paths))))
    return section(0, name("dylink.0") + b"".join(listed))


def parts(bodies, exports, dylink=record()):
    """The parts of a module: `bodies` are the code of its functions, `exports` pairs of a name and a function number."""
    count = len(bodies)
    entries = b"".join(name(text) + b"\x00" + unsigned(function) for text, function in exports)
    return [
        b"\x00asm\x01\x00\x00\x00",
        dylink,
        section(1, b"\x01\x60\x00\x00"),
        section(3, unsigned(count) + bytes(count)),
        section(7, unsigned(len(exports)) + entries),
        section(10, unsigned(count) + b"".join(body(code) for code in bodies)),
    ]


def code_in_words(code):
    """A body in words. It calls functions below 128 alone, whose numbers take one byte."""
    words = []
    at = 0
    while at < len(code):
        if code[at] == 0x10:
            words.append(f"call {code[at + 1]}")
            at += 2
        else:
            words.append("unreachable" if code[at] == 0x00 else "nop")
            at += 1
    return ", ".join(words) if words else "empty"


def words_of(bodies, exports):
    """What each of the parts is."""
    return [
        "header: the magic bytes and version 1",
        "custom section dylink.0: memory information of four zeros",
        "type section: type 0 is [] -> []",
        f"function section: {len(bodies)} of type 0",
        "export section: " + ", ".join(f"{text} is function {function}" for text, function in exports),
        "code section: " + "; ".join(f"function {n}: {code_in_words(code)}" for n, code in enumerate(bodies)),
    ]


def says(text):
    """The parts of a module that puts a text of fewer than 48 bytes to the output by one call of WASI, each with its words."""
    data = text.encode("utf-8")
    # The vector at 0 is the address and the length of the text, which stands at 8.
    memory = (8).to_bytes(4, "little") + len(data).to_bytes(4, "little") + data
    zero = b"\x41\x00"
    written = unsigned(8 + len(data) + 3 & ~3)
    write = b"\x41\x01" + zero + b"\x41\x01" + b"\x41" + written + b"\x10\x00" + b"\x1a"
    return [
        ("header: the magic bytes and version 1", b"\x00asm\x01\x00\x00\x00"),
        ("type section: type 0 is [i32 i32 i32 i32] -> [i32], type 1 is [] -> []", section(1, b"\x02\x60\x04\x7f\x7f\x7f\x7f\x01\x7f\x60\x00\x00")),
        ("import section: function 0 is fd_write of wasi_snapshot_preview1, of type 0", section(2, b"\x01" + name("wasi_snapshot_preview1") + name("fd_write") + b"\x00\x00")),
        ("function section: function 1 is of type 1", section(3, b"\x01\x01")),
        ("memory section: one page at least", section(5, b"\x01\x00\x01")),
        ("export section: _start is function 1", section(7, b"\x01" + name("_start") + b"\x00\x01")),
        ("code section: fd_write(1, 0, 1, the first word after the text), drop", section(10, b"\x01" + body(write))),
        ("data section: at 0 the vector, and the text", section(11, b"\x01\x00" + zero + b"\x0b" + unsigned(len(memory)) + memory)),
    ]


def module(bodies, exports, dylink=record()):
    """The bytes of a module of these parts."""
    return b"".join(parts(bodies, exports, dylink))


def listing(described):
    """Each part as a line of words, and below it its bytes, sixteen in a line."""
    lines = []
    for words, data in described:
        lines.append(words)
        for at in range(0, len(data), 16):
            lines.append("    " + " ".join(f"{b:02X}" for b in data[at:at + 16]))
    lines.append(f"{sum(len(data) for _, data in described)} bytes in all")
    return "\n".join(lines) + "\n"


EXAMPLES = {
    "smallest": ([b""], [("_start", 0)]),
    "calls": ([call(1) + call(2) + NOP, call(2) + call(2), NOP + NOP, call(1)], [("_start", 0), ("again", 3)]),
    "trap": ([NOP + call(1), UNREACHABLE], [("_start", 0)]),
    "recursion": ([call(0)], [("_start", 0)]),
}


def write(folder, described, file="main.wasm"):
    """Writes a module, and beside it its listing."""
    here = os.path.join(os.path.dirname(os.path.abspath(__file__)), folder)
    os.makedirs(here, exist_ok=True)
    with open(os.path.join(here, file), "wb") as out:
        out.write(b"".join(data for _, data in described))
    with open(os.path.join(here, os.path.splitext(file)[0] + ".txt"), "w", encoding="utf-8") as out:
        out.write(listing(described))


def main():
    for folder, (bodies, exports) in EXAMPLES.items():
        write(folder, list(zip(words_of(bodies, exports), parts(bodies, exports))))
    write("says", says("Hello from one module.\n"))


if __name__ == "__main__":
    main()
