#!/usr/bin/env python3
"""Writes the example `diamond`, a set of four modules, and beside each module a listing of its bytes by parts.

    python3 examples/make_set.py

The main module needs liba.so and libb.so, and both need libsay.so.
"""

from make_examples import call, items, name, record, section, signed, unsigned, write

HEADER = ("header: the magic bytes and version 1", b"\x00asm\x01\x00\x00\x00")
I32 = b"\x7f"
CALL_INDIRECT, DROP, END, GLOBAL_GET, LOCAL_GET = b"\x11", b"\x1a", b"\x0b", b"\x23", b"\x20"
LOAD, STORE, ADD = b"\x28\x02", b"\x36\x02", b"\x6a"


def i32(n):
    return b"\x41" + signed(n)


def get(n):
    """The value of a global."""
    return GLOBAL_GET + unsigned(n)


def types(*listed):
    return section(1, items(b"\x60" + items([I32] * params) + items([I32] * results) for params, results in listed))


def function_import(module, field, ty):
    return name(module) + name(field) + b"\x00" + unsigned(ty)


def global_import(module, field, mutable):
    return name(module) + name(field) + b"\x03" + I32 + bytes([mutable])


MEMORY = name("env") + name("memory") + b"\x02\x00\x01"
TABLE = name("env") + name("__indirect_function_table") + b"\x01\x70\x00\x00"
MEMORY_BASE = global_import("env", "__memory_base", 0)
TABLE_BASE = global_import("env", "__table_base", 0)


def imports(*listed):
    return section(2, items(listed))


def functions(*listed):
    return section(3, items(map(unsigned, listed)))


def exports(*listed):
    return section(7, items(name(text) + kind + unsigned(index) for text, kind, index in listed))


def code(*bodies):
    return section(10, items(unsigned(len(inside) + 2) + b"\x00" + inside + END for inside in bodies))


def data(contents):
    """One segment at the memory base, which is global 0."""
    return section(11, items([b"\x00" + get(0) + END + unsigned(len(contents)) + contents]))


def libsay():
    count = 12
    say = get(0) + LOCAL_GET + b"\x00" + STORE + b"\x00" + get(0) + LOCAL_GET + b"\x01" + STORE + b"\x04"
    say += get(0) + get(0) + LOAD + unsigned(count) + i32(1) + ADD + STORE + unsigned(count)
    say += i32(1) + get(0) + i32(1) + get(0) + i32(8) + ADD + call(0) + DROP
    constructor = get(0) + i32(0x0A30) + STORE + unsigned(count)
    return [
        HEADER,
        ("custom section dylink.0: 16 bytes of memory at a multiple of 4", record((16, 2, 0, 0))),
        ("type section: type 0 is [i32 i32 i32 i32] -> [i32], type 1 is [i32 i32] -> [], type 2 is [] -> []", types((4, 1), (2, 0), (0, 0))),
        ("import section: fd_write of WASI as function 0; memory; the memory base as global 0", imports(function_import("wasi_snapshot_preview1", "fd_write", 0), MEMORY, MEMORY_BASE)),
        ("function section: functions 1 and 2, of types 1 and 2", functions(1, 2)),
        (f"global section: global 1 is {count}, where the count stands from the base on", section(6, items([I32 + b"\x00" + i32(count) + END]))),
        ("export section: say, count, __wasm_call_ctors", exports(("say", b"\x00", 1), ("count", b"\x03", 1), ("__wasm_call_ctors", b"\x00", 2))),
        ("code section: say puts so many bytes at an address to the output, and raises the count; the constructor makes it the characters 0 and line feed", code(say, constructor)),
    ]


def greeting(field, text, in_table):
    """A library whose one function says a text. The function stands in the library's part of the table, or has no place there."""
    size = 1 if in_table else 0
    element = section(9, items([b"\x00" + get(1) + END + items([unsigned(1)])]))
    listed = [function_import("env", "say", 0), MEMORY, MEMORY_BASE] + ([TABLE, TABLE_BASE] if in_table else [])
    words = "; the table; the table base as global 1" if in_table else ""
    return [
        HEADER,
        (f"custom section dylink.0: {len(text)} bytes of memory and {size} entries of the table; needs libsay.so", record((len(text), 0, size, 0), ["libsay.so"])),
        ("type section: type 0 is [i32 i32] -> [], type 1 is [] -> []", types((2, 0), (0, 0))),
        (f"import section: say as function 0; memory; the memory base as global 0{words}", imports(*listed)),
        ("function section: function 1 is of type 1", functions(1)),
        (f"export section: {field} is function 1", exports((field, b"\x00", 1))),
        *([("element section: function 1 at the table base", element)] if in_table else []),
        (f"code section: {field} says the {len(text)} bytes at the memory base", code(get(0) + i32(len(text)) + call(0))),
        ("data section: the text, at the memory base", data(text)),
    ]


def main_module():
    listed = [function_import("env", "hello", 1), function_import("env", "say", 0), MEMORY, TABLE]
    listed += [global_import("GOT.func", "hallo", 1), global_import("GOT.mem", "count", 1)]
    start = call(0) + get(0) + CALL_INDIRECT + b"\x01\x00" + get(1) + i32(2) + call(1)
    return [
        HEADER,
        ("custom section dylink.0: no memory and no entries; needs liba.so and libb.so", record(needed=["liba.so", "libb.so"])),
        ("type section: type 0 is [i32 i32] -> [], type 1 is [] -> []", types((2, 0), (0, 0))),
        ("import section: hello as function 0, say as function 1; memory; the table; the slot of hallo as global 0, the address of count as global 1", imports(*listed)),
        ("function section: function 2 is of type 1", functions(1)),
        ("export section: _start is function 2", exports(("_start", b"\x00", 2))),
        ("code section: _start calls hello, calls what stands in the slot of hallo, and says the two bytes of the count", code(start)),
    ]


def main():
    write("diamond", main_module())
    write("diamond", greeting("hello", b"Hello\n", False), "liba.so")
    write("diamond", greeting("hallo", b"Hallo\n", True), "libb.so")
    write("diamond", libsay(), "libsay.so")


if __name__ == "__main__":
    main()
