#!/usr/bin/env python3
"""Holds `exec` and the checker against the specification's own tests, in the form in which SpiderMonkey keeps them.

    spec.py WDYL FOLDER..

Each FOLDER has files `.wast.js`, which are read with those below it. They are the specification's tests, each module in the bytes
that the reference interpreter writes for it. Debian's source package `mozjs78` carries them:

    apt-get source --download-only mozjs78
    tar xJf mozjs78_*.orig.tar.xz --wildcards '*/jit-test/tests/wasm/spec/*'
    spec.py WDYL firefox-*/js/src/jit-test/tests/wasm/spec/reference-types firefox-*/js/src/jit-test/tests/wasm/spec/spec

For a module's assertions a function `_start` is written into it, which makes the calls in order and is unreachable where a result
isn't the one that is told. A call that traps is the last of a `_start` of its own, behind all calls before it that return. Left out,
and counted by reason, is what is told of a module with imports, or of one that `exec` refuses as not supported (floating point above
all); what speaks of values that are neither integers nor null references; and what is told of text. These tests are of 2020: where
the standard says otherwise today (`SINCE`), what it says today is what is held against. Ends with status 1 where something differs.
"""

import collections
import os
import re
import subprocess
import sys
import tempfile
from concurrent.futures import ThreadPoolExecutor

sys.path.insert(0, os.path.join(os.path.dirname(os.path.abspath(__file__)), "..", "examples"))

from make_examples import items as vector, name, section, signed, unsigned

I32, I64, FUNCREF = 0x7F, 0x7E, 0x70
CONST, NOT_EQUAL = {I32: b"\x41", I64: b"\x42"}, {I32: b"\x47", I64: b"\x52"}
# what stands on top of the stack decides: not 0 is unreachable
UNREACHABLE_IF = b"\x04\x40\x00\x0b"

CALL = re.compile(r'call\((\$\w+), "((?:[^"\\]|\\.)*)", \[(.*?)\]\)')
VALUE = re.compile(r'int64\("(-?[\d_]+)"\)|(-?\d[\d_]*)(?![.\w])|(null)')

# what 2.0 says otherwise: where it stands, and why
SINCE = {
    "reference-types/ref_func.wast:6": "ref.is_null had a type behind it",
    "reference-types/table_grow.wast:81": "ref.is_null had a type behind it",
    "reference-types/table_grow.wast:103": "ref.is_null had a type behind it",
    "spec/binary.wast:49": "what follows the type of call_indirect is a table's number, and no reserved byte",
    "bulk-memory-operations/binary.wast:294": "what follows the type of call_indirect is a table's number, and no reserved byte",
}


class LeftOut(Exception):
    """An assertion that is about something else than integers and null references."""


def text_bytes(text):
    """The bytes of a JavaScript string of `\\xHH` and plain characters."""
    return re.sub(rb"\\x([0-9a-f]{2})|\\(.)", lambda m: bytes([int(m[1], 16)]) if m[1] else m[2], text.encode("latin-1"), flags=re.S)


def values(text):
    """The values of a list, as integers and None for null."""
    found, rest = [], VALUE.sub("", text)
    if rest.strip(" ,"):
        raise LeftOut
    for wide, narrow, null in VALUE.findall(text):
        found.append(None if null else int(wide or narrow))
    return found


class Reader:
    """Contents, read from left to right."""

    def __init__(self, data):
        self.data, self.at = data, 0

    def take(self, count):
        self.at += count
        return self.data[self.at - count:self.at]

    def number(self):
        value = shift = 0
        while True:
            byte = self.take(1)[0]
            value |= (byte & 127) << shift
            shift += 7
            if byte < 128:
                return value

    def listed(self):
        """A count, and so many bytes."""
        return self.take(self.number())


class Module:
    """A module's bytes in sections, and what its exported functions are."""

    def __init__(self, data):
        reader = Reader(data[8:])
        self.sections = {}
        while reader.at < len(reader.data):
            number = reader.take(1)[0]
            self.sections.setdefault(number, reader.listed())
        self.sections.pop(0, None)
        self.imports = Reader(self.sections.get(2, b"\x00")).number()
        self.types = self.each(1, lambda reader: (reader.take(1), reader.listed(), reader.listed())[1:])
        self.functions = self.each(3, Reader.number)
        exports = self.each(7, lambda reader: (reader.listed(), reader.take(1), reader.number()))
        self.exports = {field: index for field, kind, index in exports if kind == b"\x00"}

    def each(self, number, read):
        """The entries of a section."""
        reader = Reader(self.sections.get(number, b"\x00"))
        return [read(reader) for _ in range(reader.number())]

    def calling(self, field, args, results):
        """The code of a call, and of comparing what it gives. Where nothing is told of its results they are dropped."""
        index = self.exports[field]
        params, given = self.types[self.functions[index]]
        code = b"".join(map(constant, params, args)) + b"\x10" + unsigned(index)
        if results is None:
            return code + b"\x1a" * len(given)
        if len(given) != len(results):
            raise LeftOut
        return code + b"".join(map(differs, reversed(given), reversed(results)))

    def with_start(self, body):
        """The module with a function of this body, exported as `_start`."""
        index = len(self.functions)
        added = {
            1: b"\x60\x00\x00", 3: unsigned(len(self.types)), 7: name("_start") + b"\x00" + unsigned(index),
            10: unsigned(len(body) + 2) + b"\x00" + body + b"\x0b",
        }
        out = b"\x00asm\x01\x00\x00\x00"
        for number in (1, 2, 3, 4, 5, 6, 7, 8, 9, 12, 10, 11):
            contents = self.sections.get(number)
            if number in added:
                reader = Reader(contents or b"\x00")
                contents = unsigned(reader.number() + 1) + reader.data[reader.at:] + added[number]
            if contents is not None:
                out += section(number, contents)
        return out


def constant(kind, value):
    if kind in CONST and value is not None:
        bits = 32 if kind == I32 else 64
        value %= 1 << bits
        return CONST[kind] + signed(value - (1 << bits) if value >> (bits - 1) else value)
    if value is None and kind == FUNCREF:
        return b"\xd0\x70"
    raise LeftOut


def differs(kind, value):
    """Code that is unreachable where the value on the stack isn't this one."""
    if value is None and kind == FUNCREF:
        return b"\xd1\x45" + UNREACHABLE_IF
    return constant(kind, value) + NOT_EQUAL[kind] + UNREACHABLE_IF


class Tests:
    def __init__(self, program, folder):
        self.program, self.folder = program, folder
        self.counts, self.faults, self.since, self.files = collections.Counter(), [], set(), 0

    def exec(self, data):
        """The status of `exec`, and the line that it prints."""
        self.files += 1
        path = os.path.join(self.folder, f"{self.files}.wasm")
        with open(path, "wb") as file:
            file.write(data)
        done = subprocess.run([self.program, "exec", path], capture_output=True, timeout=120)
        os.remove(path)
        return done.returncode, done.stderr.decode()

    def tell(self, kind, where, good, said=""):
        self.counts[kind] += 1
        if where in SINCE:
            self.since.add(where)
        elif not good:
            self.faults.append(f"{where}: {kind}: {said.strip()}")

    def leave_out(self, why, count=1):
        self.counts[f"left out ({why})"] += count

    def refused(self, kind, where, data, words):
        status, line = self.exec(data)
        if "unsupported" in line:
            self.leave_out("not supported")
        else:
            self.tell(kind, where, status == 65 and any(word in line for word in words), line or f"status {status}")

    def module(self, where, data):
        """The module, or why assertions on it aren't tried."""
        _, line = self.exec(data)
        self.tell("module", where, not any(word in line for word in (" malformed ", " invalid ", " counts ", " too ")), line)
        if "unsupported" in line:
            return "not supported"
        module = Module(data)
        return "imports" if module.imports else module

    def calls(self, module, told):
        """Tries what is told of a module, in order: calls that return, and calls that end the run."""
        code = []
        for kind, where, text, results in told:
            found = CALL.match(text)
            try:
                if not found:
                    raise LeftOut
                called = module.calling(text_bytes(found[2]), values(found[3]), values(results) if results is not None else None)
            except LeftOut:
                self.leave_out("values")
                if kind in ("assert_return", "run") and found:
                    code.append((where, self.silently(module, found)))
                continue
            if kind in ("assert_return", "run"):
                code.append((where, called))
                self.counts[kind] += kind == "assert_return"
            else:
                ends = (134,) if kind == "assert_trap" else (125,)
                status, line = self.exec(module.with_start(b"".join(before for _, before in code) + called))
                self.tell(kind, where, status in ends, line or f"status {status}")
        if not self.return_all(module, code):
            low, high = 0, len(code)
            while high - low > 1:
                middle = (low + high) // 2
                low, high = (middle, high) if self.return_all(module, code[:middle]) else (low, middle)
            self.tell("first that differs", code[low][0], False)

    def return_all(self, module, code):
        return self.exec(module.with_start(b"".join(called for _, called in code)))[0] == 0

    def silently(self, module, found):
        """A call whose results can't be compared is made nevertheless, where its arguments can be given."""
        try:
            return module.calling(text_bytes(found[2]), values(found[3]), None)
        except LeftOut:
            return b""

    def file(self, path):
        modules, told, where = {}, collections.OrderedDict(), path
        for line in open(path, encoding="latin-1"):
            line = line.rstrip("\n")
            if line.startswith("// "):
                where = f"{os.path.basename(os.path.dirname(path))}/{line[3:]}"
            elif found := re.match(r'let (\$\w+) = instance\("(.*?)"\);', line):
                modules[found[1]] = self.module(where, text_bytes(found[2]))
                told[found[1]] = []
            elif found := re.match(r"let (\$\w+) = (\$\w+);", line):
                modules[found[1]], told[found[1]] = modules.get(found[2]), told.get(found[2], [])
            elif found := re.match(r'assert_(invalid|malformed)\("(.*?)"\);', line):
                data = text_bytes(found[2])
                if data.startswith(b"<malformed quote>"):
                    self.leave_out("text")
                elif found[1] == "invalid":
                    self.refused("assert_invalid", where, data, (" invalid ", " malformed ", " counts "))
                else:
                    self.refused("assert_malformed", where, data, (" malformed ", " counts ", " too many locals "))
            else:
                self.call_line(line, where, told)
        for called, lines in {id(lines): (called, lines) for called, lines in told.items()}.values():
            if isinstance(modules[called], Module):
                self.calls(modules[called], lines)
            else:
                self.leave_out(modules[called], len(lines))

    def call_line(self, line, where, told):
        """A line that makes a call: kept for its module."""
        if found := re.search(r"//  ?assert_return\(\(\) => (.*)\)$", line):
            line = f"assert_return(() => {found[1]});"
        if not (found := re.match(r"(assert_return|assert_trap|assert_exhaustion|run)\(\(\) => (call\((\$\w+), .*)\);", line)):
            self.leave_out("values", line.startswith("assert_"))
            return
        rest = CALL.match(found[2])
        results = None
        if found[1] == "assert_return":
            results = found[2][rest.end():].lstrip(", ") if rest else ""
        if found[3] in told:
            told[found[3]].append((found[1], where, found[2], results))


def main():
    program, folders = os.path.abspath(sys.argv[1]), sys.argv[2:]
    paths = [os.path.join(at, file) for folder in folders for at, _, files in sorted(os.walk(folder)) for file in sorted(files) if file.endswith(".wast.js")]
    with tempfile.TemporaryDirectory() as folder:
        def one(path):
            tests = Tests(program, tempfile.mkdtemp(dir=folder))
            tests.file(path)
            return tests
        with ThreadPoolExecutor(os.cpu_count()) as pool:
            done = list(pool.map(one, paths))
    counts = sum((tests.counts for tests in done), collections.Counter())
    faults = [fault for tests in done for fault in tests.faults]
    since = sorted(set.union(*(tests.since for tests in done)))
    print(f"{len(paths)} files: " + ", ".join(f"{count} {kind}" for kind, count in sorted(counts.items()) if count) + f"; {len(faults)} differ")
    for where in since:
        print(f"{where}: {SINCE[where]}")
    print("\n".join(faults))
    sys.exit(bool(faults))


if __name__ == "__main__":
    main()
