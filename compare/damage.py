"""Damage to sets of modules, by a source of random numbers.

A file is changed as bytes, or as sections: numbers become extreme, names other ones, long ones or no names, sections come from another
file, twice, in another order or not at all, records and bodies get further parts, and lists are repeated. In most cases sizes are put
right behind the change, so that it is met by what reads the inner parts. Many changes leave the file well spelled, and some leave it valid.
"""

import re

from modules import changed
from make_examples import items, name, section, signed, unsigned

HEADER = b"\x00asm\x01\x00\x00\x00"
CUSTOM, TYPE, IMPORT, FUNCTION, TABLE, MEMORY, GLOBAL, EXPORT, ELEMENT, CODE, DATA = 0, 1, 2, 3, 4, 5, 6, 7, 9, 10, 11
EXTREMES = (
    0, 1, 2, 3, 16, 31, 32, 63, 64, 127, 128, 255, 256, 999, 1000, 1001, 16_384, 50_000, 50_001, 65_535, 65_536, 65_537, 131_072, 983_040,
    983_041, 1_048_576, 1_048_577, 16_777_216, 67_108_864, 1 << 28, (1 << 31) - 1, 1 << 31, (1 << 31) + 1, (1 << 32) - 65_536, (1 << 32) - 2, (1 << 32) - 1,
)
LENGTHS = (0, 0, 1, 1, 127, 128, 127, 128, 1000, 65_536)
# how long a file may become by what is repeated
MOST = (1 << 12, 1 << 12, 1 << 16, 1 << 20)
ALIGNMENTS, REGIONS, ENTRIES = (0, 2, 4, 16, 24, 31), (0, 8, 4096, 65_536, 1 << 24), (0, 1, 1000, 65_536)
KNOWN = (b"", b"/", b".", b"..", b"none.so", b"main.wasm", b"./main.wasm", b"$ORIGIN", b"$ORIGIN/", b"_start", b"main", b"dlopen", b"dlsym", b"__heap_base", b"__heap_end",
         b"__wasm_call_ctors", b"__wasm_apply_data_relocs", b"__stack_pointer", b"memory", b"fd_write", b"proc_exit", b"random_get")

# What may stand in front of any code, and leaves the stack as it was, by what the module has to have. It is given three numbers.
number = lambda n: b"\x41" + signed(n)
ANYWHERE = (
    lambda x, y, z: b"\x10" + unsigned(x % 12),
    lambda x, y, z: b"\x03\x40\x0c\x00\x0b",
    lambda x, y, z: b"\x03\x40\x10" + unsigned(x % 12) + b"\x0c\x00\x0b",
    lambda x, y, z: b"\x00",
    lambda x, y, z: b"\x0f",
    lambda x, y, z: number(x) + number(y) + b"\x6d\x1a",
)
OF_MEMORY = (
    lambda x, y, z: number(x) + b"\x40\x00\x1a",
    lambda x, y, z: b"\x03\x40" + number(x) + b"\x40\x00\x1a\x0c\x00\x0b",
    lambda x, y, z: number(x) + number(y) + number(z) + b"\xfc\x0b\x00",
    lambda x, y, z: number(x) + number(y) + number(z) + b"\xfc\x0a\x00\x00",
    lambda x, y, z: number(x) + b"\x28\x02" + unsigned(y % (1 << 32)) + b"\x1a",
    lambda x, y, z: number(x) + b"\x42" + signed(z) + b"\x37\x03" + unsigned(y % (1 << 32)),
    lambda x, y, z: b"\x3f\x00" + number(16) + b"\x74" + number(y % 9) + b"\x6b\x42" + signed(z) + b"\x37\x03\x00",
)
OF_TABLE = (
    lambda x, y, z: b"\xd0\x70" + number(x) + b"\xfc\x0f\x00\x1a",
    lambda x, y, z: number(x) + b"\xd0\x70" + number(z) + b"\xfc\x11\x00",
    lambda x, y, z: number(x) + number(y) + number(z) + b"\xfc\x0e\x00\x00",
    lambda x, y, z: number(x) + b"\x25\x00\x1a",
    lambda x, y, z: number(x) + number(y) + b"\x25\x00\x26\x00",
    lambda x, y, z: number(x) + b"\x11\x00\x00",
)


def number_at(data, at):
    """The unsigned number at a place, and the place behind it; nothing where there is none."""
    value = 0
    for k in range(5):
        if at + k >= len(data):
            return None
        value |= (data[at + k] & 0x7F) << 7 * k
        if data[at + k] < 128:
            return value, at + k + 1
    return None


def sections_of(data):
    """The sections of a file, each as a number and its contents, and what follows them."""
    found, at = [], len(HEADER)
    while at < len(data):
        size = number_at(data, at + 1)
        if size is None or sum(size) > len(data):
            break
        found.append((data[at], data[size[1]:sum(size)]))
        at = sum(size)
    return found, data[at:]


def joined(found, rest=b""):
    return HEADER + b"".join(section(*one) for one in found) + rest


def sized(data):
    return unsigned(len(data)) + data


def bodies_of(contents):
    """The bodies of a code section, as far as they can be told."""
    count, at = number_at(contents, 0) or (0, 0)
    found = []
    for _ in range(count):
        size = number_at(contents, at)
        if size is None or sum(size) > len(contents):
            break
        found.append(contents[size[1]:sum(size)])
        at = sum(size)
    return found


def code_at(body):
    """Where the code of a body begins, behind its locals."""
    count, at = number_at(body, 0) or (0, 0)
    for _ in range(min(count, 100)):
        group = number_at(body, at)
        if group is None:
            break
        at = group[1] + 1
    return at


class Damage:
    """What is done to the files of a set. `good` gives the bytes of any other good file."""

    def __init__(self, rng, files, good):
        self.rng, self.good = rng, good
        self.paths = [path.encode() for path in files]
        self.symbols = sorted({text for data in files.values() for text in re.findall(rb"[\w.]{1,40}", data[:5000])})
        self.ways = (
            (2, self.changed), (2, self.cut), (1, self.spliced), (3, self.ordered), (3, self.any_number), (10, self.constant), (10, self.name),
            (5, self.limits), (6, self.list), (30, self.code), (14, self.record), (4, self.many_functions),
        )

    def any(self, listed):
        return self.rng.choice(listed)

    def extreme(self):
        rng = self.rng
        return max(0, min(self.any(EXTREMES) + self.any((0, 0, 0, -1, 1)), (1 << 32) - 1)) if rng.random() < 0.9 else rng.getrandbits(32)

    def signed_extreme(self):
        number = self.extreme()
        return number - (1 << 32) if number >= 1 << 31 else number

    def spelled(self, number):
        """A number in its shortest spelling, as a rule; else in one that is longer, or too long."""
        short, choice = unsigned(number), self.rng.random()
        if choice < 0.95 or len(short) >= 5:
            return short if choice < 0.99 else bytes([b | 0x80 for b in short]) + b"\x80\x00"
        return bytes([b | 0x80 for b in short]) + b"\x80" * (4 - len(short)) + b"\x00"

    def text(self, known):
        choice = self.rng.random()
        if choice < 0.6 and known:
            return self.any(known)
        return self.any((b"n", b"\xff", b"\xc3", b"a/", b"\x00", "é".encode())) * self.any(LENGTHS) if choice < 0.75 else self.any(KNOWN)

    # ---- a file as bytes

    def changed(self, data):
        return changed(data, self.rng) if len(data) > 9 else data

    def cut(self, data):
        at = self.rng.randrange(len(data) + 1)
        return data[:at] + (b"" if self.rng.random() < 0.5 else data[at + self.any((1, 2, 5, 20)):])

    def spliced(self, data):
        """The front of a file and the end of another."""
        other = self.good()
        return data[:self.rng.randrange(len(data) + 1)] + other[self.rng.randrange(len(other) + 1):]

    # ---- a file as sections

    def inside(self, data, numbers, change):
        """The contents of one section, of one of these numbers, are changed. Its size is put right, as a rule."""
        found, rest = sections_of(data)
        places = [n for n, (number, contents) in enumerate(found) if number in numbers and contents]
        if not places:
            return data
        n = self.any(places)
        new = change(found[n][1])
        size = unsigned(len(new)) if self.rng.random() < 0.98 else self.spelled(self.extreme())
        return joined(found[:n]) + bytes([found[n][0]]) + size + new + joined(found[n + 1:], rest)[len(HEADER):]

    def ordered(self, data):
        """Sections come twice, in another order, or not at all, or one of another file is put in, or some in the place of their like."""
        rng = self.rng
        found, rest = sections_of(data)
        others, _ = sections_of(self.good())
        if not found or not others:
            return data
        n, choice = rng.randrange(len(found)), rng.random()
        if choice < 0.1:
            found.insert(rng.randrange(len(found) + 1), found[n])
        elif choice < 0.2:
            m = rng.randrange(len(found))
            found[n], found[m] = found[m], found[n]
        elif choice < 0.3:
            del found[n]
        elif choice < 0.4:
            found.insert(rng.randrange(len(found) + 1), self.any(others))
        else:
            taken = dict(others)
            numbers = [number for number, _ in found if number in taken and rng.random() < 0.3]
            found = [(number, taken[number] if number in numbers else contents) for number, contents in found]
        return joined(found, rest)

    def any_number(self, data):
        """A number somewhere becomes extreme; often one that counts."""
        def change(contents):
            at = 0 if self.rng.random() < 0.2 else self.rng.randrange(len(contents) + 1)
            found = number_at(contents, at)
            return contents[:at] + self.spelled(self.extreme()) + contents[found[1] if found else at:]
        return self.inside(data, range(13), change)

    def constant(self, data):
        """A constant becomes extreme: an offset, a value of a global, an operand."""
        def change(contents):
            places = [at for at in range(len(contents)) if contents[at] == 0x41 and number_at(contents, at + 1)]
            if not places:
                return contents
            at = self.any(places)
            return contents[:at + 1] + signed(self.signed_extreme()) + contents[number_at(contents, at + 1)[1]:]
        if self.rng.random() < 0.7:
            return self.inside(data, (GLOBAL, ELEMENT, DATA), change)
        return self.inside(data, (CODE,), lambda contents: self.in_body(contents, change))

    def name(self, data):
        """A name becomes another one."""
        def change(contents):
            places = [at for at in range(len(contents)) if 0 < contents[at] < 128 and re.fullmatch(rb"[\w.$/]+", contents[at + 1:at + 1 + contents[at]])]
            if not places:
                return contents
            at = self.any(places)
            return contents[:at] + sized(self.text(self.symbols + self.paths)) + contents[at + 1 + contents[at]:]
        return self.inside(data, (CUSTOM, IMPORT, EXPORT), change)

    def limits(self, data):
        """Those of a memory or a table become extreme."""
        spelled = lambda: self.any((b"\x00" + unsigned(self.extreme()), b"\x01" + unsigned(self.extreme()) + unsigned(self.extreme()), b"\x01\x01" + unsigned(self.extreme())))
        def imported(contents):
            found = self.any([*re.finditer(rb"(memory\x02|table\x01\x70)", contents)] or [None])
            if not found:
                return contents
            _, at = number_at(contents, found.end() + 1) or (0, found.end() + 2)
            return contents[:found.end()] + spelled() + contents[at if contents[found.end()] == 0 else (number_at(contents, at) or (0, at))[1]:]
        own = lambda contents: items([b"\x70" + spelled()] * self.any((1, 1, 2, 20)))
        return self.any((
            lambda: self.inside(data, (IMPORT,), imported),
            lambda: self.inside(data, (IMPORT,), imported),
            lambda: self.inside(data, (TABLE,), own),
            lambda: self.inside(data, (MEMORY,), lambda contents: items([spelled()])),
        ))()

    def list(self, data):
        """The items of a list come so many times."""
        def change(contents):
            count, at = number_at(contents, 0) or (0, 0)
            times = min(self.any((2, 3, 10, 100, 1000, 5000)), 1 + self.any(MOST) // (len(contents) + 1))
            return unsigned(count * times) + contents[at:] * times
        return self.inside(data, (TYPE, IMPORT, TABLE, GLOBAL, EXPORT, ELEMENT, DATA), change)

    def many_functions(self, data):
        """The functions and their bodies come so many times."""
        times, (found, rest) = self.any((2, 10, 100, 1000)), sections_of(data)
        if sum(len(contents) for number, contents in found if number in (FUNCTION, CODE)) * times > self.any(MOST):
            return data
        def again(contents):
            count, at = number_at(contents, 0) or (0, 0)
            return unsigned(count * times) + contents[at:] * times
        return joined([(number, again(contents) if number in (FUNCTION, CODE) else contents) for number, contents in found], rest)

    def in_body(self, contents, change):
        """One body of a code section is changed."""
        bodies = bodies_of(contents)
        if not bodies:
            return contents
        n = self.rng.randrange(len(bodies))
        bodies[n] = change(bodies[n])
        return items(map(sized, bodies))

    def code(self, data):
        """A body gets further code in front, as a rule; else it is nested deeply, or has other locals, or bytes of it are changed."""
        found, _ = sections_of(data)
        taken = dict(found)
        snippets = ANYWHERE
        snippets += OF_MEMORY if MEMORY in taken or b"memory\x02" in taken.get(IMPORT, b"") or self.rng.random() < 0.05 else ()
        snippets += OF_TABLE if TABLE in taken or b"table\x01" in taken.get(IMPORT, b"") or self.rng.random() < 0.05 else ()
        return self.inside(data, (CODE,), lambda contents: self.in_body(contents, lambda body: self.body(body, snippets)))

    def body(self, body, snippets):
        at, choice = code_at(body), self.rng.random()
        if choice < 0.1 and len(body) > 9:
            return changed(body, self.rng)
        if choice < 0.15:
            depth = self.any((10, 990, 999, 1000, 1001, 20_000))
            return body[:at] + self.any((b"\x02\x40", b"\x03\x40", b"\x41\x01\x04\x40")) * depth + b"\x0b" * depth + body[at:]
        if choice < 0.2:
            groups = [self.spelled(self.extreme()) + self.any((b"\x7f", b"\x7e", b"\x70", b"\x7d", b"\x6f")) for _ in range(self.any((1, 1, 2, 30)))]
            return items(groups) + body[at:]
        if choice < 0.25:
            # more locals of a type that is there
            return unsigned((number_at(body, 0) or (0, 0))[0] + 1) + body[1:at] + unsigned(self.any((1, 1000, 42_000, 49_000))) + b"\x7f" + body[at:]
        added = b"".join(self.any(snippets)(*(self.signed_extreme() for _ in range(3))) for _ in range(self.any((1, 1, 1, 2, 3, 20))))
        return body[:at] + added + body[at:]

    def record(self, data):
        """The first section becomes another record, or the record gets further parts."""
        parts = b"".join(section(*self.part()) for _ in range(self.any((1, 1, 1, 2, 3))))
        found, rest = sections_of(data)
        if not found or found[0][0] != CUSTOM:
            return joined([(CUSTOM, name("dylink.0") + parts), *found], rest)
        whole = found[0][1] + parts if self.rng.random() < 0.8 else name("dylink.0") + parts
        return joined([(CUSTOM, whole), *found[1:]], rest)

    def part(self):
        """A part of a record: memory information, needed names, exports or imports with flags, paths, or another one."""
        many = range(self.any((0, 1, 1, 2, 3, 10, 300)))
        flags = lambda: self.spelled(self.any((0, 1, 1, 2, 3, 16, 255, 257, self.extreme())))
        return self.any((
            lambda: (1, b"".join(self.spelled(self.extreme()) for _ in range(self.any((4, 4, 4, 3, 5))))),
            lambda: (1, b"".join(unsigned(self.any(listed)) for listed in (REGIONS, ALIGNMENTS, ENTRIES, (0, 1, 10)))),
            lambda: (1, b"".join(unsigned(self.any(listed)) for listed in (REGIONS, ALIGNMENTS, ENTRIES, (0, 1, 10)))),
            lambda: (2, items(sized(self.text(self.paths)) for _ in many)),
            lambda: (2, items(sized(self.any(self.paths)) for _ in many)),
            lambda: (3, items(sized(self.text(self.symbols)) + flags() for _ in many)),
            lambda: (4, items(sized(self.any((b"env", b"GOT.mem", b"GOT.func"))) + sized(self.text(self.symbols)) + flags() for _ in many)),
            lambda: (5, items(sized(self.text([])) for _ in many)),
            lambda: (self.rng.randrange(6, 256), bytes(self.rng.getrandbits(8) for _ in many)),
        ))()

    def file(self, data):
        """A file with one to three changes."""
        weights, ways = zip(*self.ways)
        for way in self.rng.choices(ways, weights, k=self.any((1, 1, 1, 1, 2, 2, 3))):
            data = way(data)
        return data

    # ---- a set

    def option(self, names):
        listed = ",".join(self.any(names + ["none.so"] * (self.rng.random() < 0.1)) for _ in range(self.any((1, 2, 5))))
        return self.any((
            ["--pages", str(self.any((1, 2, 3, 1023, 16_383, 16_384)))],
            ["--stack", str(self.any((16, 17, 65_535, 16_777_215, 16_777_216)))],
            ["--no-duplicates"],
            ["--dl", listed],
            ["--path", self.any((".", "none", "/", "a:b:.", "." * 300))],
        ))

    def set(self, files, options):
        """The files and the options of the set with one to three of its files damaged."""
        rng, files, options = self.rng, dict(files), list(options)
        names = list(files)
        for path in rng.sample(names, min(len(names), self.any((1, 1, 1, 1, 2, 3)))):
            files[path] = self.file(files[path])
        choice = rng.random()
        if choice < 0.02:
            first, second = self.any(names), self.any(names)
            files[first], files[second] = files[second], files[first]
        elif choice < 0.04:
            files[self.any(names)] = self.good()
        elif choice < 0.05 and len(names) > 1:
            del files[self.any(names)]
        if rng.random() < 0.2:
            word, *rest = self.option(names)
            if word not in options:
                options += [word, *rest]
        return files, options
