"""Random sets whose members open, search and close others while they run, from a seed.

Members are as in sets.py, and some start later: an option names them, or one that is opened needs them. Functions of every kind,
what the loader calls at the start among them, call `dlopen`, `dlsym`, `dlclose` and `dlerror`: by number, by the slots of their
cells, by the member's own part of the table, and from a table of its own. They ask for names that are there and for others, with
handles and flags of all kinds, with strings at the begin and at the end of the memory; they put the answers to the output, call the
functions that were found, load what stands at the addresses of data, and put the texts of errors.
"""

from modules import (
    CALL, CALL_INDIRECT, DROP, EMPTY, END, GLOBAL_GET, GLOBAL_SET, I32, I32_ADD, I32_AND, I32_STORE, I32_SUB, I64_EXTEND_U, I64_LOAD,
    I64_STORE, IF, MEMORY_COPY, MEMORY_FILL, MEMORY_SIZE, REF_FUNC, TABLE_GET, TABLE_SET, i32, i64, name, unsigned,
)
from sets import I32_SHL, NOTHING, Body, Member, Set

LOADER = {"dlopen": ([I32, I32], [I32]), "dlsym": ([I32, I32], [I32]), "dlclose": ([I32], [I32]), "dlerror": ([], [I32])}
# names that are found nowhere, or that define nothing
NO_MEMBERS = ["none.so", ""]
NO_SYMBOLS = ["none", "", "again", "main", "_start", "_initialize", "__dso_handle", "__wasm_call_ctors", "__heap_base", *LOADER]
DATA = "data"
GOOD_FLAGS = (0, 1, 2, 2, 3, 256, 257, 258, 258, 259, 4096, 4097, 4098, 4099, 4354)
BAD_FLAGS = (4, 8, 260, 512, 4100, 8192, 1 << 16, -1, -(2**31))
# the texts stand behind what relocations write
PAD = 64
MEMORY_END = MEMORY_SIZE + b"\x00" + i32(16) + I32_SHL


def changed(rng, text):
    """Bytes that are no name of anything, as a rule."""
    return rng.choice((text[:-1], text[1:], text + b"x", text + text, text.upper(), b"\xff" + text, text + b"\xc3"))


class Calls:
    """Statements that call functions of the loader in the code of a member. `number` gives code of any number."""

    def __init__(self, member, number):
        self.member, self.rng, self.number = member, member.rng, number
        self.handle, self.result = map(unsigned, member.kept)

    def statement(self):
        usual = (self.opened, self.opened, self.found, self.found, self.found, self.error, self.closed)
        rare = (self.main, self.main, self.at_zero, self.at_zero, self.at_end, self.anywhere)
        return self.rng.choice(usual if self.rng.random() < 0.9 else rare)()

    # ---- calls

    def called(self, text, arguments):
        """One of the ways to call a function. Where the member has none, the arguments are dropped, and 0 stands for the answer."""
        ways = self.direct(text, arguments) + self.by_cell(text, arguments) + self.by_region(text, arguments)
        return self.rng.choice(ways) if ways else arguments + DROP * len(LOADER[text][0]) + i32(0)

    def indirect(self, text, arguments, index, table):
        return arguments + index + CALL_INDIRECT + unsigned(self.member.types.index(LOADER[text])) + table

    def from_own_table(self, text, arguments, reference):
        index = i32(self.rng.randint(0, 15))
        return index + reference + TABLE_SET + b"\x01" + self.indirect(text, arguments, index, b"\x01")

    def direct(self, text, arguments):
        if text not in self.member.numbers:
            return []
        number = unsigned(self.member.numbers[text])
        return [arguments + CALL + number, self.from_own_table(text, arguments, REF_FUNC + number)]

    def by_cell(self, text, arguments):
        cell = self.member.number_of_cell.get(("GOT.func", text))
        if cell is None:
            return []
        slot = GLOBAL_GET + unsigned(cell)
        return [self.indirect(text, arguments, slot, b"\x00"), self.from_own_table(text, arguments, slot + TABLE_GET + b"\x00")]

    def by_region(self, text, arguments):
        member = self.member
        places = [at for at, item in enumerate(member.region) if item < 0 and member.imported + item == member.numbers.get(text)]
        return [self.indirect(text, arguments, GLOBAL_GET + unsigned(member.table_base) + i32(at) + I32_ADD, b"\x00") for at in places]

    # ---- arguments

    def at(self, place):
        """The address of a text of the member's own."""
        return GLOBAL_GET + unsigned(self.member.memory_base) + i32(place) + I32_ADD

    def flags(self):
        choice = self.rng.random()
        return i32(self.rng.choice(GOOD_FLAGS if choice < 0.9 else BAD_FLAGS)) if choice < 0.98 else self.number()

    def any_handle(self):
        choice = self.rng.random()
        if choice < 0.7:
            return GLOBAL_GET + self.handle
        return i32(self.rng.choice((0, 1, 2, 3, 4, 5, 6, 7, -1, -(2**31), 257))) if choice < 0.95 else self.number()

    # ---- statements

    def put(self, code):
        return code + I64_EXTEND_U + CALL + unsigned(self.member.put)

    def kept(self, code, where):
        """A number is kept in a global, and put."""
        return code + GLOBAL_SET + where + self.put(GLOBAL_GET + where)

    def opened(self):
        place, _ = self.rng.choice(self.member.names)
        return self.kept(self.called("dlopen", self.at(place) + self.flags()), self.handle)

    def found(self):
        place, _, use = self.rng.choice(self.member.symbols)
        code = self.kept(self.called("dlsym", self.any_handle() + self.at(place)), self.result)
        if use is None or self.rng.random() < 0.2:
            return code
        return code + GLOBAL_GET + self.result + IF + EMPTY + (self.data() if use == DATA else self.function(use)) + END

    def data(self):
        """What stands at the address that was found is put, and perhaps changed."""
        store = GLOBAL_GET + self.result + i64(self.rng.getrandbits(60)) + I64_STORE + b"\x00\x00"
        return self.loaded(0) + (store if self.rng.random() < 0.3 else b"")

    def loaded(self, offset):
        return GLOBAL_GET + self.result + I64_LOAD + b"\x00" + unsigned(offset) + CALL + unsigned(self.member.put)

    def function(self, ty):
        """The function that was found is called, and its results are put, the last one first."""
        params, results = ty
        code = b"".join(i32(self.rng.randint(-9, 99)) if t == I32 else i64(self.rng.getrandbits(40)) for t in params)
        code += GLOBAL_GET + self.result + CALL_INDIRECT + unsigned(self.member.types.index(ty)) + b"\x00"
        return code + b"".join((I64_EXTEND_U if t == I32 else b"") + CALL + unsigned(self.member.put) for t in reversed(results))

    def closed(self):
        return self.put(self.called("dlclose", self.any_handle()))

    def error(self):
        """The address of the text of the last error is put, and the text."""
        text = b"".join(map(self.loaded, (0, 8, 16)))
        return self.kept(self.called("dlerror", b""), self.result) + GLOBAL_GET + self.result + IF + EMPTY + text + END

    def main(self):
        """The program itself, which has no name."""
        flags = self.flags() if self.rng.random() < 0.5 else i32(self.rng.choice(BAD_FLAGS))
        return self.kept(self.called("dlopen", i32(0) + flags), self.handle)

    def asked(self, address):
        """One of the two functions that take a string is called with this one."""
        if self.rng.random() < 0.5:
            return self.kept(self.called("dlopen", address + self.flags()), self.handle)
        return self.put(self.called("dlsym", self.any_handle() + address))

    def at_zero(self):
        _, text, _ = self.rng.choice(self.member.symbols)
        written = i32(0) + i32(int.from_bytes(text[:3], "little")) + I32_STORE + b"\x00\x00"
        return written + self.put(self.called("dlsym", self.any_handle() + i32(0)))

    def at_end(self):
        """A string at the end of the memory, or past it: one of some bytes, or one of the member's own. The last byte is perhaps zero."""
        rng = self.rng
        place, text = rng.choice(self.member.names + [(place, text) for place, text, _ in self.member.symbols])
        has_end = rng.random() < 0.6
        own = len(text) + has_end
        length = rng.choice((own, own, own, 0, 1, 300))
        begin = MEMORY_END + i32(length) + I32_SUB
        if length == own:
            return begin + self.at(place) + i32(own) + MEMORY_COPY + b"\x00\x00" + self.asked(begin)
        if length == 0:
            return self.asked(rng.choice((begin, begin + i32(7) + I32_ADD, i32(-1), i32(-(2**31)))))
        filled = begin + i32(rng.choice((0x66, 0x6C, 0xFF))) + i32(length) + MEMORY_FILL + b"\x00"
        zero = MEMORY_END + i32(1) + I32_SUB + i32(0) + i32(1) + MEMORY_FILL + b"\x00" if has_end else b""
        return filled + zero + self.asked(begin)

    def anywhere(self):
        return self.asked(self.number() + (i32(0xFFFF) + I32_AND if self.rng.random() < 0.8 else b""))


class OpeningBody(Body):
    """The code of one function, which also calls the functions of the loader."""

    calling = 0.15

    def statement(self, depth):
        if depth > 0 and self.left > 1 and self.rng.random() < self.calling:
            self.left -= 1
            return Calls(self.module, lambda: self.value(I32, depth - 1)).statement()
        return super().statement(depth)


class OpeningRoleBody(OpeningBody):
    calling = 0.5


class OpeningMember(Member):
    """A member that opens others. `known` has what it may ask for: names of members, and symbols with what they are."""

    body = OpeningBody
    role_body = OpeningRoleBody
    bounded = 0.02

    def __init__(self, known, rng, *parts):
        names, symbols = known
        self.texts = bytes(PAD)
        self.names = [self.laid(rng, text) for text in rng.choices(names, k=rng.randint(2, 6))]
        self.symbols = [(*self.laid(rng, text), use) for text, use in rng.choices(symbols, k=rng.randint(3, 9))]
        self.texts += rng.choice((b"\x00", b"\x00", b""))
        self.more_types = list(LOADER.values())
        # rarely with a type or of a kind that doesn't fit
        self.more_functions = [(text, ty if rng.random() < 0.998 else NOTHING) for text, ty in LOADER.items() if rng.random() < 0.7]
        self.more_cells = [("GOT.func" if rng.random() < 0.995 else "GOT.mem", text) for text in LOADER if rng.random() < 0.4]
        self.more_items = [-1 - n for n in range(len(self.more_functions)) if rng.random() < 0.4]
        self.more_globals = [I32, I32]
        super().__init__(rng, *parts)

    def laid(self, rng, text):
        """The place of a text in the member's memory, and its bytes. The text is perhaps another one, or the rest of one."""
        spelled = text.encode()
        skipped = rng.randint(0, len(spelled)) if rng.random() < 0.05 else 0
        spelled = changed(rng, spelled) if rng.random() < 0.1 else spelled
        place = len(self.texts) + skipped
        self.texts += spelled + b"\x00"
        return place, spelled[skipped:]

    def link(self, types_of):
        super().link(types_of)
        first = self.imported - len(self.more_functions)
        # those of another type aren't called, so that the code is valid
        self.numbers = {text: first + n for n, (text, ty) in enumerate(self.more_functions) if ty == LOADER[text]}

    def further_code(self, chance):
        rng = self.rng
        calls = Calls(self, lambda: i32(rng.choice((0, 1, 2, 3, -1, rng.getrandbits(12), rng.getrandbits(31)))))
        code = b""
        while rng.random() < chance:
            code += calls.statement()
        return code

    def further_exports(self):
        """Names that define nothing, or what no import is bound to: functions of the member's own, or imported ones again."""
        rng = self.rng
        taken = [text for text, _ in self.given] + self.data_names + list(self.roles) + ["again"]
        free = [text for text in NO_SYMBOLS if text not in taken and rng.random() < 0.03]
        numbers = [*range(self.own, self.put), *self.numbers.values()]
        # what the loader calls has no parameters, and is a function of the member's own
        fits = lambda text, f: text != "__wasm_call_ctors" or f in self.numbers.values()
        chosen = [(text, rng.choice(numbers)) for text in free if numbers]
        return [name(text) + b"\x00" + unsigned(f) for text, f in chosen if fits(text, f)]


class OpeningSet(Set):
    """A random set whose members open others."""

    pages = (1, 2, 3, 5, 9)

    def name_members(self):
        rng = self.rng
        self.started = rng.randint(1, 3)
        self.names = [None] + [self.library(n) for n in range(1, self.started + rng.randint(1, 3))]

    def library(self, n):
        if self.rng.random() < 0.75:
            return f"lib{n}.so"
        return self.rng.choice((f"lib{n}", f"lib{n}.so.1", f"é{n}.so", f"a b{n}.so", f"deep/lib{n}.so", "n" * 100 + str(n)))

    def named_later(self):
        """Those that start later, in any order; one is perhaps left out. Others are perhaps named too, or one by another path."""
        rng = self.rng
        later = self.names[self.started:]
        listed = [text for text in rng.sample(later, len(later)) if rng.random() < 0.9]
        self.main_name = self.main.rpartition("/")[2]
        self.other_names = [self.main_name]
        if rng.random() < 0.1:
            listed.append(rng.choice(self.names[1:] + [self.main_name]))
        if rng.random() < 0.1 and not self.path:
            again = rng.choice(self.names[1:])
            self.other_names.append("./" + again if "/" in again or not self.folder else f"./{self.folder}/{again}")
            listed.append(self.other_names[-1])
        return listed

    def spelled(self, text):
        if self.rng.random() < 0.85:
            return text
        return self.rng.choice((text + "é", f"{text}\0{text}", text + " \\", text + "_" * 70, "" if text == "f0" else text))

    def give(self):
        super().give()
        rng = self.rng
        later = range(self.started, len(self.names))
        duplicates = 0 if "--no-duplicates" in self.options else 0.4
        for listed, given in ((self.symbols, self.given), (self.data, self.given_data)):
            for symbol in listed:
                if rng.random() < duplicates:
                    given[rng.choice(later)].append(symbol)
        for symbol in [(self.spelled(f"g{n}"), rng.choice(self.types)) for n in range(rng.randint(1, 5))]:
            self.symbols.append(symbol)
            self.given[rng.choice(later)].append(symbol)
        for text in [self.spelled(f"e{n}") for n in range(rng.randint(0, 3))]:
            self.data.append(text)
            self.given_data[rng.choice(later)].append(text)
        for symbol in self.undefined:
            if rng.random() < 0.4:
                self.given[rng.choice(later)].append(symbol)
        self.known = self.all_names(), self.all_symbols()

    def all_names(self):
        return [*self.names[1:] * 3, *self.names[self.started:] * 3, *self.other_names, *NO_MEMBERS]

    def all_symbols(self):
        functions = [symbol for given in self.given for symbol in given]
        data = [(text, DATA) for given in self.given_data for text in given]
        return functions * 4 + data * 4 + [(text, None) for text in NO_SYMBOLS]

    def seen(self, m):
        """What is defined where member m's imports are looked for: by those that start with the main module, and by those it reaches."""
        scope = [*range(self.started), *self.reached(m)]
        functions = [text for k in scope for text, _ in self.given[k]]
        data = [text for k in scope for text in self.given_data[k]]
        symbols = [symbol for symbol in self.symbols + self.undefined if symbol[0] in functions]
        return symbols, [text for text in self.data if text in data], [symbol for symbol in self.undefined if symbol[0] not in functions]

    def reached(self, m):
        listed = [m]
        for n in listed:
            listed += [k for k in self.needed[n] if k not in listed]
        return listed

    def with_code(self, *parts):
        return OpeningMember(self.known, *parts)
