"""Random sets of modules of integer code, from a seed: a main module and one to four libraries.

A set has needed lists with cycles and diamonds, names that several members define, regions of memory and table with alignments,
cells of data and functions, weak imports that nothing defines, active and passive segments, start functions, relocations and
constructors. Bodies are those of modules.py; they also call other members, by name and by slot. Members put numbers to the output,
and main at last a checksum of the memory, the pages, the entries of the table and which of them are null. Each member has fuel of
its own, which calls and turns of loops use up: so every run ends. A few sets have a fault of linking.
"""

import random

import modules
from make_examples import name, record, section, unsigned
from modules import (
    BR_IF, CALL, CALL_INDIRECT, DROP, EMPTY, END, FUNCREF, GLOBAL_GET, GLOBAL_SET, I32, I32_ADD, I32_AND, I32_LT_U, I32_STORE,
    I32_SUB, I64, I64_ADD, I64_EXTEND_U, I64_MUL, IF, LOCAL_GET, LOCAL_SET, LOCAL_TEE, LOOP, MEMORY_SIZE, NUMBERS, PROC_EXIT, PUT,
    REF_FUNC, REF_IS_NULL, REF_NULL, SELECT, TABLE_GET, TABLE_GROW, TABLE_SET, TABLE_SIZE, VECTOR_SET, checksum, i32, i64, vector,
)

FUEL = 2_000
WASI = "wasi_snapshot_preview1"
HOSTS = [("fd_write", ([I32] * 4, [I32])), ("proc_exit", ([I32], [])), ("sched_yield", ([], [I32]))]
NOTHING = ([], [])
PUT_TYPE = ([I64], [])
I32_SHL = b"\x74"
# the pages that the checksum reads at most
CHECKED_PAGES = 3


def type_section(types):
    values = lambda listed: vector(bytes([ty]) for ty in listed)
    return section(1, vector(b"\x60" + values(params) + values(results) for params, results in types))


class Body(modules.Body):
    """The code of one function of a member. It traps more rarely than that of a module alone, since a set runs more of it."""

    wild = 0.002

    def statement(self, depth):
        if depth > 0 and self.left > 1 and self.rng.random() < 0.2:
            self.left -= 1
            pick = self.rng.choice((self.put, self.by_cell, self.by_cell, self.pointer, self.weak_call, self.slot_change, self.yielded))
            return pick(depth - 1)
        return super().statement(depth)

    def put(self, depth):
        return self.value(I64, depth) + CALL + unsigned(self.module.put)

    def yielded(self, depth):
        return CALL + unsigned(2) + DROP if self.module.yields else self.put(depth)

    def by_cell(self, depth):
        """A call of the function whose slot is in a cell, unless the cell is 0."""
        if not self.module.function_cells:
            return self.put(depth)
        cell, ty = self.rng.choice(self.module.function_cells)
        params, results = self.module.types[ty]
        indirect = GLOBAL_GET + unsigned(cell) + CALL_INDIRECT + unsigned(ty) + b"\x00"
        called = lambda: b"".join(self.value(t, depth - 1) for t in params) + indirect
        return GLOBAL_GET + unsigned(cell) + self.open(IF, [], [], lambda: called() + DROP * len(results))

    def pointer(self, depth):
        """Statements below a lower stack pointer."""
        if self.module.stack_pointer is None:
            return self.put(depth)
        pointer = unsigned(self.module.stack_pointer)
        moved = lambda op: GLOBAL_GET + pointer + i32(16) + op + GLOBAL_SET + pointer
        return moved(I32_SUB) + self.statements(depth) + moved(I32_ADD)

    def weak_call(self, depth):
        """A call of a function that nothing defines, which is a trap."""
        if not self.module.weak or self.rng.random() < 0.95:
            return self.put(depth)
        f = self.rng.randrange(len(self.module.weak))
        return self.guarded(self.leaf(I32), CALL + unsigned(len(HOSTS) + f))

    def slot_change(self, depth):
        """A change of the shared table, or a call of what stands at a small index."""
        choice = self.rng.random()
        slot = i32(self.rng.randint(0, 12))
        if choice < 0.5:
            return slot + self.value(FUNCREF, depth) + TABLE_SET + b"\x00"
        if choice < 0.8:
            return slot + TABLE_GET + b"\x00" + REF_IS_NULL + DROP
        if choice < 0.9:
            return self.value(FUNCREF, depth) + i32(1) + TABLE_GROW + b"\x00" + DROP
        ty = self.module.types.index(NOTHING)
        return self.guarded(self.leaf(I32), slot + CALL_INDIRECT + unsigned(ty) + b"\x00")

    def called(self, ty, depth):
        # fewer calls than in a module alone, since those of several members multiply
        return self.leaf(ty) if self.rng.random() < 0.6 else super().called(ty, depth)

    def loop(self, depth):
        return self.plain_block(depth) if self.rng.random() < 0.8 else super().loop(depth)

    def call_dropped(self, depth):
        return self.put(depth) if self.rng.random() < 0.5 else super().call_dropped(depth)

    def address(self, depth):
        places = self.module.places
        if not places or self.rng.random() < 0.6:
            return super().address(depth)
        offset = self.value(I32, depth) + i32(self.rng.choice((0x0F, 0x3F))) + I32_AND
        return GLOBAL_GET + unsigned(self.rng.choice(places)) + offset + I32_ADD

    def call(self, f, depth):
        """By number, or by the member's own part of the table."""
        places = [at for at, item in enumerate(self.module.region) if item == f]
        code = b"".join(self.value(ty, depth - 1) for ty in self.module.types[self.module.functions[f]][0])
        if self.module.table_base is None or not places or self.rng.random() < 0.5:
            return code + CALL + unsigned(self.module.imported + f)
        slot = GLOBAL_GET + unsigned(self.module.table_base) + i32(places[0]) + I32_ADD
        return code + slot + CALL_INDIRECT + unsigned(self.module.functions[f]) + b"\x00"


class Member(modules.Module):
    """A member with code: `whole` gives its file.

    `wanted` and `given` are pairs of a name and a type, `wanted_data` and `given_data` names. Other kinds of members may have more
    types, imported functions (pairs of a name and a type), cells, items of the part of the table (by their numbers from the last
    imported function on, -1) and globals that bodies don't set; bytes at the begin of the memory region; other code that puts local 0;
    code with which the entry begins; and no calls of `sched_yield`.
    """

    # the code of functions, and of those that the loader calls
    body = role_body = Body
    # how many memories and tables have a small maximum
    bounded = 0.1
    more_types = more_functions = more_cells = more_items = more_globals = ()
    texts = begins = b""
    put_code = PUT
    yields = True

    def __init__(self, rng, types, wanted, wanted_data, given, given_data, undefined, is_main):
        self.rng = rng
        self.is_main = is_main
        self.types = [ty for _, ty in HOSTS] + [NOTHING, PUT_TYPE, *types, *self.more_types]
        rng.shuffle(self.types)
        self.weak = [(text, ty) for text, ty in undefined if rng.random() < 0.7]
        self.wanted = wanted
        self.given = given
        self.inner = [rng.choice(types) for _ in range(rng.randint(0 if wanted or given else 1, 2))]
        self.functions = [self.types.index(ty) for _, ty in wanted + given] + [self.types.index(ty) for ty in self.inner]
        self.imported = len(HOSTS) + len(self.weak) + len(self.more_functions)
        self.own = self.imported + len(wanted)
        self.put = self.imported + len(self.functions)
        self.size = rng.choice((0, 4, 16, 40, 64, 200, 70_000)) if rng.random() < 0.9 else 0
        self.size = max(self.size, len(self.texts))
        self.alignment = rng.choice((0, 2, 2, 3, 4, 4, 9, 16))
        self.region = [rng.randrange(len(self.functions)) for _ in range(rng.randint(0, 4))] + list(self.more_items)
        self.table_alignment = rng.choice((0, 0, 1, 3))
        self.cells = [("GOT.mem", text) for text in wanted_data] + [("GOT.func", text) for text, _ in wanted + given if rng.random() < 0.5]
        self.cells += [(rng.choice(("GOT.mem", "GOT.func")), text) for text, _ in undefined if rng.random() < 0.5]
        self.cells += [("GOT.mem", text) for text in ("__heap_base", "__heap_end") if rng.random() < 0.2] + list(self.more_cells)
        self.link(dict(wanted + given))
        self.data_names = given_data
        self.datas = rng.randint(0, 3) + (self.texts != b"")
        self.passive = [n for n in range(self.texts != b"", self.datas) if rng.random() < 0.3]
        self.usable = self.passive if rng.random() < 0.9 else range(self.datas)
        self.elems = 3
        self.parts = self.file(self.bodies(), given)

    # ---- imports and globals

    def link(self, types_of):
        """The imports in random order, functions among themselves in theirs; the numbers of what they bring."""
        rng = self.rng
        function = lambda module, text, ty: name(module) + name(text) + b"\x00" + unsigned(self.types.index(ty))
        functions = [function(WASI, text, ty) for text, ty in HOSTS]
        functions += [function("env", text, ty) for text, ty in [*self.weak, *self.more_functions, *self.wanted]]
        bases = [("env", "__memory_base"), ("env", "__table_base"), ("env", "__stack_pointer")]
        kept = [base for base in bases if base[1] != "__stack_pointer" or rng.random() < 0.8]
        brought = kept + self.cells
        rng.shuffle(brought)
        number = {key: n for n, key in enumerate(brought)}
        changeable = lambda key: key not in bases[:2]
        others = [name(module) + name(text) + b"\x03\x7f" + bytes([changeable((module, text))]) for module, text in brought]
        entries = unsigned(rng.choice((0, 20, 20, 20)) if self.is_main else rng.choice((0, 1, 5)))
        entries = b"\x00" + entries if rng.random() < 1 - self.bounded else b"\x01" + entries + unsigned(rng.choice((22, 500)))
        pages = rng.choice((b"\x00\x00", b"\x00\x01", b"\x00\x02", b"\x01\x01\x80\x20")) if rng.random() < 1 - self.bounded else b"\x01\x00\x03"
        others.insert(rng.randint(0, len(others)), name("env") + name("memory") + b"\x02" + pages)
        others.insert(rng.randint(0, len(others)), name("env") + name("__indirect_function_table") + b"\x01\x70" + entries)
        self.imports = self.merged(functions, others)
        self.memory_base, self.table_base = number[bases[0]], number[bases[1]]
        self.stack_pointer = number.get(bases[2])
        self.number_of_cell = number
        typed = [(n, text) for (module, text), n in number.items() if module == "GOT.func" and text in types_of]
        self.function_cells = [(n, self.types.index(types_of[text])) for n, text in typed]
        self.data_cells = [n for key, n in number.items() if key[0] == "GOT.mem"]
        self.places = [self.memory_base] + [n for key, n in number.items() if key[0] == "GOT.mem" and key[1] != "__heap_end"]
        self.fuel = len(brought)
        own = [I32, I32] + [rng.choice((I32, I64, FUNCREF)) for _ in range(rng.randint(0, 3))]
        self.globals = [I32] * len(brought) + own
        self.kept = [len(self.globals) + n for n in range(len(self.more_globals))]
        self.mutable = [self.fuel + 1] + [n for n in range(self.fuel + 2, len(self.globals)) if rng.random() < 0.7]
        self.mutable += [n for n in self.data_cells + [cell for cell, _ in self.function_cells] if rng.random() < 0.03]
        self.globals += self.more_globals

    def merged(self, first, second):
        first, second, both = list(first), list(second), []
        while first or second:
            both.append((first if first and (not second or self.rng.random() < 0.5) else second).pop(0))
        return both

    # ---- functions

    def bodies(self):
        """The bodies of its own functions, and the further functions with their numbers: `put` and what the loader calls."""
        rng = self.rng
        nothing = self.types.index(NOTHING)
        code = [self.body(self, ty).code() for ty in self.functions[len(self.wanted):]]
        put = vector([]) + self.put_code + END
        code.append(unsigned(len(put)) + put)
        self.further = [self.types.index(PUT_TYPE)]
        self.roles = {}
        for role, chance in (("__wasm_apply_data_relocs", 0.6), ("__wasm_call_ctors", 0.6), ("start", 0.3)):
            if rng.random() < chance:
                self.roles[role] = self.put + len(self.further)
                self.further.append(nothing)
                code.append(self.relocations() if role == "__wasm_apply_data_relocs" else self.role_body(self, nothing).code())
        imported = [self.imported + n for n, (_, ty) in enumerate(self.wanted) if ty == NOTHING]
        if "start" in self.roles and imported and rng.random() < 0.3:
            self.roles["start"] = rng.choice(imported)
        if self.is_main:
            # where the entry is `main`, the constructors of the main module are called before it
            self.roles[rng.choice(("_start", "_start", "_start", "main"))] = self.put + len(self.further)
            self.further.append(nothing)
            code.append(self.entry())
        return code

    def relocations(self):
        """Cells are written into the member's memory, and perhaps more is done."""
        cells = self.data_cells + [cell for cell, _ in self.function_cells]
        base = GLOBAL_GET + unsigned(self.memory_base)
        stored = lambda n, cell: base + GLOBAL_GET + unsigned(cell) + I32_STORE + b"\x02" + unsigned(4 * n)
        inside = vector([]) + b"".join(stored(n, cell) for n, cell in enumerate(cells)) + self.further_code(0.3) + END
        return unsigned(len(inside)) + inside

    def further_code(self, chance):
        """Statements that need no locals, if there are any."""
        return b""

    def further_exports(self):
        return []

    def entry(self):
        """Its locals: a number of 64 bits, which is put, an address or an index, and a bound."""
        rng = self.rng
        put = LOCAL_GET + unsigned(0) + CALL + unsigned(self.put)
        code = self.begins + VECTOR_SET
        for _ in range(rng.randint(2, 6)):
            code += self.further_code(0.7) + self.called_and_put(put)
        for size in (MEMORY_SIZE, TABLE_SIZE):
            code += size + b"\x00" + I64_EXTEND_U + CALL + unsigned(self.put)
        pages = MEMORY_SIZE + b"\x00" + i32(CHECKED_PAGES)
        code += pages + pages + I32_LT_U + SELECT + i32(16) + I32_SHL + LOCAL_SET + unsigned(2)
        code += checksum(LOCAL_GET + unsigned(2)) + put
        code += i64(0) + LOCAL_SET + unsigned(0) + i32(0) + LOCAL_SET + unsigned(1) + LOOP + EMPTY
        is_null = LOCAL_GET + unsigned(1) + TABLE_GET + b"\x00" + REF_IS_NULL + I64_EXTEND_U
        code += LOCAL_GET + unsigned(0) + i64(0x5DEECE66D) + I64_MUL + is_null + I64_ADD + LOCAL_SET + unsigned(0)
        code += LOCAL_GET + unsigned(1) + i32(1) + I32_ADD + LOCAL_TEE + unsigned(1)
        code += TABLE_SIZE + b"\x00" + I32_LT_U + BR_IF + unsigned(0) + END + put
        if rng.random() < 0.3:
            code += i32(rng.randint(0, 300)) + CALL + unsigned(PROC_EXIT)
        inside = vector([b"\x01\x7e", b"\x02\x7f"]) + code + END
        return unsigned(len(inside)) + inside

    # ---- the file

    def segments(self):
        """Element segments: the part of the table, what changes it again, passive ones, and one that declares all functions."""
        rng = self.rng
        at = GLOBAL_GET + unsigned(self.table_base) + END
        number = lambda f: unsigned(self.imported + f)
        named = lambda: number(rng.randrange(len(self.functions)))
        expression = lambda: rng.choice((REF_FUNC + named(), REF_NULL + b"\x70")) + END
        active = b"\x00" + at + vector(map(number, self.region))
        again = b"\x04" + at + vector(expression() for _ in range(rng.randint(0, 1 if self.region and rng.random() < 0.2 else 0)))
        fixed = b"\x00" + i32(rng.randint(1, 4)) + END + vector([named()])
        passive = b"\x01\x00" + vector(named() for _ in range(rng.randint(0, 3)))
        by_expression = b"\x05\x70" + vector(expression() for _ in range(rng.randint(0, 3)))
        listed = vector(REF_FUNC + named() + END for _ in range(rng.randint(0, 2)))
        own_table = b"\x06\x01" + i32(rng.randint(0, 4)) + END + b"\x70" + listed
        declared = b"\x03\x00" + vector(map(number, range(-len(self.more_functions), len(self.functions) + 1)))
        return [active, passive, by_expression, own_table, again, declared] + ([fixed] if rng.random() < 0.1 else [])

    def data(self):
        rng = self.rng
        base = GLOBAL_GET + unsigned(self.memory_base) + END
        datas = [b"\x00" + base + unsigned(len(self.texts)) + self.texts] if self.texts else []
        for n in range(len(datas), self.datas):
            most = 12 if n in self.passive else min(self.size, 12)
            contents = bytes(rng.getrandbits(8) for _ in range(rng.randint(0, most)))
            far = i32(rng.choice((rng.randint(0, 2000), rng.randint(66_000, 66_700), 131_070 if rng.random() < 0.1 else 0))) + END
            head = b"\x01" if n in self.passive else rng.choice((b"\x00" + base, b"\x00" + base, b"\x02\x00" + base, b"\x00" + far))
            datas.append(head + unsigned(len(contents)) + contents)
        return datas

    def file(self, bodies, given):
        rng = self.rng
        own_globals = self.globals[self.fuel:]
        globals_ = [b"\x7f\x01" + i32(FUEL) + END]
        globals_ += [bytes([ty, self.fuel + n in self.mutable + self.kept]) + self.constant(ty) for n, ty in enumerate(own_globals) if n > 0]
        globals_ += [b"\x7f\x00" + i32(rng.randint(0, max(self.size - 4, 0))) + END for _ in self.data_names]
        exports = [name(text) + b"\x00" + unsigned(self.own + n) for n, (text, _) in enumerate(given)]
        exports += [name(text) + b"\x03" + unsigned(len(self.globals) + n) for n, text in enumerate(self.data_names)]
        exports += [name(role) + b"\x00" + unsigned(f) for role, f in self.roles.items() if role != "start"]
        if self.wanted and rng.random() < 0.1:
            # an imported function that is exported again defines nothing
            exports.append(name("again") + b"\x00" + unsigned(self.imported))
        exports += self.further_exports()
        rng.shuffle(exports)
        return [
            type_section(self.types),
            section(2, vector(self.imports)),
            section(3, vector(unsigned(ty) for ty in self.functions[len(self.wanted):] + self.further)),
            section(4, vector([b"\x70\x01" + unsigned(16) + unsigned(20)])),
            section(6, vector(globals_)),
            section(7, vector(exports)),
            section(8, unsigned(self.roles["start"])) if "start" in self.roles else b"",
            section(9, vector(self.segments())),
            section(12, unsigned(self.datas)),
            section(10, vector(bodies)),
            section(11, vector(self.data())),
        ]

    def whole(self, needed, paths):
        """The file, with the record that says what it needs and where that is looked for."""
        # other flags than the two lowest say nothing
        weak = [("env", text) for text, _ in self.weak] + [cell for cell in self.cells if cell[1].startswith("w")]
        entries = [(module, text, self.rng.choice((1, 1, 17))) for module, text in weak]
        memory = (self.size, self.alignment, len(self.region), self.table_alignment)
        flags = [(text, self.rng.randint(0, 3)) for text, _ in self.given if self.rng.random() < 0.3]
        return b"\x00asm\x01\x00\x00\x00" + record(memory, needed, flags, entries, paths) + b"".join(self.parts)


class Plain:
    """A library that imports nothing: functions that give numbers or a parameter, and data."""

    def __init__(self, rng, given, given_data):
        self.rng, self.given, self.given_data = rng, given, given_data

    def body(self, params, results):
        code = b""
        for ty in results:
            known = [LOCAL_GET + unsigned(n) for n, t in enumerate(params) if t == ty]
            code += self.rng.choice(known + [i32(self.rng.randint(-99, 99)) if ty == I32 else i64(self.rng.getrandbits(40))])
        inside = vector([]) + code + END
        return unsigned(len(inside)) + inside

    def whole(self, needed, paths):
        size = self.rng.choice((0, 8, 24))
        types = [ty for _, ty in self.given]
        exports = [name(text) + b"\x00" + unsigned(n) for n, (text, _) in enumerate(self.given)]
        exports += [name(text) + b"\x03" + unsigned(n) for n, text in enumerate(self.given_data)]
        return b"\x00asm\x01\x00\x00\x00" + record((size, self.rng.randint(0, 4), 0, 0), needed, (), (), paths) + b"".join([
            type_section(types),
            section(3, vector(unsigned(n) for n in range(len(types)))),
            section(6, vector(b"\x7f\x00" + i32(self.rng.randint(0, size)) + END for _ in self.given_data)),
            section(7, vector(exports)),
            section(10, vector(self.body(params, results) for params, results in types)),
        ])


class Set:
    """A random set: `files` by their paths, the path `main`, and the options as words."""

    # what the option `--pages` may say
    pages = (1, 2, 2, 3, 5)

    def __init__(self, seed):
        self.rng = rng = random.Random(seed)
        self.main = rng.choice(("main.wasm", "app/main.wasm"))
        self.folder = self.main.rpartition("/")[0]
        self.name_members()
        self.needed = self.needs(len(self.names))
        self.options = self.chosen_options()
        self.give()
        self.files = self.written()

    def name_members(self):
        """The names of the members. Those behind the ones that start with the main module are named by an option."""
        self.names = [None] + [f"lib{n}.so" for n in range(1, self.rng.randint(2, 5))]
        is_late = len(self.names) > 2 and self.rng.random() < 0.15
        self.started = len(self.names) - is_late

    def needs(self, count):
        """Each library is needed by one before it; further needs make cycles and diamonds."""
        rng = self.rng
        needed = [[] for _ in range(count)]
        for n in range(1, self.started):
            needed[rng.randrange(n)].append(n)
        for _ in range(rng.randint(0, 4)):
            needed[rng.randrange(self.started)].append(rng.randrange(self.started))
        for n in range(self.started, count):
            needed[n] = [rng.randrange(count) for _ in range(rng.randint(0, 2))]
        for listed in needed:
            rng.shuffle(listed)
        return needed

    def chosen_options(self):
        rng = self.rng
        self.path = rng.choice((None, None, "more", "other:more"))
        later = self.named_later()
        options = ["--dl", ",".join(later)] if later else []
        if self.path:
            options += ["--path", self.path]
        if rng.random() < 0.2:
            options += ["--pages", str(rng.choice(self.pages))]
        if rng.random() < 0.2:
            options += ["--stack", str(rng.choice((16, 1000, 100_000)))]
        if rng.random() < 0.1:
            options += ["--no-duplicates"]
        return options

    def named_later(self):
        """The names of the option `--dl`."""
        return self.names[self.started:]

    def give(self):
        """Which member defines which names, and wants which."""
        rng = self.rng
        count = len(self.names)
        numbers = lambda count: [rng.choice(NUMBERS) for _ in range(count)]
        self.types = [NOTHING] + [(numbers(rng.randint(0, 3)), numbers(rng.choice((0, 1, 1, 1, 2)))) for _ in range(rng.randint(2, 4))]
        self.given = [[] for _ in range(count)]
        self.given_data = [[] for _ in range(count)]
        self.symbols = [(self.spelled(f"f{n}"), rng.choice(self.types)) for n in range(rng.randint(1, 8))]
        self.data = [self.spelled(f"d{n}") for n in range(rng.randint(0, 4))]
        times = lambda: rng.choice((1, 1, 1, 2)) if "--no-duplicates" not in self.options or rng.random() < 0.1 else 1
        for text, ty in self.symbols:
            for m in set(rng.randrange(self.started) for _ in range(times())):
                # rarely with another type
                self.given[m].append((text, ty if rng.random() < 0.99 else rng.choice(self.types)))
        for text in self.data:
            for m in set(rng.randrange(self.started) for _ in range(times())):
                self.given_data[m].append(text)
        self.undefined = [(f"w{n}", NOTHING) for n in range(rng.choice((0, 0, 1, 2)))]

    def spelled(self, text):
        """The name in place of one such as f0."""
        return text

    def seen(self, m):
        """The symbols and data that member m may want, and the functions that nothing defines for it."""
        return self.symbols, self.data, self.undefined

    def wanted(self, m, symbols, data):
        rng = self.rng
        # rarely one of its own
        listed = [symbol for symbol in symbols if rng.random() < (0.1 if symbol in self.given[m] else 0.6)]
        # what nothing defines, or data where a function is wanted
        again = [rng.choice(listed)] if listed and rng.random() < 0.05 else []
        fault = [(rng.choice(["none"] + data), NOTHING)] if rng.random() < 0.02 else []
        return listed + again + fault, [text for text in data if rng.random() < 0.5]

    def member(self, m):
        if m and self.rng.random() < 0.15:
            return Plain(self.rng, self.given[m], self.given_data[m])
        symbols, data, undefined = self.seen(m)
        wanted, wanted_data = self.wanted(m, symbols, data)
        types = list(unique(self.types))
        return self.with_code(self.rng, types, wanted, wanted_data, self.given[m], self.given_data[m], undefined, m == 0)

    def with_code(self, *parts):
        return Member(*parts)

    def written(self):
        """The files. A library stands beside the main module, in a folder that an option names, or where a member's record says."""
        rng = self.rng
        inside = lambda *parts: "/".join(part for part in (self.folder, *parts) if part)
        hidden = rng.choice(("", "", "lib")) if self.started == len(self.names) else ""
        files = {}
        for m, text in enumerate(self.names):
            needed = [self.main.rpartition("/")[2] if n == 0 else self.names[n] for n in self.needed[m]]
            # the record of each member says the same folder, from the member's own
            up = "$ORIGIN/" + (hidden if m == 0 else ".") if hidden else None
            paths = ["$ORIGIN/nowhere"] * (rng.random() < 0.3) + ([up] if up else [])
            whole = self.member(m).whole(needed, paths)
            if m == 0:
                files[self.main] = whole
            elif "/" in text:
                files[text] = whole
            elif hidden:
                files[inside(hidden, text)] = whole
            else:
                files["more/" + text if self.path and rng.random() < 0.5 else inside(text)] = whole
        if rng.random() < 0.01:
            del files[rng.choice(list(files))]
        return files


def unique(types):
    kept = []
    for ty in types:
        if ty not in kept and ty not in (NOTHING, PUT_TYPE) and ty not in [host for _, host in HOSTS]:
            kept.append(ty)
    return kept or [([I32, I32], [I32])]
