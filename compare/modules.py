"""Random modules of integer code, from a seed.

A module imports `fd_write` and `proc_exit` of WASI. Its `_start` calls its functions with random arguments and writes each result,
and at last a checksum of its memory, to the standard output, eight bytes each. Calls and turns of loops use up fuel, and without
fuel the code is unreachable: so every run ends. Sizes are kept small where engines have limits of their own.
"""

import os
import random
import sys

sys.path.insert(0, os.path.join(os.path.dirname(os.path.abspath(__file__)), "..", "examples"))

from make_examples import items as vector, name, section, signed, unsigned

I32, I64, FUNCREF = 0x7F, 0x7E, 0x70
NUMBERS = (I32, I64)

# opcodes
UNREACHABLE, NOP, BLOCK, LOOP, IF, ELSE, END = (bytes([op]) for op in (0x00, 0x01, 0x02, 0x03, 0x04, 0x05, 0x0B))
BR, BR_IF, BR_TABLE, RETURN, CALL, CALL_INDIRECT = (bytes([op]) for op in (0x0C, 0x0D, 0x0E, 0x0F, 0x10, 0x11))
DROP, SELECT, SELECT_TYPED = b"\x1a", b"\x1b", b"\x1c"
LOCAL_GET, LOCAL_SET, LOCAL_TEE, GLOBAL_GET, GLOBAL_SET, TABLE_GET, TABLE_SET = (bytes([op]) for op in range(0x20, 0x27))
I64_LOAD, I32_STORE, I64_STORE, MEMORY_SIZE, MEMORY_GROW = b"\x29", b"\x36", b"\x37", b"\x3f", b"\x40"
I32_EQZ, I32_LT_U, I32_ADD, I32_SUB, I32_AND, I32_OR, I64_ADD, I64_MUL, I64_OR = b"\x45", b"\x49", b"\x6a", b"\x6b", b"\x71", b"\x72", b"\x7c", b"\x7e", b"\x84"
I32_WRAP, I64_EXTEND_U, REF_NULL, REF_IS_NULL, REF_FUNC = b"\xa7", b"\xad", b"\xd0", b"\xd1", b"\xd2"
MEMORY_INIT, DATA_DROP, MEMORY_COPY, MEMORY_FILL, TABLE_INIT, ELEM_DROP, TABLE_COPY, TABLE_GROW, TABLE_SIZE, TABLE_FILL = (bytes([0xFC, op]) for op in range(8, 18))
# the block type of no values
EMPTY = b"\x40"
# the opcodes of operators, by the type of their operands
TESTS = {I32: (0x45,), I64: (0x50,)}
COMPARES = {I32: range(0x46, 0x50), I64: range(0x51, 0x5B)}
UNARIES = {I32: (0x67, 0x68, 0x69, 0xC0, 0xC1), I64: (0x79, 0x7A, 0x7B, 0xC2, 0xC3, 0xC4)}
BINARIES = {I32: range(0x6A, 0x79), I64: range(0x7C, 0x8B)}
# loads and stores: opcode and the exponent of the natural alignment
LOADS = {I32: ((0x28, 2), (0x2C, 0), (0x2D, 0), (0x2E, 1), (0x2F, 1)), I64: ((0x29, 3), (0x30, 0), (0x31, 0), (0x32, 1), (0x33, 1), (0x34, 2), (0x35, 2))}
STORES = {I32: ((0x36, 2), (0x3A, 0), (0x3B, 1)), I64: ((0x37, 3), (0x3C, 0), (0x3D, 1), (0x3E, 2))}

FD_WRITE, PROC_EXIT = 0, 1
IMPORTED = 2
FUEL_GLOBAL = 0
FUEL = 8_000
# where `_start` keeps what it writes: a vector of one buffer, the number of bytes written, and the buffer
VECTOR, WRITTEN, BUFFER = 65_472, 65_484, 65_488


def i32(n):
    return b"\x41" + signed(n)


def i64(n):
    return b"\x42" + signed(n)


def spending(fuel):
    """Uses up fuel, which is in a global, and is unreachable where none is left."""
    return (
        GLOBAL_GET + unsigned(fuel) + I32_EQZ + IF + EMPTY + UNREACHABLE + END
        + GLOBAL_GET + unsigned(fuel) + i32(1) + I32_SUB + GLOBAL_SET + unsigned(fuel)
    )


# sets up the vector of one buffer, and puts local 0, a number of 64 bits, to the output
VECTOR_SET = i32(VECTOR) + i32(BUFFER) + I32_STORE + b"\x02\x00" + i32(VECTOR) + i32(8) + I32_STORE + b"\x02\x04"
PUT = (
    i32(BUFFER) + LOCAL_GET + unsigned(0) + I64_STORE + b"\x03\x00" + VECTOR_SET
    + i32(1) + i32(VECTOR) + i32(1) + i32(WRITTEN) + CALL + unsigned(FD_WRITE) + DROP
)


def checksum(bound):
    """Local 0 becomes a checksum of the memory below a bound, which some code gives; local 1 is an address."""
    mixed = LOCAL_GET + unsigned(0) + i64(0x5DEECE66D) + I64_MUL + LOCAL_GET + unsigned(1) + I64_LOAD + b"\x03\x00" + I64_ADD + LOCAL_SET + unsigned(0)
    further = LOCAL_GET + unsigned(1) + i32(8) + I32_ADD + LOCAL_TEE + unsigned(1) + bound + I32_LT_U + BR_IF + unsigned(0)
    return i64(0) + LOCAL_SET + unsigned(0) + i32(0) + LOCAL_SET + unsigned(1) + LOOP + EMPTY + mixed + further + END


class Body:
    """The code of one function: its locals, and the results of the blocks that are open, the innermost last."""

    # how many addresses are any number
    wild = 0.02

    def __init__(self, module, ty):
        self.module = module
        self.rng = module.rng
        self.params, self.results = module.types[ty]
        self.locals = list(self.params) + [self.rng.choice((I32, I32, I64, FUNCREF)) for _ in range(self.rng.randint(0, 5))]
        self.blocks = [list(self.results)]
        self.left = self.rng.choice((6, 20, 60))
        self.spend = spending(module.fuel)

    def code(self):
        code = self.spend
        for _ in range(self.rng.randint(1, 6)):
            code += self.statement(4)
        for ty in self.results:
            code += self.value(ty, 4)
        own = self.locals[len(self.params):]
        groups = vector(unsigned(1) + bytes([ty]) for ty in own)
        inside = groups + code + END
        return unsigned(len(inside)) + inside

    # ---- blocks

    def open(self, head, results, label, inside):
        """A block with what `inside` gives; a branch to it takes values of the types `label`."""
        self.blocks.append(label)
        code = inside()
        self.blocks.pop()
        return head + self.module.block_type(results) + code + END

    def a_block(self):
        """The number of a block, and what a branch to it takes."""
        k = self.rng.randrange(len(self.blocks))
        return k, self.blocks[len(self.blocks) - 1 - k]

    def dead(self, depth):
        """Code that is never reached: its operands need not be there."""
        choice = self.rng.randrange(4)
        if choice == 0:
            return b""
        if choice == 1:
            return self.statement(depth)
        if choice == 2:
            return I32_ADD + DROP
        return SELECT + DROP

    # ---- statements

    def statement(self, depth):
        self.left -= 1
        if depth <= 0 or self.left <= 0:
            return NOP
        pick = self.rng.choice((
            self.set_local, self.set_local, self.set_local, self.set_global, self.store, self.store, self.dropped, self.conditional, self.plain_block,
            self.loop, self.table_branch, self.call_dropped, self.bulk, self.bulk, self.table_change, self.leave, self.many_values,
        ))
        return pick(depth - 1)

    def statements(self, depth):
        return b"".join(self.statement(depth) for _ in range(self.rng.randint(0, 3)))

    def set_local(self, depth):
        if not self.locals:
            return NOP
        n = self.rng.randrange(len(self.locals))
        return self.value(self.locals[n], depth) + LOCAL_SET + unsigned(n)

    def set_global(self, depth):
        n = self.rng.choice(self.module.mutable)
        return self.value(self.module.globals[n], depth) + GLOBAL_SET + unsigned(n)

    def store(self, depth):
        ty = self.rng.choice(NUMBERS)
        op, natural = self.rng.choice(STORES[ty])
        return self.address(depth) + self.value(ty, depth) + bytes([op]) + self.access(natural)

    def dropped(self, depth):
        return self.value(self.rng.choice((I32, I64, FUNCREF)), depth) + DROP

    def conditional(self, depth):
        condition = self.value(I32, depth)
        if self.rng.random() < 0.5:
            return condition + self.open(IF, [], [], lambda: self.statements(depth))
        return condition + self.open(IF, [], [], lambda: self.statements(depth) + ELSE + self.statements(depth))

    def plain_block(self, depth):
        return self.open(BLOCK, [], [], lambda: self.statements(depth) + self.leave_by(depth) + self.statements(depth))

    def leave_by(self, depth):
        """Perhaps a branch on a condition."""
        k, types = self.a_block()
        if types:
            return b""
        return self.value(I32, depth) + BR_IF + unsigned(k)

    def loop(self, depth):
        return self.open(LOOP, [], [], lambda: self.spend + self.statements(depth) + self.value(I32, depth) + i32(self.rng.choice((1, 3, 7))) + I32_AND + BR_IF + unsigned(0))

    def guarded(self, condition, code):
        """Code that leaves, where the condition's lowest three bits are 0."""
        return condition + i32(7) + I32_AND + I32_EQZ + IF + EMPTY + code + END

    def table_branch(self, depth):
        condition = self.value(I32, depth)
        self.blocks.append([])
        targets = [k for k, types in enumerate(reversed(self.blocks)) if not types]
        chosen = [unsigned(self.rng.choice(targets)) for _ in range(self.rng.randint(1, 4))]
        code = self.value(I32, depth) + i32(3) + I32_AND + BR_TABLE + vector(chosen[:-1]) + chosen[-1] + self.dead(depth)
        self.blocks.pop()
        return self.guarded(condition, code)

    def call_dropped(self, depth):
        f = self.rng.randrange(len(self.module.functions))
        return self.call(f, depth) + DROP * len(self.module.types[self.module.functions[f]][1])

    def call(self, f, depth):
        params, _ = self.module.types[self.module.functions[f]]
        code = b"".join(self.value(ty, depth - 1) for ty in params)
        if self.rng.random() < 0.6:
            return code + CALL + unsigned(self.module.imported + f)
        index = i32(f) if self.rng.random() < 0.9 else self.value(I32, depth - 1) + i32(15) + I32_AND
        return code + index + CALL_INDIRECT + unsigned(self.module.functions[f]) + unsigned(0)

    def bulk(self, depth):
        short = lambda: self.value(I32, depth) + i32(63) + I32_AND
        choice = self.rng.randrange(5)
        if choice == 0:
            return self.address(depth) + self.address(depth) + short() + MEMORY_COPY + b"\x00\x00"
        if choice == 1:
            return self.address(depth) + self.value(I32, depth) + short() + MEMORY_FILL + b"\x00"
        if choice == 2 and self.module.usable:
            return self.address(depth) + i32(self.rng.randint(0, 3)) + i32(self.rng.randint(0, 6)) + MEMORY_INIT + unsigned(self.rng.choice(self.module.usable)) + b"\x00"
        if choice == 3 and self.module.datas and self.rng.random() < 0.3:
            return DATA_DROP + unsigned(self.rng.randrange(self.module.datas))
        return self.value(I32, depth) + i32(1) + I32_AND + MEMORY_GROW + b"\x00" + DROP

    def table_change(self, depth):
        small = lambda: self.value(I32, depth) + i32(15) + I32_AND
        few = lambda: self.value(I32, depth) + i32(3) + I32_AND
        t = unsigned(1)
        choice = self.rng.randrange(6)
        if choice == 0:
            return small() + self.value(FUNCREF, depth) + TABLE_SET + t
        if choice == 1:
            return small() + self.value(FUNCREF, depth) + few() + TABLE_FILL + t
        if choice == 2:
            return small() + small() + few() + TABLE_COPY + t + unsigned(self.rng.randrange(2))
        if choice == 3:
            e = self.rng.randrange(self.module.elems)
            return small() + i32(self.rng.randint(0, 1)) + i32(self.rng.randint(0, 2)) + TABLE_INIT + unsigned(e) + t
        if choice == 4 and self.rng.random() < 0.3:
            return ELEM_DROP + unsigned(self.rng.randrange(self.module.elems))
        return self.value(FUNCREF, depth) + few() + TABLE_GROW + t + DROP

    def leave(self, depth):
        """A return, a branch with values or a trap, behind a condition."""
        condition = self.value(I32, depth)
        self.blocks.append([])
        k, types = self.a_block()
        choice = self.rng.random()
        if choice < 0.03:
            code = UNREACHABLE
        elif choice < 0.3:
            code = b"".join(self.value(ty, depth - 1) for ty in self.results) + RETURN
        else:
            code = b"".join(self.value(ty, depth - 1) for ty in types) + BR + unsigned(k)
        code += self.dead(depth - 1)
        self.blocks.pop()
        return self.guarded(condition, code)

    def many_values(self, depth):
        """A block that takes and gives several values."""
        taken = [self.rng.choice(NUMBERS) for _ in range(self.rng.randint(0, 2))]
        given = [self.rng.choice(NUMBERS) for _ in range(self.rng.randint(0, 3))]
        before = b"".join(self.value(ty, depth - 1) for ty in taken)
        self.blocks.append(given)
        inside = DROP * len(taken) + self.statements(depth - 1) + b"".join(self.value(ty, depth - 1) for ty in given)
        if self.rng.random() < 0.5:
            inside += i32(self.rng.randint(0, 1)) + BR_IF + unsigned(0)
        self.blocks.pop()
        return before + BLOCK + self.module.type_number(taken, given) + inside + END + DROP * len(given)

    # ---- values

    def value(self, ty, depth):
        self.left -= 1
        if depth <= 0 or self.left <= 0:
            return self.leaf(ty)
        if ty == FUNCREF:
            return self.reference(depth - 1)
        pick = self.rng.choice((
            self.leaf, self.leaf, self.binary, self.binary, self.binary, self.unary, self.load, self.load, self.called, self.chosen,
            self.block_value, self.if_value, self.tee, self.converted, self.counted,
        ))
        return pick(ty) if pick == self.leaf else pick(ty, depth - 1)

    def leaf(self, ty):
        known = [LOCAL_GET + unsigned(n) for n, t in enumerate(self.locals) if t == ty]
        known += [GLOBAL_GET + unsigned(n) for n, t in enumerate(self.module.globals) if t == ty and n != self.module.fuel]
        if known and self.rng.random() < 0.6:
            return self.rng.choice(known)
        if ty == FUNCREF:
            return REF_NULL + b"\x70" if self.rng.random() < 0.3 else REF_FUNC + unsigned(self.module.imported + self.rng.randrange(len(self.module.functions)))
        bits = 32 if ty == I32 else 64
        n = self.rng.choice((0, 1, -1, 2**(bits - 1) - 1, -2**(bits - 1), self.rng.randint(-130, 130), self.rng.getrandbits(bits) - 2**(bits - 1)))
        return i32(n) if ty == I32 else i64(n)

    def reference(self, depth):
        choice = self.rng.randrange(4)
        if choice == 0:
            return self.value(I32, depth) + i32(7) + I32_AND + TABLE_GET + unsigned(self.rng.randrange(2))
        if choice == 1:
            return self.value(FUNCREF, depth) + self.value(FUNCREF, depth) + self.value(I32, depth) + SELECT_TYPED + b"\x01\x70"
        return self.leaf(FUNCREF)

    def binary(self, ty, depth):
        op = self.rng.choice(BINARIES[ty])
        second = self.value(ty, depth)
        if op in (0x6D, 0x6E, 0x6F, 0x70) and self.rng.random() < 0.9:
            second += i32(1) + I32_OR
        if op in (0x7F, 0x80, 0x81, 0x82) and self.rng.random() < 0.9:
            second += i64(1) + I64_OR
        return self.value(ty, depth) + second + bytes([op])

    def unary(self, ty, depth):
        return self.value(ty, depth) + bytes([self.rng.choice(UNARIES[ty])])

    def converted(self, ty, depth):
        """A conversion, a comparison or a test."""
        if ty == I64:
            return self.value(I32, depth) + bytes([self.rng.choice((0xAC, 0xAD))])
        of = self.rng.choice(NUMBERS)
        choice = self.rng.randrange(4)
        if choice == 0:
            return self.value(I64, depth) + I32_WRAP
        if choice == 1:
            return self.value(of, depth) + bytes(TESTS[of])
        if choice == 2:
            return self.value(FUNCREF, depth) + REF_IS_NULL
        return self.value(of, depth) + self.value(of, depth) + bytes([self.rng.choice(COMPARES[of])])

    def counted(self, ty, depth):
        """A size."""
        if ty == I64:
            return self.leaf(ty)
        return self.rng.choice((MEMORY_SIZE + b"\x00", TABLE_SIZE + b"\x00", TABLE_SIZE + b"\x01"))

    def load(self, ty, depth):
        op, natural = self.rng.choice(LOADS[ty])
        return self.address(depth) + bytes([op]) + self.access(natural)

    def address(self, depth):
        if self.rng.random() < self.wild:
            return self.value(I32, depth)
        return self.value(I32, depth) + i32(self.rng.choice((0xFF, 0xFFF, 0x7FFF))) + I32_AND

    def access(self, natural):
        return unsigned(self.rng.randint(0, natural)) + unsigned(self.rng.choice((0, 0, 1, 4, 1000)) if self.rng.random() < 1 - self.wild / 2 else 0xFFFFFFFF)

    def called(self, ty, depth):
        fitting = [f for f, t in enumerate(self.module.functions) if self.module.types[t][1] == [ty]]
        if not fitting:
            return self.leaf(ty)
        return self.call(self.rng.choice(fitting), depth)

    def chosen(self, ty, depth):
        plain = self.rng.random() < 0.5
        return self.value(ty, depth) + self.value(ty, depth) + self.value(I32, depth) + (SELECT if plain else SELECT_TYPED + b"\x01" + bytes([ty]))

    def block_value(self, ty, depth):
        def inside():
            code = self.statements(depth)
            if self.rng.random() < 0.5:
                code += self.value(ty, depth) + self.value(I32, depth) + BR_IF + unsigned(0) + DROP
            return code + self.value(ty, depth)
        return self.open(BLOCK, [ty], [ty], inside)

    def if_value(self, ty, depth):
        condition = self.value(I32, depth)
        return condition + self.open(IF, [ty], [ty], lambda: self.value(ty, depth) + ELSE + self.statements(depth) + self.value(ty, depth))

    def tee(self, ty, depth):
        fitting = [n for n, t in enumerate(self.locals) if t == ty]
        if not fitting:
            return self.leaf(ty)
        return self.value(ty, depth) + LOCAL_TEE + unsigned(self.rng.choice(fitting))


class Module:
    """A random module: `bytes` is its file."""

    # the number of the first function that its bodies call, and the global that holds its fuel
    imported = IMPORTED
    fuel = FUEL_GLOBAL

    def __init__(self, seed):
        self.rng = rng = random.Random(seed)
        self.types = [([I32] * 4, [I32]), ([I32], []), ([], [])]
        for _ in range(rng.randint(2, 5)):
            self.types.append(([rng.choice(NUMBERS) for _ in range(rng.randint(0, 3))], [rng.choice(NUMBERS) for _ in range(rng.choice((0, 1, 1, 1, 2)))]))
        self.functions = [rng.randrange(2, len(self.types)) for _ in range(rng.randint(1, 6))]
        self.globals = [I32] + [rng.choice((I32, I64, FUNCREF)) for _ in range(rng.randint(1, 4))]
        self.mutable = [n for n in range(1, len(self.globals)) if n == 1 or rng.random() < 0.7]
        self.datas = rng.randint(0, 3)
        # the segments that bodies copy from
        self.usable = range(self.datas)
        self.elems = 3
        bodies = [Body(self, ty).code() for ty in self.functions]
        start = self.start()
        self.bytes = self.file(bodies, start)

    def block_type(self, results):
        if not results:
            return EMPTY
        if len(results) == 1 and self.rng.random() < 0.8:
            return bytes([results[0]])
        return self.type_number([], results)

    def type_number(self, params, results):
        """A type as that of a block; it is declared where it wasn't."""
        ty = (list(params), list(results))
        if ty not in self.types:
            self.types.append(ty)
        return signed(self.types.index(ty))

    def constant(self, ty):
        if ty == FUNCREF:
            return self.rng.choice((REF_NULL + b"\x70", REF_FUNC + unsigned(self.imported + self.rng.randrange(len(self.functions))))) + END
        n = self.rng.choice((0, 1, -1, self.rng.randint(-1000, 1000)))
        return (i32(n) if ty == I32 else i64(n)) + END

    def called_and_put(self, put):
        """A call of a function with random numbers; each result goes through local 0 to `put`."""
        f = self.rng.randrange(len(self.functions))
        params, results = self.types[self.functions[f]]
        code = b""
        for ty in params:
            n = self.rng.choice((0, 1, -1, 5, self.rng.getrandbits(31)))
            code += i32(n) if ty == I32 else i64(n * 0x100000001)
        code += CALL + unsigned(self.imported + f)
        for ty in reversed(results):
            code += (I64_EXTEND_U if ty == I32 else b"") + LOCAL_SET + unsigned(0) + put
        return code

    def start(self):
        """The body of `_start`. Its locals: a number of 64 bits, which is put, and an address."""
        code = VECTOR_SET
        for _ in range(self.rng.randint(2, 6)):
            code += self.called_and_put(PUT)
        code += checksum(i32(VECTOR)) + PUT
        if self.rng.random() < 0.3:
            code += i32(self.rng.randint(0, 300)) + CALL + unsigned(PROC_EXIT)
        inside = vector([b"\x01\x7e", b"\x01\x7f"]) + code + END
        return unsigned(len(inside)) + inside

    def file(self, bodies, start):
        rng = self.rng
        own = len(self.functions)
        named = lambda: unsigned(IMPORTED + rng.randrange(own))
        imports = [name("wasi_snapshot_preview1") + name("fd_write") + b"\x00\x00", name("wasi_snapshot_preview1") + name("proc_exit") + b"\x00\x01"]
        globals_ = [bytes([ty, 1 if n == 0 or n in self.mutable else 0]) + (i32(FUEL) + END if n == 0 else self.constant(ty)) for n, ty in enumerate(self.globals)]
        slots = b"\x00" + i32(0) + END + vector(unsigned(IMPORTED + f) for f in range(own))
        passive = b"\x01\x00" + vector(named() for _ in range(rng.randint(0, 3)))
        by_expression = b"\x05\x70" + vector(rng.choice((REF_FUNC + named(), REF_NULL + b"\x70")) + END for _ in range(rng.randint(0, 3)))
        active_later = b"\x06\x01" + i32(rng.randint(0, 4)) + END + b"\x70" + vector(REF_FUNC + named() + END for _ in range(rng.randint(0, 2)))
        declared = b"\x03\x00" + vector(unsigned(IMPORTED + f) for f in range(own))
        datas = []
        for _ in range(self.datas):
            contents = bytes(rng.getrandbits(8) for _ in range(rng.randint(0, 12)))
            head = rng.choice((b"\x00" + i32(rng.randint(0, 2000)) + END, b"\x01", b"\x02\x00" + i32(rng.randint(0, 200)) + END))
            datas.append(head + unsigned(len(contents)) + contents)
        parts = [
            section(1, vector(b"\x60" + vector(bytes([t]) for t in params) + vector(bytes([t]) for t in results) for params, results in self.types)),
            section(2, vector(imports)),
            section(3, vector([unsigned(ty) for ty in self.functions] + [unsigned(2)])),
            section(4, vector([b"\x70\x00" + unsigned(16), b"\x70\x01" + unsigned(16) + unsigned(20)])),
            section(5, vector([rng.choice((b"\x00\x01", b"\x01\x01\x03"))])),
            section(6, vector(globals_)),
            section(7, vector([name("_start") + b"\x00" + unsigned(IMPORTED + own), name("memory") + b"\x02\x00"])),
            section(9, vector([slots, passive, by_expression, active_later, declared])),
            section(12, unsigned(self.datas)),
            section(10, vector([*bodies, start])),
            section(11, vector(datas)),
        ]
        if rng.random() < 0.3:
            parts.insert(rng.randrange(len(parts) + 1), section(0, name("note") + bytes(rng.getrandbits(8) for _ in range(5))))
        return b"\x00asm\x01\x00\x00\x00" + b"".join(parts)


def changed(data, rng):
    """A file with one to three places changed: another byte, one more or one less."""
    out = bytearray(data)
    for _ in range(rng.randint(1, 3)):
        at = rng.randrange(8, len(out))
        choice = rng.random()
        if choice < 0.7:
            out[at] = rng.choice((rng.getrandbits(8), (out[at] + 1) % 256, (out[at] - 1) % 256, out[at] ^ 0x80, out[at] ^ 0x40))
        elif choice < 0.85:
            out.insert(at, rng.getrandbits(8))
        else:
            del out[at]
    return bytes(out)
