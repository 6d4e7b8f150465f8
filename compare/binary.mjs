// What a loader has to read of a module's file, which is valid: imports, types, exports, globals, segments, the start function
// and the record `dylink.0`. By the WebAssembly Core Specification 2.0, chapter 5, and DynamicLinking.md.

const HEADER = Buffer.from("\0asm\x01\0\0\0", "latin1");

class Reader {
  constructor(bytes, at = 0, end = bytes.length) { Object.assign(this, { bytes, at, end }); }
  byte() { return this.bytes[this.at++]; }
  unsigned() {
    let value = 0;
    for (let scale = 1; ; scale *= 128) {
      const byte = this.byte();
      value += (byte & 0x7f) * scale;
      if (byte < 128) return value;
    }
  }
  signed() {
    let value = 0n;
    for (let shift = 0n; ; shift += 7n) {
      const byte = this.byte();
      value |= BigInt(byte & 0x7f) << shift;
      if (byte < 128) return BigInt.asIntN(Number(shift) + 7, value);
    }
  }
  name() {
    const length = this.unsigned();
    const text = Buffer.from(this.bytes.subarray(this.at, this.at + length)).toString("utf8");
    this.at += length;
    return text;
  }
  list(item) { return Array.from({ length: this.unsigned() }, () => item(this)); }
  limits() {
    const bounded = this.byte() === 1;
    const minimum = this.unsigned();
    return { minimum, maximum: bounded ? this.unsigned() : undefined };
  }
  functionType() {
    this.byte();
    const params = this.list((r) => r.byte());
    return { params, results: this.list((r) => r.byte()) };
  }
  // A constant expression of one instruction.
  constant() {
    const op = this.byte();
    const found = {
      0x41: () => ({ number: Number(this.signed()) }),
      0x42: () => ({ long: this.signed() }),
      0xd0: () => (this.byte(), { none: true }),
      0xd2: () => ({ function: this.unsigned() }),
      0x23: () => ({ global: this.unsigned() }),
    }[op]();
    this.byte();
    return found;
  }
  import() {
    const [module, field, kind] = [this.name(), this.name(), this.byte()];
    if (kind === 0) return { module, field, kind: "function", type: this.unsigned() };
    if (kind === 1) return { module, field, kind: "table", type: this.byte(), ...this.limits() };
    if (kind === 2) return { module, field, kind: "memory", ...this.limits() };
    return { module, field, kind: "global", ...this.globalType() };
  }
  globalType() { return { type: this.byte(), mutable: this.byte() === 1 }; }
  element() {
    const flags = this.unsigned();
    const active = (flags & 1) === 0;
    const table = active && flags & 2 ? this.unsigned() : 0;
    const offset = active ? this.constant() : undefined;
    if (flags & 3) this.byte();
    const items = this.list((r) => (flags & 4 ? r.constant() : { function: r.unsigned() }));
    return { active, table, offset, items };
  }
  data() {
    const flags = this.unsigned();
    if (flags === 2) this.unsigned();
    const offset = flags === 1 ? undefined : this.constant();
    const length = this.unsigned();
    this.at += length;
    return { active: offset !== undefined };
  }
}

function recordOf(reader) {
  const record = { memory: [0, 0, 0, 0], needed: [], exports: [], imports: [], paths: [] };
  while (reader.at < reader.end) {
    const code = reader.byte();
    const end = reader.unsigned() + reader.at;
    if (code === 1) record.memory = [0, 0, 0, 0].map(() => reader.unsigned());
    if (code === 2) record.needed.push(...reader.list((r) => r.name()));
    if (code === 3) record.exports.push(...reader.list((r) => ({ name: r.name(), flags: r.unsigned() })));
    if (code === 4) record.imports.push(...reader.list((r) => ({ module: r.name(), field: r.name(), flags: r.unsigned() })));
    if (code === 5) record.paths.push(...reader.list((r) => r.name()));
    reader.at = end;
  }
  return record;
}

const readers = {
  1: (module, r) => { module.types = r.list((s) => s.functionType()); },
  2: (module, r) => { module.imports = r.list((s) => s.import()); },
  3: (module, r) => { module.functions = r.list((s) => s.unsigned()); },
  5: (module, r) => { module.memories = r.list((s) => s.limits()); },
  6: (module, r) => { module.globals = r.list((s) => ({ ...s.globalType(), value: s.constant() })); },
  7: (module, r) => { module.exports = r.list((s) => ({ name: s.name(), kind: s.byte(), index: s.unsigned() })); },
  8: (module, r) => { module.start = r.unsigned(); },
  9: (module, r) => { module.elements = r.list((s) => s.element()); },
  11: (module, r) => { module.datas = r.list((s) => s.data()); },
};

export function read(bytes) {
  const module = { types: [], imports: [], functions: [], memories: [], globals: [], exports: [], elements: [], datas: [], sections: [] };
  const reader = new Reader(bytes, 8);
  while (reader.at < bytes.length) {
    const begin = reader.at;
    const id = reader.byte();
    const end = reader.unsigned() + reader.at;
    module.sections.push({ id, bytes: bytes.subarray(begin, end), contents: reader.at - begin });
    const inside = new Reader(bytes, reader.at, end);
    if (id === 0 && module.record === undefined && inside.name() === "dylink.0") module.record = recordOf(inside);
    readers[id]?.(module, inside);
    reader.at = end;
  }
  return module;
}

function spelled(n) {
  const out = [];
  for (; n >= 128; n = Math.floor(n / 128)) out.push((n % 128) + 128);
  return [...out, n];
}

// The file without its start section, and with one more export of that function.
export function startExported(bytes, module, name) {
  if (module.start === undefined) return bytes;
  const added = [...spelled(name.length), ...Buffer.from(name), 0, ...spelled(module.start)];
  const old = module.sections.find(({ id }) => id === 7);
  const entries = old ? new Reader(old.bytes, old.contents) : undefined;
  entries?.unsigned();
  const contents = Buffer.from([...spelled(module.exports.length + 1), ...(old ? old.bytes.subarray(entries.at) : []), ...added]);
  const exports = Buffer.concat([Buffer.from([7, ...spelled(contents.length)]), contents]);
  const isLater = ({ id }) => [8, 9, 10, 11, 12].includes(id);
  const kept = module.sections.filter(({ id }) => id !== 7 && id !== 8);
  const at = kept.findIndex(isLater);
  const parts = kept.map((section) => section.bytes);
  parts.splice(at < 0 ? parts.length : at, 0, exports);
  return Buffer.concat([bytes.subarray(0, 8), ...parts]);
}

// A module that imports functions from "from" and exports them under the same names. Each has a name, parameters and results.
export function passingOn(functions) {
  const vector = (items) => Buffer.from([...spelled(items.length), ...items.flatMap((item) => [...item])]);
  const values = (types) => vector(types.map((type) => [type]));
  const name = (text) => values([...Buffer.from(text)]);
  const numbered = (before) => vector(functions.map(([text], n) => [...before, ...name(text), 0, ...spelled(n)]));
  const section = (id, contents) => Buffer.from([id, ...spelled(contents.length), ...contents]);
  const types = vector(functions.map(([, params, results]) => [0x60, ...values(params), ...values(results)]));
  return Buffer.concat([HEADER, section(1, types), section(2, numbered(name("from"))), section(7, numbered([]))]);
}
