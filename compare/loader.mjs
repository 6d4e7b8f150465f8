// A loader of sets for node, written from DynamicLinking.md and docs/FORMATS.md alone: it finds the members of a set, places and
// links them, lists the plan, and runs the set. What members call to open others while they run is in opening.mjs.

import { existsSync, readFileSync } from "node:fs";
import { read, startExported } from "./binary.mjs";
import { breadthFirst, LOADER_TYPES, Openings } from "./opening.mjs";

const PAGE = 65536;
const STACK_BEGIN = 1024;
const WASI = "wasi_snapshot_preview1";
const TEXTS = ["dlopen: bad flags", "dlopen: no such module", "dlsym: bad handle", "dlsym: no such symbol", "dlclose: bad handle"];
const TEXT_BYTES = Buffer.from(TEXTS.map((text) => `${text}\0`).join(""));
const UNDEFINING = ["__wasm_apply_data_relocs", "__wasm_call_ctors", "__dso_handle", "_start", "_initialize"];
const HOSTS = { fd_write: "[127,127,127,127] -> [127]", proc_exit: "[127] -> []", sched_yield: "[] -> [127]" };
const START = " start";

// The set isn't run, for this reason.
export class Refusal extends Error {}

const roundedUp = (n, step) => Math.ceil(n / step) * step;
const typeText = ({ params, results }) => `[${params}] -> [${results}]`;
// Where the texts stand from an address on.
const textsAt = (begin) => TEXTS.map((_, n) => TEXTS.slice(0, n).reduce((at, text) => at + text.length + 1, begin));
// A name as it is printed.
const printed = (name) => [...Buffer.from(name)].map(printedByte).join("");
const maxima = (declared) => declared.filter(({ maximum }) => maximum !== undefined).map(({ maximum }) => maximum);

function printedByte(byte) {
  return byte > 0x20 && byte < 0x7f && byte !== 0x5c ? String.fromCharCode(byte) : `\\${byte.toString(16).padStart(2, "0")}`;
}

// ---- the files of a set

class Member {
  constructor(number, name, path) {
    Object.assign(this, { number, name, path, bytes: readFileSync(path) });
    Object.assign(this, read(this.bytes));
    this.actives = [...this.elements, ...this.datas].filter(({ active }) => active).length;
    this.of = (kind) => this.imports.filter((i) => i.kind === kind);
    this.shared = (field, kind) => this.imports.filter((i) => i.module === "env" && i.field === field && i.kind === kind);
  }
  // The number of the function of its own that it exports under a name.
  ownFunction(name) {
    const found = this.exports.find((e) => e.name === name && e.kind === 0);
    return found && found.index >= this.of("function").length ? found.index : undefined;
  }
  typeOf(index) {
    const imported = this.of("function");
    return typeText(this.types[index < imported.length ? imported[index].type : this.functions[index - imported.length]]);
  }
  // What it defines under a name: a function, or data at an offset.
  defines(name) {
    if (UNDEFINING.includes(name)) return undefined;
    const index = this.ownFunction(name);
    if (index !== undefined) return { member: this, name, index };
    const found = this.exports.find((e) => e.name === name && e.kind === 3);
    const global = found && this.globals[found.index - this.of("global").length];
    const isData = global && !global.mutable && global.type === 0x7f && global.value.number !== undefined;
    return isData ? { member: this, name, offset: global.value.number } : undefined;
  }
  isWeak(name) {
    return this.record.imports.some((i) => i.field === name && ["env", "GOT.mem", "GOT.func"].includes(i.module) && (i.flags & 3) === 1);
  }
}

function pathsTried(order, name, finder) {
  if (name.includes("/")) return [name];
  const folderOf = (path) => (path.includes("/") ? path.slice(0, path.lastIndexOf("/")) : ".");
  const beside = order.main.slice(0, order.main.lastIndexOf("/") + 1);
  const own = finder.record.paths.map((text) => `${text.replace(/^\$ORIGIN/, () => folderOf(finder.path))}/${name}`);
  return [...own, ...order.path.map((text) => `${text}/${name}`), beside + name];
}

function gathered(order) {
  const members = [];
  const names = [order.main.slice(order.main.lastIndexOf("/") + 1)];
  const finders = [undefined];
  const add = (name, finder) => {
    if (names.includes(name)) return;
    names.push(name);
    finders.push(finder);
  };
  const late = [...order.dl];
  for (let n = 0; n < names.length; n++) {
    const path = n === 0 ? order.main : pathsTried(order, names[n], finders[n]).find((tried) => existsSync(tried));
    if (path === undefined || !existsSync(path)) throw new Refusal(`missing ${printed(names[n])}`);
    const member = new Member(n, names[n], path);
    if (member.record === undefined) throw new Refusal(`module ${n} has no dylink.0 section`);
    members.push(member);
    for (const name of member.record.needed) add(name, member);
    while (n + 1 === names.length && late.length) add(late.shift(), members[0]);
  }
  for (const member of members) member.needs = member.record.needed.map((name) => members[names.indexOf(name)]);
  return members;
}

// ---- places

function placed(members, order) {
  const stackEnd = STACK_BEGIN + roundedUp(order.stack, 16);
  const textsEnd = stackEnd + TEXT_BYTES.length;
  let [memory, table] = [textsEnd, 1];
  const bases = members.map(({ record: { memory: [size, alignment, entries, tableAlignment] } }) => {
    const place = { memory: roundedUp(memory, 2 ** alignment), table: roundedUp(table, 2 ** tableAlignment), size, entries };
    [memory, table] = [place.memory + size, place.table + entries];
    return place;
  });
  const memories = members.flatMap((member) => member.shared("memory", "memory"));
  const tables = members.flatMap((member) => member.shared("__indirect_function_table", "table"));
  const heapBase = roundedUp(memory, 16);
  const pages = Math.max(Math.ceil(heapBase / PAGE), ...memories.map(({ minimum }) => minimum));
  const pagesMost = Math.min(order.pages, ...maxima(memories));
  return { stackEnd, textsEnd, bases, heapBase, pages, pagesMost, heapEnd: pages * PAGE, tables, regionsEnd: table };
}

function tablePlanned(plan, freshCount) {
  const asked = Math.max(plan.regionsEnd, ...plan.tables.map(({ minimum }) => minimum));
  const entries = Math.max(plan.regionsEnd + freshCount, asked);
  const bound = Math.min(983040, ...maxima(plan.tables));
  for (const amount of [asked, entries]) if (amount > bound) throw new Refusal(`table of ${amount} entries is above ${bound}`);
  return { entries, entriesMost: Math.min(entries + 65536, ...maxima(plan.tables)) };
}

// ---- names

class Links {
  constructor(members) {
    this.members = members;
    this.startup = breadthFirst(members[0]);
  }
  // What a name is for a member.
  definition(member, name) {
    if (Object.hasOwn(LOADER_TYPES, name)) return { loader: name };
    if (name === "__heap_base" || name === "__heap_end") return { heap: name };
    const scope = [...this.startup, ...breadthFirst(member).filter((other) => !this.startup.includes(other))];
    return this.searched(scope, name) ?? (member.isWeak(name) ? { weak: true } : undefined);
  }
  // What the first of some members that defines a name defines it as.
  searched(members, name) {
    for (const member of members) {
      const found = member.defines(name);
      if (found) return found;
    }
    return undefined;
  }
  // What an imported function is.
  imported(member, index) {
    const { module, field } = member.of("function")[index];
    return module === "env" ? this.definition(member, field) : { host: field };
  }
  // A text for what a reference to a function of a member refers to.
  reference(member, item) {
    if (item.none) return undefined;
    if (item.function >= member.of("function").length) return `${member.number} ${item.function}`;
    const found = this.imported(member, item.function);
    return found?.member ? `${found.member.number} ${found.index}` : "another";
  }
  // The type of what is defined as a function.
  typeOf({ loader, member, index }) {
    if (loader) return LOADER_TYPES[loader];
    return index === undefined ? undefined : member.typeOf(index);
  }
  // The fault of an import, if it has one.
  importFault(member, i) {
    const told = (what, kind) => `${what} ${kind} ${printed(i.field)} in ${member.number}`;
    const isGlobal = (mutable) => i.kind === "global" && i.type === 0x7f && i.mutable === mutable;
    const forms = {
      memory: i.kind === "memory",
      __indirect_function_table: i.kind === "table" && i.type === 0x70,
      __stack_pointer: isGlobal(true),
      __memory_base: isGlobal(false),
      __table_base: isGlobal(false),
    };
    if (i.module === "env" && Object.hasOwn(forms, i.field)) return forms[i.field] ? undefined : told("ill-typed", "other");
    if (i.module === "GOT.mem" || i.module === "GOT.func") {
      const kind = i.module.slice(4);
      const found = this.definition(member, i.field);
      if (!isGlobal(true)) return told("ill-typed", kind);
      if (!found) return told("unresolved", kind);
      const isFunction = found.index !== undefined || found.loader !== undefined;
      return found.weak || isFunction === (kind === "func") ? undefined : told("ill-typed", kind);
    }
    if (i.kind !== "function") return told("unresolved", "other");
    const type = typeText(member.types[i.type]);
    if (i.module !== "env") {
      if (i.module !== WASI || !Object.hasOwn(HOSTS, i.field)) return told("unresolved", "function");
      return HOSTS[i.field] === type ? undefined : told("ill-typed", "function");
    }
    const found = this.definition(member, i.field);
    if (!found) return told("unresolved", "function");
    return found.weak || this.typeOf(found) === type ? undefined : told("ill-typed", "function");
  }
}

function firstFault(links, order) {
  for (const member of links.members) {
    if (member.memories.length) return `module ${member.number} has its own memory`;
    const tls = member.record.exports.find(({ flags }) => flags & 256);
    if (tls) return `module ${member.number} has TLS export ${printed(tls.name)}`;
    for (const name of UNDEFINING.slice(0, 2)) {
      const index = member.ownFunction(name);
      if (index !== undefined && member.typeOf(index) !== "[] -> []") return `ill-typed function ${name} in ${member.number}`;
    }
    for (const i of member.imports) {
      const fault = links.importFault(member, i);
      if (fault) return fault;
    }
  }
  if (order.noDuplicates) {
    for (const member of links.members) {
      for (const { name } of member.exports) {
        const first = member.defines(name) && links.members.slice(0, member.number).find((other) => other.defines(name));
        if (first) return `duplicate ${printed(name)} in ${first.number} and ${member.number}`;
      }
    }
  }
  const entry = entryOf(links.members[0]);
  return entry && links.members[0].typeOf(entry.index) === "[] -> []" ? undefined : "no entry";
}

function entryOf(main) {
  for (const name of ["_start", "main"]) {
    const index = main.ownFunction(name);
    if (index !== undefined) return { name, index };
  }
  return undefined;
}

// ---- slots

// The slots that members' own segments give, and fresh ones in order: those of members' functions, and then of the loader's.
function slotsOf(links, plan) {
  const slots = new Map();
  const fresh = [];
  for (const member of links.members) {
    const { table, entries, memory } = plan.bases[member.number];
    const tableOf = new Map();
    for (const { active, table: t, offset, items } of member.elements) {
      if (!active || t >= member.of("table").length) continue;
      const base = (global) => (member.of("global")[global].field === "__table_base" ? table : memory);
      const at = offset.number !== undefined ? offset.number >>> 0 : base(offset.global);
      items.forEach((item, n) => tableOf.set(at + n, links.reference(member, item)));
    }
    const inRegion = (reference) => Array.from({ length: entries }, (_, n) => table + n).find((at) => tableOf.get(at) === reference);
    for (const { name } of member.exports) {
      const found = member.defines(name);
      if (found?.index === undefined) continue;
      const reference = `${member.number} ${found.index}`;
      if (slots.has(reference)) continue;
      const at = inRegion(reference);
      slots.set(reference, at ?? plan.regionsEnd + fresh.length);
      if (at === undefined) fresh.push({ slot: slots.get(reference), member, name });
    }
  }
  const isCell = (name) => links.members.some(({ imports }) => imports.some((i) => i.module === "GOT.func" && i.field === name));
  for (const name of Object.keys(LOADER_TYPES).filter(isCell)) {
    slots.set(name, plan.regionsEnd + fresh.length);
    fresh.push({ slot: slots.get(name), name });
  }
  return { slots, fresh };
}

// ---- a linked set

export class Linked {
  constructor(order) {
    const members = gathered(order);
    this.links = new Links(members);
    const fault = firstFault(this.links, order);
    if (fault) throw new Refusal(fault);
    const plan = placed(members, order);
    if (plan.pages > plan.pagesMost) throw new Refusal(`memory of ${plan.pages} pages is above ${plan.pagesMost}`);
    Object.assign(this, { members, plan, ...slotsOf(this.links, plan) });
    Object.assign(plan, tablePlanned(plan, this.fresh.length));
  }
  // The slot of a function, or the address of data.
  place({ weak, heap, loader, member, index, offset }) {
    if (weak) return 0;
    if (heap) return heap === "__heap_base" ? this.plan.heapBase : this.plan.heapEnd;
    if (loader) return this.slots.get(loader);
    if (index !== undefined) return this.slots.get(`${member.number} ${index}`);
    return (this.plan.bases[member.number].memory + offset) >>> 0;
  }
  cell(member, { field }) {
    return this.place(this.links.definition(member, field));
  }
  bound(member, i) {
    const name = printed(i.field);
    if (i.module === "GOT.mem" || i.module === "GOT.func") return `${i.module.slice(4)} ${name} ${this.cell(member, i)}`;
    if (i.kind !== "function") return undefined;
    const found = i.module === "env" ? this.links.definition(member, i.field) : { host: true };
    return `function ${name} ${found.member?.number ?? ["host", "weak", "loader"].find((kind) => found[kind])}`;
  }
  // The lines of `wdyl plan`.
  listing() {
    const { plan } = this;
    const lines = [
      `memory ${plan.pages} ${plan.pagesMost}`,
      `table ${plan.entries} ${plan.entriesMost}`,
      `stack ${STACK_BEGIN} ${plan.stackEnd}`,
      `texts ${plan.stackEnd} ${plan.textsEnd}`,
      `heap ${plan.heapBase} ${plan.heapEnd}`,
    ];
    for (const { number, name } of this.members) {
      const base = plan.bases[number];
      lines.push(`module ${number} ${printed(name)} ${base.memory} ${base.size} ${base.table} ${base.entries}`);
    }
    for (const { slot, member, name } of this.fresh) lines.push(`slot ${slot} ${member?.number ?? "loader"} ${printed(name)}`);
    for (const member of this.members) {
      for (const i of member.imports) {
        const bound = this.bound(member, i);
        if (bound) lines.push(`bind ${member.number} ${bound}`);
      }
    }
    return lines.map((line) => `${line}\n`).join("");
  }
}

// ---- the run of a linked set

export class Program {
  // `wasi` gives the host functions, `held` gets the memory.
  constructor(linked, held, wasi) {
    const { plan } = linked;
    Object.assign(this, { linked, held, wasi, instances: [] });
    this.memory = new WebAssembly.Memory({ initial: plan.pages, maximum: plan.pagesMost });
    this.table = new WebAssembly.Table({ element: "anyfunc", initial: plan.entries, maximum: plan.entriesMost });
    this.pointer = new WebAssembly.Global({ value: "i32", mutable: true }, plan.stackEnd);
    this.openings = new Openings(this, textsAt(plan.stackEnd));
    new Uint8Array(this.memory.buffer).set(TEXT_BYTES, plan.stackEnd);
    for (const { slot, name } of linked.fresh.filter(({ member }) => !member)) this.table.set(slot, this.openings.functions[name]);
    held.memory = () => this.memory.buffer;
  }
  run() {
    const [main] = this.linked.members;
    this.openings.begin(main);
    // the entry is called, and it returns
    this.openings.more += 2;
    this.begun = this.held.calls;
    this.instances[0].exports[entryOf(main).name]();
  }
  // The work of the four phases. The first applies a member's segments, and then writes its fresh slots. The others tell whether they
  // called a function.
  place(member) {
    const compiled = new WebAssembly.Module(startExported(member.bytes, member, START));
    this.instances[member.number] = new WebAssembly.Instance(compiled, this.importsOf(member));
    const { exports } = this.instances[member.number];
    for (const { slot, name } of this.linked.fresh.filter((f) => f.member === member)) this.table.set(slot, exports[name]);
  }
  start(member) {
    if (member.start !== undefined) this.instances[member.number].exports[START]();
    return member.start !== undefined;
  }
  relocate(member) {
    return this.callOwn(member, "__wasm_apply_data_relocs");
  }
  // An entry `_start` calls the constructors of the main module itself.
  construct(member) {
    return (member.number !== 0 || entryOf(member).name !== "_start") && this.callOwn(member, "__wasm_call_ctors");
  }
  callOwn(member, name) {
    const own = member.ownFunction(name) !== undefined;
    if (own) this.instances[member.number].exports[name]();
    return own;
  }
  importsOf(member) {
    const given = {};
    for (const i of member.imports) {
      const fields = (given[i.module] ??= {});
      // two imports of one cell are one cell
      fields[i.field] ??= this.importOf(member, i);
    }
    return given;
  }
  importOf(member, i) {
    const { memory, table } = this.linked.plan.bases[member.number];
    if (i.module === "env" && i.kind !== "function") {
      const bases = { __memory_base: memory, __table_base: table };
      return { memory: this.memory, __indirect_function_table: this.table, __stack_pointer: this.pointer, ...bases }[i.field];
    }
    if (i.kind === "global") return new WebAssembly.Global({ value: "i32", mutable: true }, this.linked.cell(member, i) | 0);
    if (i.module === WASI) return this.wasi[i.field];
    const found = this.linked.links.definition(member, i.field);
    if (found.loader) return this.openings.functions[found.loader];
    if (found.weak) return () => { throw new WebAssembly.RuntimeError("unreachable"); };
    // the other member may have no instance yet
    return (...words) => this.instances[found.member.number].exports[found.name](...words);
  }
}
