// The opening of members, at the start and by the functions that members call for it while they run, by docs/FORMATS.md: "How a set
// is placed and linked", "The functions of the loader".

import { passingOn } from "./binary.mjs";

export const LOADER_TYPES = { dlopen: "[127,127] -> [127]", dlsym: "[127,127] -> [127]", dlclose: "[127] -> [127]", dlerror: "[] -> [127]" };
const GLOBAL = 256;
const FLAGS = 1 | 2 | GLOBAL | 4096;
const ERRORS = { badFlags: 1, noModule: 2, badHandle: 3, noSymbol: 4, badClose: 5 };
const NOT_CLOSED = -1;

// ---- orders of members

export function breadthFirst(from) {
  const listed = [from];
  for (let n = 0; n < listed.length; n++) for (const other of listed[n].needs) if (!listed.includes(other)) listed.push(other);
  return listed;
}

function postOrder(from, entered = new Set(), listed = []) {
  entered.add(from);
  for (const other of from.needs) if (!entered.has(other)) postOrder(other, entered, listed);
  listed.push(from);
  return listed;
}

// ---- the functions

// A search among so many names, of bytes of so many bits, for a string of k bytes.
const searchCost = (bits, names, k) => 5 * k + 6 * Math.min(names, bits * k + 33);

export class Openings {
  // `textsAt` has the addresses of the texts of the errors.
  constructor(program, textsAt) {
    Object.assign(this, { program, textsAt, error: 0, open: 0 });
    this.stages = program.linked.members.map(() => 0);
    // the members that were promoted, in this order
    this.promoted = [];
    // what was done, for those who want to know
    this.counts = { opened: 0, nested: 0, promoted: 0, errors: 0, endless: 0 };
    // how many more steps than the set a merged module may make for this, by docs/FORMATS.md: "What a merged module costs"
    this.more = 0;
    // whether a member called one of the functions
    this.asked = false;
    const given = Object.keys(LOADER_TYPES).map((name) => [name, (...words) => ((this.asked = true), this[name](...words.map((word) => word >>> 0)))]);
    this.functions = passedOn(Object.fromEntries(given), LOADER_TYPES);
  }

  // Four phases over what a member reaches. Each does its work on the members that haven't come so far.
  begin(member) {
    const reached = breadthFirst(member);
    const phases = [[reached, "place"], [reached, "start"], [reached, "relocate"], [postOrder(member), "construct"]];
    this.open++;
    phases.forEach(([members, work], before) => {
      for (const other of members) {
        this.more += 9 + (work === "place" ? 8 * other.actives + 4 : 0);
        if (this.stages[other.number] > before) continue;
        this.stages[other.number] = before + 1;
        // what was called returns to the loader
        if (this.program[work](other)) this.more += 2;
      }
    });
    this.open--;
  }

  // A string is read, and then so much is done by its length. Where it has no end, the memory is read from there on.
  named(at, after) {
    const memory = new Uint8Array(this.program.memory.buffer);
    const end = memory.indexOf(0, at);
    this.more += end < 0 ? 8 * Math.max(memory.length - at, 0) + 12 : 8 * (end - at) + after(end - at);
  }
  // The bytes from an address up to a zero byte, as a text; none where they spell none, and so are the name of nothing.
  string(at) {
    const memory = new Uint8Array(this.program.memory.buffer);
    const end = memory.indexOf(0, at);
    if (end < 0) {
      this.counts.endless++;
      throw new WebAssembly.RuntimeError("memory access out of bounds");
    }
    const bytes = Buffer.from(memory.subarray(at, end));
    const text = bytes.toString();
    return Buffer.from(text).equals(bytes) ? text : undefined;
  }
  isHandle(handle) {
    return handle === 1 || this.stages[handle - 1] > 0;
  }
  refused(error, answer) {
    this.error = error;
    this.counts.errors++;
    return answer;
  }

  dlopen(name, flags) {
    const { length } = this.program.linked.members;
    if (name === 0) {
      this.more += 7;
      return 1;
    }
    this.named(name, (k) => 30 + searchCost(32, length, k));
    const text = this.string(name);
    if (flags & ~FLAGS) return this.refused(ERRORS.badFlags, 0);
    const member = this.program.linked.members.find((other) => other.name === text);
    if (!member) return this.refused(ERRORS.noModule, 0);
    if (this.stages[member.number] === 0) this.counts.opened++;
    if (this.open) this.counts.nested++;
    this.begin(member);
    this.more += 4;
    if (flags & GLOBAL) this.promote(member);
    return member.number + 1;
  }
  // What a member reaches is searched through handles 0 and 1 from here on.
  promote(member) {
    this.more += 10 * breadthFirst(member).filter((other) => !this.program.linked.links.startup.includes(other)).length;
    const searched = this.searchedByAll();
    const added = breadthFirst(member).filter((other) => !searched.includes(other));
    this.promoted.push(...added);
    this.counts.promoted += added.length;
  }
  searchedByAll() {
    return [...this.program.linked.links.startup, ...this.promoted];
  }
  searched(handle) {
    const { members } = this.program.linked;
    if (handle <= 1) return this.searchedByAll();
    return handle <= members.length ? breadthFirst(members[handle - 1]) : [];
  }
  dlsym(handle, name) {
    const { length } = this.program.linked.members;
    const tried = (member, k) => 17 + searchCost(8, member.exports.length, k);
    this.named(name, (k) => 31 + 7 * length + this.searched(handle).reduce((sum, member) => sum + tried(member, k), 0));
    const text = this.string(name);
    if (handle !== 0 && !this.isHandle(handle)) return this.refused(ERRORS.badHandle, 0);
    const { links } = this.program.linked;
    const found = links.searched(this.searched(handle), text);
    return found ? this.program.linked.place(found) : this.refused(ERRORS.noSymbol, 0);
  }
  dlclose(handle) {
    this.more += 8 + 5 * this.program.linked.members.length;
    return this.isHandle(handle) ? 0 : this.refused(ERRORS.badClose, NOT_CLOSED);
  }
  dlerror() {
    this.more += 31;
    const text = this.error ? this.textsAt[this.error - 1] : 0;
    this.error = 0;
    return text;
  }
}

// The functions as a module's exports, which alone can stand in a table.
function passedOn(functions, types) {
  const values = (text) => text.match(/\d+/g)?.map(Number) ?? [];
  const listed = Object.entries(types).map(([name, type]) => [name, ...type.split("->").map(values)]);
  return new WebAssembly.Instance(new WebAssembly.Module(passingOn(listed)), { from: functions }).exports;
}
