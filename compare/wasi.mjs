// What a run of the comparison needs of WASI, answered as `wdyl` does, and how a run ended.

export class Exit {
  constructor(code) { this.code = code; }
}

const traps = [
  ["unreachable", "unreachable"],
  ["divide by zero", "divide by zero"],
  ["remainder by zero", "divide by zero"],
  ["divide result unrepresentable", "overflow"],
  ["memory access out of bounds", "memory bounds"],
  ["data segment out of bounds", "memory bounds"],
  ["data segment is out of bounds", "memory bounds"],
  ["table index is out of bounds", "table bounds"],
  ["table access out of bounds", "table bounds"],
  ["table or element segment", "table bounds"],
  ["element segment out of bounds", "table bounds"],
  ["null function or function signature mismatch", "no such function"],
];

export function trapOf(message) {
  const found = traps.find(([text]) => message.includes(text));
  return found ? found[1] : message;
}

// What a host function answers, over the memory of the instance.
export function wasi(held) {
  const inside = (at, length) => at + length <= held.memory().byteLength;
  return {
    fd_write(fd, iovs, count, out) {
      if (fd !== 1 && fd !== 2) return 8;
      [iovs, count, out] = [iovs >>> 0, count >>> 0, out >>> 0];
      if (count > 1024) return 28;
      if (!inside(iovs, 8 * count)) return 21;
      const view = new DataView(held.memory());
      const pieces = [];
      for (let i = 0; i < count; i++) {
        const [at, length] = [view.getUint32(iovs + 8 * i, true), view.getUint32(iovs + 8 * i + 4, true)];
        if (!inside(at, length)) return 21;
        pieces.push(Buffer.from(held.memory(), at, length));
      }
      if (!inside(out, 4)) return 21;
      const bytes = Buffer.concat(pieces).subarray(0, 65536);
      if (fd === 1) held.output.push(Buffer.from(bytes));
      view.setUint32(out, bytes.length, true);
      return 0;
    },
    proc_exit(code) { throw new Exit(code >>> 0); },
    // one that wdyl doesn't know
    sched_yield: () => 52,
  };
}

// How a run ended, by what it threw; none where it returned.
export function endOf(error) {
  if (error === undefined) return "returned";
  if (error instanceof Exit) return `exit ${error.code % 256}`;
  if (error.code === "ERR_SCRIPT_EXECUTION_TIMEOUT") return "time";
  if (error instanceof RangeError) return "depth";
  // a host function of another type is told at the link, or at its call
  if (error instanceof WebAssembly.LinkError || error instanceof TypeError) return "link";
  if (error instanceof WebAssembly.RuntimeError) return `trap ${trapOf(error.message)}`;
  return `${error.constructor.name}: ${error.message}`;
}
