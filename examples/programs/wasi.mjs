// WASI preview 1 for a merged module, in node and in pages: the calls, and what each answers, are those of `wdyl exec`.
//
//     node wasi.mjs MERGED [ARGS]
//
// In a page, or in another program, `run` gives what was put out and the status:
//
//     import { run } from "./wasi.mjs";
//     const { status, output, errors } = await run(bytes, ["-l", "-w"], "one\ntwo\n");
//
// The status is that of `wdyl exec`: the program's own, 134 where it trapped, 125 where its calls were too deep for the engine, 65
// where the module isn't valid or wants what isn't there. The module exports its memory as `memory`. The engine has no limits of steps
// and of host calls.

const SUCCESS = 0, BADF = 8, FAULT = 21, INVAL = 28, IO = 29, NOSYS = 52, SPIPE = 70;
const MOST_BYTES = 65536, MOST_BUFFERS = 1024;

class Exit {
  constructor(status) { this.status = status; }
}

// What is thrown where a call answers an error. Nothing has been written then.
class Refused {
  constructor(errno) { this.errno = errno; }
}

function demand(holds, errno) {
  if (!holds) throw new Refused(errno);
}

// What a host does may fail.
function attempt(work) {
  try { return work(); } catch { throw new Refused(IO); }
}

const sum = (pieces) => pieces.reduce((length, piece) => length + piece.length, 0);

// The bytes of the pieces, one after the other, and no more than these.
function joined(pieces, most = Infinity) {
  const whole = new Uint8Array(Math.min(sum(pieces), most));
  let held = 0;
  for (const piece of pieces) {
    const part = piece.subarray(0, whole.length - held);
    whole.set(part, held);
    held += part.length;
  }
  return whole;
}

// The calls, over a function that gives the memory as it is now, the arguments, the first of which is the program's name, and streams:
// `take(most)` gives so many bytes of the input or less, and none at its end; `put(fd, bytes)` puts all of them out. Either may throw.
export function calls(memory, args, { take, put }) {
  const texts = args.map((text) => new TextEncoder().encode(`${text}\0`));
  const size = sum(texts);
  const view = () => new DataView(memory());
  const range = (at, length) => {
    demand(at + length <= memory().byteLength, FAULT);
    return new Uint8Array(memory(), at, length);
  };
  const word = (at, number) => view().setUint32(at, number, true);
  const words = (first, second, numbers) => {
    range(first, 4), range(second, 4);
    word(first, numbers[0]), word(second, numbers[1]);
  };
  const stream = (fd, ...fds) => demand(fds.includes(fd), BADF);
  const buffers = (at, count, out) => {
    demand(count <= MOST_BUFFERS, INVAL);
    range(at, 8 * count);
    const number = (n) => view().getUint32(at + 4 * n, true);
    const found = Array.from({ length: count }, (_, n) => range(number(2 * n), number(2 * n + 1)));
    range(out, 4);
    return found;
  };

  const answers = {
    args_sizes_get: (count, bytes) => words(count, bytes, [args.length, size]),
    args_get(pointers, at) {
      range(pointers, 4 * args.length), range(at, size);
      texts.forEach((text, n) => {
        word(pointers + 4 * n, at);
        range(at, text.length).set(text);
        at += text.length;
      });
    },
    environ_sizes_get: (count, bytes) => words(count, bytes, [0, 0]),
    environ_get() {},
    fd_write(fd, at, count, out) {
      stream(fd, 1, 2);
      const bytes = joined(buffers(at, count, out), MOST_BYTES);
      if (bytes.length) attempt(() => put(fd, bytes));
      word(out, bytes.length);
    },
    fd_read(fd, at, count, out) {
      stream(fd, 0);
      const found = buffers(at, count, out), most = Math.min(sum(found), MOST_BYTES);
      const bytes = most ? attempt(() => take(most)) : new Uint8Array();
      let given = 0;
      for (const buffer of found) {
        const part = bytes.subarray(given, given + buffer.length);
        buffer.set(part);
        given += part.length;
      }
      word(out, given);
    },
    fd_close: (fd) => stream(fd, 0, 1, 2),
    fd_seek(fd) {
      stream(fd, 0, 1, 2);
      throw new Refused(SPIPE);
    },
    fd_fdstat_get(fd, out) {
      stream(fd, 0, 1, 2);
      range(out, 24).fill(0)[0] = 2; // a character device
      word(out + 8, fd === 0 ? 2 : 64); // which may be read, or written
    },
    fd_prestat_get() { throw new Refused(BADF); },
    fd_prestat_dir_name() { throw new Refused(BADF); },
    clock_time_get(id, _, out) {
      demand(id <= 1, INVAL);
      range(out, 8);
      view().setBigUint64(out, BigInt(Date.now()) * 1000000n, true);
    },
    random_get(at, length) {
      const bytes = range(at, length);
      demand(length <= MOST_BYTES, INVAL);
      attempt(() => crypto.getRandomValues(bytes));
    },
    proc_exit(status) { throw new Exit(status % 256); },
  };

  const errno = (answer) => (...given) => {
    try {
      answer(...given.map((value) => (typeof value === "bigint" ? value : value >>> 0)));
      return SUCCESS;
    } catch (thrown) {
      if (thrown instanceof Refused) return thrown.errno;
      throw thrown;
    }
  };
  return Object.fromEntries(Object.entries(answers).map(([name, answer]) => [name, errno(answer)]));
}

// The status of what a run threw.
function statusOf(thrown) {
  if (thrown instanceof Exit) return thrown.status;
  if (thrown instanceof WebAssembly.RuntimeError) return 134;
  if (thrown instanceof RangeError || thrown.name === "InternalError") return 125;
  return 65;
}

// Runs the module of these bytes, over arguments and streams. Gives the status, its memory, and what was thrown where it neither
// returned nor exited.
export async function start(bytes, args, streams) {
  const host = "wasi_snapshot_preview1";
  let memory;
  const known = calls(() => memory.buffer, ["program", ...args], streams);
  const answer = ({ name }) => [name, Object.hasOwn(known, name) ? known[name] : () => NOSYS];
  try {
    const compiled = await WebAssembly.compile(bytes);
    const wanted = WebAssembly.Module.imports(compiled).filter(({ module }) => module === host);
    const instance = await WebAssembly.instantiate(compiled, { [host]: Object.fromEntries(wanted.map(answer)) });
    memory = instance.exports.memory;
    instance.exports._start();
    return { status: 0, memory };
  } catch (thrown) {
    return { status: statusOf(thrown), memory, error: thrown instanceof Exit ? undefined : thrown };
  }
}

// Runs it over an input, which is bytes or a text. Gives what `start` gives, and the bytes of both outputs.
export async function run(bytes, args = [], input = "") {
  let rest = typeof input === "string" ? new TextEncoder().encode(input) : input;
  const pieces = { 1: [], 2: [] };
  const take = (most) => {
    const taken = rest.subarray(0, most);
    rest = rest.subarray(taken.length);
    return taken;
  };
  const ended = await start(bytes, args, { take, put: (fd, piece) => pieces[fd].push(piece) });
  return { ...ended, output: joined(pieces[1]), errors: joined(pieces[2]) };
}

// In node, as a command: the input and the outputs are those of the process.
async function main(path, args) {
  const { readFileSync, readSync, writeSync } = await import("node:fs");
  const ended = (status, line) => {
    if (line !== undefined) console.error(line);
    process.exitCode = status;
  };
  if (path === undefined) return ended(64, "usage: node wasi.mjs MERGED [ARGS]");
  const pause = () => Atomics.wait(new Int32Array(new SharedArrayBuffer(4)), 0, 0, 1);
  // a stream that another process uses too may ask to come again
  const patient = (work) => {
    for (;;) {
      try { return work(); } catch (error) {
        if (error.code !== "EAGAIN") throw error;
        pause();
      }
    }
  };
  const take = (most) => {
    const bytes = new Uint8Array(most);
    return bytes.subarray(0, patient(() => readSync(0, bytes)));
  };
  const put = (fd, bytes) => {
    for (let n = 0; n < bytes.length;) n += patient(() => writeSync(fd, bytes, n));
  };
  let bytes;
  try { bytes = readFileSync(path); } catch (error) { return ended(error.code === "ENOENT" ? 65 : 66, error.message); }
  const { status, error } = await start(bytes, args, { take, put });
  return ended(status, error?.stack);
}

if (globalThis.process?.argv?.[1]) {
  const [{ realpathSync }, { pathToFileURL }] = await Promise.all([import("node:fs"), import("node:url")]);
  const [, own, path, ...args] = process.argv;
  if (import.meta.url === pathToFileURL(realpathSync(own)).href) await main(path, args);
}
