// Runs modules, and prints a line of JSON for each: how its run ended and what it wrote.
//
//     node compare/run.mjs < PATHS
//
// It answers `fd_write` and `proc_exit` as `wdyl exec` does, and stops a run after five seconds.

import { readFileSync } from "node:fs";
import vm from "node:vm";
import { endOf, trapOf, wasi } from "./wasi.mjs";

function ran(path) {
  const held = { output: [], memory: () => new ArrayBuffer(0) };
  const told = (end) => ({ end, output: Buffer.concat(held.output).toString("hex") });
  const bytes = readFileSync(path);
  if (!WebAssembly.validate(bytes)) return told("refused");
  let instance;
  try {
    const compiled = new WebAssembly.Module(bytes);
    const memory = WebAssembly.Module.exports(compiled).find(({ kind }) => kind === "memory");
    if (!memory) return told("hidden");
    held.memory = () => (instance ? instance.exports[memory.name].buffer : new ArrayBuffer(0));
    globalThis.open = () => new WebAssembly.Instance(compiled, { wasi_snapshot_preview1: wasi(held) });
    instance = vm.runInThisContext("open()", { timeout: 5000 });
    const entry = instance.exports._start;
    if (typeof entry !== "function" || entry.length !== 0) return told("no entry");
    globalThis.go = () => entry();
    vm.runInThisContext("go()", { timeout: 5000 });
    return told("returned");
  } catch (error) {
    if (error instanceof WebAssembly.RuntimeError && !instance) return told(`opening ${trapOf(error.message)}`);
    return told(endOf(error));
  }
}

for (const path of readFileSync(0, "utf8").split("\n").filter((line) => line)) {
  console.log(JSON.stringify(ran(path)));
}
