// Compiles and runs a merged module, and prints how it ended and the size of its memory.
//
//     node examples/run.mjs merged.wasm [OUTPUT]
//
// A merged module exports `_start` and `memory` alone. What it puts to the output is printed, and kept in the file OUTPUT.

import { readFileSync, writeFileSync } from "node:fs";
import { run } from "./programs/wasi.mjs";

const paths = process.argv.slice(2);
if (paths.length < 1 || paths.length > 2) {
  console.error("usage: node run.mjs MERGED [OUTPUT]");
  process.exit(64);
}
const [path, kept] = paths;
const bytes = readFileSync(path);
const exports = WebAssembly.Module.exports(new WebAssembly.Module(bytes)).map(({ name }) => name);
const { status, output, error, memory } = await run(bytes);
process.stdout.write(output);
if (kept !== undefined) writeFileSync(kept, output);
console.log(`exports: ${exports.join(", ")}`);
console.log(`ended: ${error ? `${error.constructor.name}: ${error.message}` : status ? `exit ${status}` : "returned"}`);
const size = memory.buffer.byteLength;
console.log(`memory: ${size / 65536} pages, ${size} bytes`);
