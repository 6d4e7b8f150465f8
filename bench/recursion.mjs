// Merges a module whose entry calls itself for ever, and shows that the merged module still does: an engine has a limit
// of depth, and ends it with a stack overflow.
//
//     node bench/recursion.mjs bin/wdyl

import { execFileSync } from "node:child_process";
import { mkdtempSync, readFileSync, rmSync } from "node:fs";
import { tmpdir } from "node:os";
import { join } from "node:path";
import { fileURLToPath } from "node:url";

const source = fileURLToPath(new URL("../examples/recursion/main.wasm", import.meta.url));

function ending(path) {
  const instance = new WebAssembly.Instance(new WebAssembly.Module(readFileSync(path)), {});
  try {
    instance.exports._start();
    return "returned";
  } catch (error) {
    return error.constructor.name;
  }
}

const [wdyl] = process.argv.slice(2);
if (wdyl === undefined) {
  console.error("usage: node recursion.mjs WDYL");
  process.exit(64);
}
const folder = mkdtempSync(join(tmpdir(), "wdyl-"));
try {
  const merged = join(folder, "merged.wasm");
  execFileSync(wdyl, ["merge", source, merged]);
  const ended = ending(merged);
  const kept = ended === "RangeError";
  console.log(`recursion without end: ${ended}, ${kept ? "as it should be" : "where RangeError is due"}`);
  process.exitCode = kept ? 0 : 1;
} finally {
  rmSync(folder, { recursive: true });
}
