// Runs a merged module with the WASI that node has, beside examples/programs/wasi.mjs. The arguments are those of that.
//
//     node --no-warnings compare/node_wasi.mjs MERGED [ARGS]
//
// Where the memory of a module has grown, node 20.20.2 may abort in a call of its WASI, but for the flag that is set here.

import { readFileSync } from "node:fs";
import { setFlagsFromString } from "node:v8";
import { WASI } from "node:wasi";

setFlagsFromString("--no-turbo-fast-api-calls");
const [path, ...words] = process.argv.slice(2);
const wasi = new WASI({ version: "preview1", args: ["program", ...words] });
const merged = new WebAssembly.Module(readFileSync(path));
process.exitCode = wasi.start(new WebAssembly.Instance(merged, wasi.getImportObject()));
