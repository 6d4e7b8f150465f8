// Runs a module that ends by `proc_exit`, and exits with its code.
//
//     node bench/exec/run.mjs MODULE

import { readFileSync } from "node:fs";

let result = 0;
const imports = { wasi_snapshot_preview1: { proc_exit: (code) => { result = code; } } };
const compiled = new WebAssembly.Module(readFileSync(process.argv[2]));
new WebAssembly.Instance(compiled, imports).exports._start();
process.exit(result & 255);
