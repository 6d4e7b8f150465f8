// Runs a merged module in the shell of an engine by examples/programs/wasi.mjs, and prints what it put out and how it ended.
//
//     node compare/engine.mjs MERGED INPUT [ARGS]
//     jsc compare/engine.mjs -- MERGED INPUT [ARGS]
//     gjs -m compare/engine.mjs -- MERGED INPUT [ARGS]
//
// jsc has no TextEncoder, and gjs compiles no module in the background: both are put in here. gjs hands on `--` as a word.

async function shell() {
  if (globalThis.process?.versions?.node) {
    const { readFileSync } = await import("node:fs");
    return { words: process.argv.slice(2), read: (path) => readFileSync(path), print: (text) => console.log(text) };
  }
  if (typeof imports !== "undefined") {
    const [{ default: GLib }, { programArgs }] = [await import("gi://GLib"), (await import("system")).default];
    WebAssembly.compile = async (bytes) => new WebAssembly.Module(bytes);
    WebAssembly.instantiate = async (compiled, given) => new WebAssembly.Instance(compiled, given);
    return { words: programArgs.slice(programArgs.indexOf("--") + 1), read: (path) => GLib.file_get_contents(path)[1], print };
  }
  globalThis.TextEncoder = class {
    encode(text) { return Uint8Array.from(unescape(encodeURIComponent(text)), (letter) => letter.charCodeAt(0)); }
  };
  return { words: globalThis.arguments, read: (path) => readFile(path, "binary"), print };
}

const { words: [merged, input, ...args], read, print: show } = await shell();
const { run } = await import("../examples/programs/wasi.mjs");
const { status, output, error } = await run(read(merged), args, read(input));
const text = Array.from(output, (letter) => String.fromCharCode(letter)).join("");
show(`${text}status: ${status}${error && status === 65 ? ` ${error}` : ""}`);
