// Loads and runs sets of modules, and prints a line of JSON for each: how its run ended or why it isn't run, what it wrote, the
// listing of its plan, how often it opened members, did so while one was being opened, was told errors or gave a string without
// an end, how many more steps than its own a merged module may make for what the loader did, and how many host calls it made before
// its entry was called, if it was.
//
//     node compare/load.mjs < ORDERS
//
// An order is a line of JSON: a folder, the path of the main module in it, and the options.

import { readFileSync } from "node:fs";
import vm from "node:vm";
import { Linked, Program, Refusal } from "./loader.mjs";
import { endOf, wasi } from "./wasi.mjs";

const DEFAULTS = { dl: [], path: [], pages: 1024, stack: 65536, noDuplicates: false };

function linkedOf(order) {
  process.chdir(order.folder);
  return new Linked({ ...DEFAULTS, ...order });
}

function ran(order) {
  let linked;
  try {
    linked = linkedOf(order);
  } catch (error) {
    if (error instanceof Refusal) return { end: "refused", line: error.message };
    throw error;
  }
  const held = { output: [], calls: 0 };
  const counted = ([name, given]) => [name, (...words) => (held.calls++, given(...words))];
  const program = new Program(linked, held, Object.fromEntries(Object.entries(wasi(held)).map(counted)));
  const { openings } = program;
  const told = (end) => ({
    end,
    output: Buffer.concat(held.output).toString("hex"),
    listing: linked.listing(),
    counts: openings.counts,
    more: openings.more,
    asked: openings.asked,
    begun: program.begun,
  });
  try {
    globalThis.go = () => program.run();
    vm.runInThisContext("go()", { timeout: 5000 });
    return told(endOf());
  } catch (error) {
    return told(endOf(error));
  }
}

for (const line of readFileSync(0, "utf8").split("\n").filter((text) => text)) console.log(JSON.stringify(ran(JSON.parse(line))));
