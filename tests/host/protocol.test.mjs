// The modules under a host by the protocol of the npm package asyncify-wasm: four programs give what they give under the library.
import assert from "node:assert/strict";
import { test } from "node:test";
import * as library from "../../host/reshgonu-host.mjs";
import { Wasi } from "../../host/wasi.mjs";
import * as protocol from "./asyncify_wasm.mjs";
import { rewritten, rewriters } from "./rewriting.mjs";

const soon = (value) => new Promise((done) => setImmediate(done, value));

/** Runs of the programs by a host: each answers what is to be compared. */
const runs = {
  ask: async ({ instantiate }, bytes) => {
    const { exports } = await instantiate(bytes, { env: { read: (which) => soon(which * 3) } });
    return [await exports.run(4), await exports.run(5)];
  },
  story: async ({ instantiate }, bytes) => {
    const printed = [];
    const env = { read: (which) => soon((which * 7919) % 101), sleep: () => soon(), print: (value) => void printed.push(value) };
    const { exports } = await instantiate(bytes, { env });
    return [await exports.run(3), printed];
  },
  calls: async ({ instantiate }, bytes) => {
    const env = { read: soon, wide: soon, sleep: () => soon(), plain: (value) => value + 1, fill: (at, length) => soon(length) };
    const { exports } = await instantiate(bytes, { env });
    const results = [];
    for (const [name, argument] of [["sum", 9], ["mixed", 5], ["deep", 6], ["through_table", 8], ["grow", 3], ["quiet", 2]]) {
      results.push(await exports[name](argument));
    }
    return results;
  },
  repl: async ({ instantiate }, bytes) => {
    let printed = "";
    const stdout = (text) => void (printed += new TextDecoder().decode(text));
    const system = new Wasi({ stdin: ["5\n", "7", "0\nwait 1\nquit\n"], stdout });
    return [await system.start(await instantiate(bytes, system.imports)), printed];
  },
};

for (const { by, skip } of rewriters) {
  for (const [name, run] of Object.entries(runs)) {
    test(`${name}, rewritten by ${by}`, { skip }, async () => {
      assert.deepEqual(await run(protocol, rewritten(name, by)), await run(library, rewritten(name, by)));
    });
  }
}
