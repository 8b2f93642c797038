// What a program does under the library, whichever imports pause it and whoever rewrote it.
import assert from "node:assert/strict";
import { describe, it, test } from "node:test";
import { instantiate } from "../../host/reshgonu-host.mjs";
import { original, rewritten, rewriters } from "./rewriting.mjs";

const soon = (value) => new Promise((done) => setImmediate(done, value));
const number = (which) => (which * 7919) % 101;
const wideNumber = (which) => BigInt.asIntN(64, which * 0x9e3779b97f4a7c15n);

/** Imports of calls.wasm that answer at once: `memory` tells where `fill` writes. */
const answers = (memory) => ({
  read: number,
  wide: wideNumber,
  sleep: () => {},
  plain: (value) => value ^ 21,
  fill: (at, length) => {
    new Uint8Array(memory().buffer, at, length).forEach((_, index, bytes) => (bytes[index] = index + 1));
    return length;
  },
});

/** The same, as promises that are kept later. */
function promises(memory) {
  const { plain, ...slow } = answers(memory);
  const later = Object.entries(slow).map(([name, answer]) => [name, async (...args) => (await soon(), answer(...args))]);
  return { plain, ...Object.fromEntries(later) };
}

/** Calls of calls.wasm, as export and arguments. */
const entries = [
  ["sum", 0], ["sum", 1], ["sum", 20], ["wide", -5n, 7], ["wide", 2n ** 62n, 3], ["mixed", 6], ["quiet", 4], ["deep", 0], ["deep", 12],
  ["through_table", 9], ["filled", 10], ["grow", 5], ["count_calls"], ["count_calls"], ["sum", 3],
];

/** What the original answers to each call in turn. */
async function wanted() {
  let memory;
  const { instance } = await WebAssembly.instantiate(original("calls"), { env: answers(() => memory) });
  memory = instance.exports.memory;
  return entries.map(([name, ...args]) => instance.exports[name](...args));
}

async function start(name, by, env, options) {
  let memory;
  const program = await instantiate(rewritten(name, by), { env: env(() => memory) }, options);
  memory = program.instance.exports.memory;
  return program;
}

for (const { by, skip } of rewriters) {
  describe(`rewritten by ${by}`, { skip }, () => {
    for (const [kind, env] of Object.entries({ answers, promises })) {
      it(`gives what the original gives, with ${kind}`, async () => {
        const { exports } = await start("calls", by, env);
        const results = [];
        for (const [name, ...args] of entries) results.push(await exports[name](...args));
        assert.deepEqual(results, await wanted());
      });
    }

    it("gives a program's trap behind a pause as it is", async () => {
      const { exports } = await start("calls", by, promises);
      await assert.rejects(exports.divide(100), WebAssembly.RuntimeError); // the number 0 is read
      await assert.rejects(exports.sum(1), { code: "spent" });
    });

    it("takes ten thousand pauses", async () => {
      let pauses = 0;
      const { exports } = await start("calls", by, () => ({ ...promises(), read: async () => 3 }), { onpause: () => pauses++ });
      assert.equal(await exports.sum(10_000), 30_000);
      assert.equal(pauses, 10_000);
    });

    it("pauses where only some calls of an import do", async () => {
      let pauses = 0;
      const env = () => ({ ...promises(), read: (which) => (which % 3 === 0 ? soon(which) : which) });
      const { exports } = await start("calls", by, env, { onpause: () => pauses++ });
      assert.equal(await exports.sum(10), 45);
      assert.equal(pauses, 4);
    });

    it("keeps two instances apart", async () => {
      const order = [];
      const env = (mark) => () => ({ ...promises(), read: async (which) => (await soon(), order.push(mark), which) });
      const programs = [await start("calls", by, env("a")), await start("calls", by, env("b"))];
      assert.deepEqual(await Promise.all(programs.map((it) => it.exports.sum(4))), [6, 6]);
      assert.equal(order.join(""), "abababab");
    });

    it("runs a story in which a tree, a table and 64-bit numbers pause", async () => {
      const printed = [[], []];
      const print = (which) => (value) => void printed[which].push(value);
      const env = (which) => () => ({ read: async (at) => number(at), sleep: () => soon(), print: print(which) });
      const { exports } = await start("story", by, env(0));
      const blocking = await WebAssembly.instantiate(original("story"), { env: { ...env(1)(), read: number, sleep: () => {} } });
      assert.equal(await exports.run(4), blocking.instance.exports.run(4));
      assert.deepEqual(printed[0], printed[1]);
    });

    it("takes modules of each form, and promises of them", async () => {
      const bytes = rewritten("ask", by);
      const typed = (type) => new Response(bytes, { headers: { "content-type": type } });
      const forms = [bytes, new Uint8Array(bytes).buffer, new WebAssembly.Module(bytes), typed("application/wasm"), typed("text/plain")];
      for (const form of [...forms, Promise.resolve(typed("application/wasm"))]) {
        const { exports } = await instantiate(form, { env: { read: async (which) => which + 1 } });
        assert.equal(await exports.run(3), 6);
      }
    });
  });
}

test("tells each pause, with the import and the bytes of stack", async () => {
  const pauses = [];
  const { exports } = await start("ask", "all", () => ({ read: async () => 5 }), { onpause: (pause) => pauses.push(pause) });
  assert.equal(await exports.run(2), 10);
  // Two words, three parameters, locals and operands each of 4 bytes more, as README's transcript has it: area 36 of 1024.
  assert.deepEqual(pauses, Array(2).fill({ entry: "run", import: "env.read", used: 36, length: 1024 }));
});

test("keeps the stack in a memory that is imported, in an area that is told", async () => {
  let asked = 0;
  const used = new Set();
  const env = { memory: new WebAssembly.Memory({ initial: 2 }), sleep: async () => asked++ };
  const options = { area: { at: 120_000, length: 4096 }, onpause: (pause) => used.add(pause.used) };
  const { exports } = await instantiate(rewritten("compiled"), { env }, options);
  assert.equal(await exports.run(1000), 499_500); // 0 to 999
  assert.deepEqual([asked, [...used]], [1000, [56]]);
});

test("goes on in a memory that the host has grown during a pause", async () => {
  const program = await start("calls", "all", () => ({
    ...promises(),
    read: async (which) => (await soon(), program.instance.exports.memory.grow(1), which),
  }));
  const { exports } = await start("calls", "all", () => ({ ...answers(), read: (which) => which }));
  assert.equal(await program.exports.deep(3), await exports.deep(3));
  assert.equal(await program.exports.sum(5), 10);
  assert.equal(program.instance.exports.memory.buffer.byteLength, (2 + 6) * 65536);
});

test("lets the engine tell of an import that isn't there", async () => {
  await assert.rejects(instantiate(rewritten("ask"), {}), { name: "LinkError", message: /read/ });
  await assert.rejects(instantiate(rewritten("ask"), { env: { read: 5 } }), { name: "LinkError", message: /read/ });
});

test("leaves what isn't a function as it is", async () => {
  const { exports, instance } = await start("calls", "all", promises);
  assert.ok(instance.exports.memory instanceof WebAssembly.Memory);
  assert.ok(!("memory" in exports) && !("asyncify_get_state" in exports));
  assert.equal(typeof exports.area, "function");
});

test("takes any thenable for a promise, and its value by WebAssembly's rules", async () => {
  const env = () => ({ ...promises(), read: () => ({ then: (kept) => setImmediate(kept, undefined) }), wide: async () => true });
  const { exports } = await start("calls", "all", env);
  assert.equal(await exports.sum(3), 0);
  assert.equal(await exports.wide(2n, 1), 63n);
});

test("tells of an argument of another type, and goes on", async () => {
  const { exports } = await start("calls", "all", promises);
  await assert.rejects(exports.wide(1, 2), TypeError);
  assert.equal(await exports.sum(2), number(1));
});

describe("a program with what compilers newer than WebAssembly 1.0 emit", () => {
  const calls = [
    ["fill", 0], ["fill", 100], ["fill", 192], ["move", 100], ["move", 0], ["move", 128],
    ...[...Array(12).keys()].map((which) => ["copy_records", which]), ["signs", 0], ["signs", 25],
  ];
  for (const by of ["all", "live"]) {
    it(`copies, fills and extends signs alike, paused and blocking, rewritten by ${by}`, async () => {
      const { instance } = await WebAssembly.instantiate(original("newer"), { env: { read: number } });
      const { exports } = await instantiate(rewritten("newer", by), { env: { read: async (which) => (await soon(), number(which)) } });
      for (const [name, ...args] of calls) assert.equal(await exports[name](...args), instance.exports[name](...args), `${name} ${args}`);
    });
  }
});
