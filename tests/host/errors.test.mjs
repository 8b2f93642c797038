// Each error of the library, by a program or a host that makes the mistake.
import assert from "node:assert/strict";
import { getEventListeners } from "node:events";
import { describe, it, test } from "node:test";
import { AsyncifyError, ImportTrap, instantiate } from "../../host/reshgonu-host.mjs";
import { original, rewritten, rewriters, withoutBinaryen } from "./rewriting.mjs";

const soon = (value) => new Promise((done) => setImmediate(done, value));
const never = () => new Promise(() => {});

const env = { read: soon, wide: soon, sleep: () => soon(), fill: (at, length) => soon(length), plain: (value) => value };
const calls = (options, others = {}) => instantiate(rewritten("calls"), { env: { ...env, ...others } }, options);

/** Wants an AsyncifyError with this code, these words in its message, and these facts. */
function refused(promise, code, words, facts = {}) {
  return assert.rejects(promise, (error) => {
    assert.ok(error instanceof AsyncifyError && error instanceof Error, String(error));
    assert.equal(error.code, code, error.message);
    assert.match(error.message, words);
    for (const [name, value] of Object.entries(facts)) assert.equal(error[name], value, name);
    return true;
  });
}

test("not-rewritten", async () => {
  await refused(instantiate(original("ask"), { env }), "not-rewritten", /doesn't export asyncify_start_unwind: rewrite it/);
});

describe("no-area", () => {
  it("comes when an import is to pause, where the module tells none", async () => {
    const area = { at: 0, length: 64 };
    const { exports } = await instantiate(rewritten("countdown"), { env: { pause: () => soon(1) } });
    const words = /env.pause returned a promise.* export functions 'area' and 'area_size'/;
    await refused(exports.run(3), "no-area", words, { import: "env.pause" });
    const told = instantiate(rewritten("countdown"), { env: { pause: never } }, { area });
    await refused(told, "no-area", /memory, in which the area is, is neither exported nor imported/);
  });

  it("doesn't come where nothing pauses", async () => {
    const { exports } = await instantiate(rewritten("countdown"), { env: { pause: (value) => value } });
    assert.equal(await exports.run(3), 6);
  });

  const wrong = [
    [{ at: 1026, length: 64 }, /64 bytes at 1026 doesn't begin at a multiple of 4/],
    [{ at: -4, length: 64 }, /multiple of 4/],
    [{ at: 1024, length: 7 }, /needs 8 bytes/],
    [{ at: 2 * 65536 - 4, length: 8 }, /8 bytes at 131068 reaches past the memory of 131072 bytes/],
  ];
  for (const [area, words] of wrong) {
    it(`comes for the area of ${area.length} bytes at ${area.at}`, () => refused(calls({ area }), "no-area", words));
  }
});

describe("area-too-small", () => {
  /** How much of an ample area a pause below this depth takes. */
  async function usedBelow(depth, by) {
    let used;
    const { exports } = await instantiate(rewritten("calls", by), { env }, { onpause: (pause) => (used = pause.used) });
    await exports.deep(depth);
    return used;
  }

  for (const { by, skip } of rewriters) {
    for (const depth of [0, 1, 9]) {
      it(`comes by one byte, ${depth} calls down, rewritten by ${by}`, { skip }, async () => {
        const used = await usedBelow(depth, by);
        const within = (length) => instantiate(rewritten("calls", by), { env }, { area: { at: 1024, length } });
        const before = await (await calls()).exports.deep(depth);
        assert.equal(await (await within(used)).exports.deep(depth), before);
        const { exports } = await within(used - 1);
        const wanted = by === "binaryen" || depth === 0 ? used : undefined;
        const facts = { import: "env.read", length: used - 1, ...(wanted && { wanted }) };
        const words = /too small for the stack when env.read pauses: it takes at least \d+\. Make the area larger/;
        await refused(exports.deep(depth), "area-too-small", words, facts);
        await refused(exports.deep(0), "spent", /make a new instance/);
      });
    }
  }

  it("wants at least what is told, which is more than there was", async () => {
    const used = await usedBelow(9, "all");
    for (let length = 8; length < used; length += 5) {
      const { exports } = await calls({ area: { at: 1024, length } });
      const error = await exports.deep(9).catch((it) => it);
      assert.equal(error.code, "area-too-small");
      assert.ok(error.wanted > length && error.wanted <= used, `${error.wanted} for ${length} of ${used}`);
      assert.ok(error.cause instanceof WebAssembly.RuntimeError);
    }
  });

  it("tells exactly what is wanted where the stack was written past the area", { skip: withoutBinaryen }, async () => {
    const wanted = await usedBelow(9, "binaryen");
    const { exports } = await instantiate(rewritten("calls", "binaryen"), { env }, { area: { at: 1024, length: 8 } });
    await refused(exports.deep(9), "area-too-small", /at least/, { wanted, used: wanted, length: 8 });
  });

  it("lets the promise that nobody waits for fail unheard", async () => {
    const read = async () => (await soon(), Promise.reject(new Error("nobody hears it")));
    const { exports } = await calls({ area: { at: 1024, length: 8 } }, { read });
    await refused(exports.sum(1), "area-too-small", /env.read/);
    await soon();
  });

  it("comes for ask.c with 35 bytes, and not with 36", async () => {
    const ask = (length) => instantiate(rewritten("ask"), { env }, { area: { at: 1024, length } });
    assert.equal(await (await ask(36)).exports.run(3), 3);
    await refused((await ask(35)).exports.run(3), "area-too-small", /area of 35 bytes .* at least 36/, { used: 8, wanted: 36 });
  });
});

describe("unlisted-pause", () => {
  // `env.sleep` alone is listed, and `env.read` pauses as well.
  const mistakes = [
    ["once", 5, /no function kept its place when env.read paused/],
    ["at_once", 5, /the program called env.sleep when env.read had paused it/],
    ["sum", 5, /the program called env.read when env.read had paused it/],
    ["behind", 5, /the program called env.sleep when env.read had paused it/],
    ["divides", 5, /the program trapped when env.read had paused it/],
  ];
  for (const by of ["all", "live", "binaryen"]) {
    for (const [name, argument, words] of mistakes) {
      it(`is found in ${name}, rewritten by ${by}`, { skip: by === "binaryen" && withoutBinaryen }, async () => {
        const { exports } = await instantiate(rewritten("calls", by, "env.sleep"), { env });
        await refused(exports[name](argument), "unlisted-pause", words, { import: "env.read" });
        await refused(exports.quiet(1), "spent", /new instance/);
      });
    }
  }

  it("is named as well where a trap looks like an area that is too small", async () => {
    const { exports } = await instantiate(rewritten("calls", "all", "env.sleep"), { env });
    await refused(exports.checks(5), "area-too-small", /Where it is ample, env.read isn't among the rewriting's '--imports'/, { used: 8 });
  });

  const broken = [
    [0, undefined],
    [1, /came back to env.read with other arguments \(1\) than it had \(0\)/],
    [2, /called env.sleep where it should have come back to env.read/],
    [3, /run ended without coming back to env.read/],
    [4, /trapped on its way back to env.read/],
    [5, /called env.read before its stack was rewound/],
    [6, /run ended with the state 1/],
  ];
  for (const [way, words] of broken) {
    it(`is found in a program that breaks the protocol by way ${way}`, async () => {
      const { exports } = await instantiate(original("broken"), { env });
      if (words) await refused(exports.run(way), "unlisted-pause", words);
      else assert.equal(await exports.run(way), 5);
    });
  }
});

test("pause-in-start", async () => {
  const start = (pause) => instantiate(rewritten("start"), { env: { pause } });
  const words = /env.pause returned a promise in the module's start function/;
  await refused(start(() => soon(1)), "pause-in-start", words, { import: "env.pause" });
  await refused(start(() => Promise.reject(new Error("nobody hears it"))), "pause-in-start", /start function/);
  await start(() => 1);
});

describe("no-entry", () => {
  it("comes where an export of the instance itself is called", async () => {
    const { instance, exports } = await calls();
    assert.throws(() => instance.exports.sum(1), { code: "no-entry", import: "env.read" });
    assert.equal(await exports.sum(3), 3);
    assert.equal(instance.exports.quiet(3), 4);
  });

  it("comes where an import calls one", async () => {
    const program = await calls({}, { plain: () => program.instance.exports.sum(1) });
    await assert.rejects(program.exports.quiet(1), { code: "no-entry", message: /that the import env.plain made/ });
  });
});

describe("busy", () => {
  it("comes for a second call during a pause, which goes on", async () => {
    const { exports } = await calls();
    const first = exports.sum(4);
    await refused(exports.quiet(1), "busy", /quiet was called while sum is under way \(paused in env.read\)/);
    assert.equal(await first, 6);
    assert.equal(await exports.quiet(1), 2);
  });

  it("comes for a call out of an import", async () => {
    const nested = [];
    const program = await calls({}, { plain: () => nested.push(program.exports.sum(1).catch((error) => error)) });
    await program.exports.mixed(2); // calls env.plain in front of a pause and behind it
    assert.equal(nested.length, 3);
    for (const error of await Promise.all(nested)) {
      assert.equal(error.code, "busy");
      assert.match(error.message, /sum was called while mixed is under way:/);
    }
  });
});

describe("an import that fails", () => {
  const failure = new RangeError("no such number");
  const kinds = {
    rejects: () => Promise.reject(failure),
    "rejects later": () => soon().then(() => Promise.reject(failure)),
    throws: () => {
      throw failure;
    },
  };
  for (const [kind, read] of Object.entries(kinds)) {
    it(`that ${kind} fails the call with its error, and spends the instance`, async () => {
      const { exports } = await calls({}, { read });
      await assert.rejects(exports.sum(2), failure);
      await refused(exports.quiet(1), "spent", /quiet: an error has left the program in the middle/, { cause: failure });
    });
  }

  it("by a value of another type spends it too", async () => {
    const { exports } = await calls({}, { wide: async () => 5 });
    await assert.rejects(exports.wide(1n, 1), TypeError);
    await refused(exports.quiet(1), "spent", /new instance/);
  });
});

describe("import-trap", () => {
  const gone = new ImportTrap("disk gone");
  const facts = { import: "env.read", cause: gone };
  const kinds = {
    throws: () => {
      throw gone;
    },
    rejects: () => Promise.reject(gone),
    "rejects later": () => soon().then(() => Promise.reject(gone)),
  };
  for (const { by, skip } of rewriters) {
    for (const [kind, read] of Object.entries(kinds)) {
      it(`comes where an import ${kind} with an ImportTrap, rewritten by ${by}`, { skip }, async () => {
        const { exports } = await instantiate(rewritten("calls", by), { env: { ...env, read } });
        await refused(exports.deep(3), "import-trap", /env.read trapped: disk gone/, facts);
        await refused(exports.quiet(1), "spent", /new instance/);
      });
    }

    it(`leaves the stack rewound and the state normal behind a pause, rewritten by ${by}`, { skip }, async () => {
      const read = (which) => (which < 2 ? soon(which) : soon().then(() => Promise.reject(gone)));
      const { instance, exports } = await instantiate(rewritten("calls", by), { env: { ...env, read } });
      await refused(exports.sum(5), "import-trap", /disk gone/, facts);
      const area = instance.exports.area();
      assert.equal(instance.exports.asyncify_get_state(), 0);
      assert.equal(new DataView(instance.exports.memory.buffer).getUint32(area, true), area + 8);
    });
  }

  it("keeps what the import has written by then", async () => {
    const written = new Uint8Array([1, 2, 3, 4]);
    let place;
    const program = await calls({}, {
      fill: async (at) => {
        await soon();
        place = at;
        new Uint8Array(program.instance.exports.memory.buffer).set(written, at);
        throw gone;
      },
    });
    await refused(program.exports.filled(4), "import-trap", /env.fill trapped/, { import: "env.fill" });
    assert.deepEqual(new Uint8Array(program.instance.exports.memory.buffer, place, 4), written);
  });

  it("comes out of a start function and of an export of the instance itself as well", async () => {
    const pause = () => {
      throw gone;
    };
    await refused(instantiate(rewritten("start"), { env: { pause } }), "import-trap", /env.pause trapped/, { import: "env.pause" });
    const { instance } = await calls({}, { plain: pause });
    assert.throws(() => instance.exports.quiet(1), { code: "import-trap", import: "env.plain" });
  });
});

describe("aborted", () => {
  it("ends a pause, and refuses what comes later", async () => {
    const controller = new AbortController();
    const { exports } = await calls({ signal: controller.signal }, { read: never });
    const call = exports.sum(1);
    setImmediate(() => controller.abort("enough"));
    await refused(call, "aborted", /aborted/, { cause: "enough" });
    await refused(exports.quiet(1), "spent", /new instance/);
  });

  it("isn't listened for when the pause is over", async () => {
    const { signal } = new AbortController();
    const { exports } = await calls({ signal });
    assert.equal(await exports.sum(3), 3);
    await soon();
    assert.equal(getEventListeners(signal, "abort").length, 0);
  });

  it("comes before a call, before an instance, and at the next pause", async () => {
    const controller = new AbortController();
    const { signal } = controller;
    const idle = await calls({ signal });
    assert.equal(await idle.exports.sum(3), 3);
    const running = await calls({ signal }, { plain: () => controller.abort() });
    await refused(running.exports.mixed(2), "aborted", /aborted/);
    await refused(idle.exports.quiet(1), "aborted", /aborted/);
    await refused(calls({ signal }), "aborted", /aborted/);
  });
});

test("what onpause throws fails the call", async () => {
  const failure = new Error("shown nowhere");
  const onpause = () => {
    throw failure;
  };
  const { exports } = await calls({ onpause });
  await assert.rejects(exports.sum(1), failure);
});

test("a response that isn't a module says so", async () => {
  await assert.rejects(instantiate(new Response("nothing here", { status: 404 })), /answered with status 404/);
});
