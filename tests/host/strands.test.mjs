// Calls that are paused beside one another in one instance, each in an area of its own.
import assert from "node:assert/strict";
import { describe, it, test } from "node:test";
import { AsyncifyError, instantiate } from "../../host/reshgonu-host.mjs";
import { original, rewritten, rewriters } from "./rewriting.mjs";

const number = (which) => (Math.imul(which, 7919) >>> 3) % 1000;
const soon = (value) => new Promise((done) => setImmediate(done, value));

/** Promises of answers that are kept when `answer` is called, by the number that was asked for. */
class Answers {
  #asked = new Map();

  read = (which) => new Promise((resolve, reject) => this.#asked.set(which, { resolve, reject }));

  /** Answers what was asked for by this number, and lets the program go on. */
  async give(which, value) {
    this.#take(which).resolve(value);
    await soon();
  }

  async fail(which, error) {
    this.#take(which).reject(error);
    await soon();
  }

  #take(which) {
    const asked = this.#asked.get(which);
    this.#asked.delete(which);
    return asked;
  }
}

/** The areas of strands.wasm. */
const areasOf = (count) => ({ exports }) =>
  Array.from({ length: count }, (_, which) => ({ at: exports.area_at(which), length: exports.area_length() }));

const strands = (read, { by = "all", count = 2, ...options } = {}) =>
  instantiate(rewritten("strands", by), { env: { read } }, { areas: areasOf(count), ...options });

/** What the original answers where nothing else runs beside. */
async function alone(name, ...args) {
  const { instance } = await WebAssembly.instantiate(original("strands"), { env: { read: number } });
  return instance.exports[name](...args);
}

const refused = (promise, code, words, facts = {}) =>
  assert.rejects(promise, (error) => {
    assert.ok(error instanceof AsyncifyError, String(error));
    assert.equal(error.code, code, error.message);
    assert.match(error.message, words);
    for (const [name, value] of Object.entries(facts)) assert.equal(error[name], value, name);
    return true;
  });

for (const { by, skip } of rewriters) {
  describe(`calls beside one another, rewritten by ${by}`, { skip }, () => {
    it("share memory, and go on in the order of their answers", async () => {
      const answers = new Answers();
      const { exports } = await strands(answers.read, { by });
      const [first, second] = [exports.add(1), exports.add(2)];
      await answers.give(2, 100);
      assert.equal(await second, 100);
      await answers.give(1, 10);
      assert.equal(await first, 110);
    });

    it("end alone by a trap, and the others go on", async () => {
      const answers = new Answers();
      const { exports } = await strands(answers.read, { by });
      const first = assert.rejects(exports.divide(5000, 1), WebAssembly.RuntimeError);
      const second = exports.divide(5000, 2);
      await answers.give(1, 0);
      await first;
      await refused(exports.add(3), "spent", /make a new instance/);
      await answers.give(2, 1000);
      assert.equal(await second, 5);
    });

    it("keep their arrays on one C stack, whichever ends first", async () => {
      const calls = Array.from({ length: 60 }, (_, which) => ["fold", which % 5, which * 1000]);
      const wanted = await Promise.all(calls.map((call) => alone(...call)));
      let random = 12345;
      const later = async (which) => {
        random = (Math.imul(random, 1103515245) + 12345) >>> 0;
        for (let turns = (random >>> 16) % 4; turns >= 0; turns--) await soon();
        return number(which);
      };
      const { exports, instance } = await strands(later, { by, count: 4 });
      const before = instance.exports.__stack_pointer.value;
      const results = [];
      const worker = async () => {
        for (let call = calls.shift(); call; call = calls.shift()) {
          const place = 60 - calls.length - 1;
          results[place] = await exports[call[0]](...call.slice(1));
        }
      };
      await Promise.all([worker(), worker(), worker(), worker()]);
      assert.deepEqual(results, wanted);
      assert.equal(instance.exports.__stack_pointer.value, before);
    });
  });
}

test("a call is busy where all areas have a paused one, and begins when one is free", async () => {
  const answers = new Answers();
  const { exports } = await strands(answers.read);
  const first = exports.add(1);
  const second = exports.add(2);
  await refused(exports.add(3), "busy", /add was called while add is under way \(paused in env.read\): .* an area for each call/);
  await answers.give(1, 5);
  assert.equal(await first, 5);
  const third = exports.add(3);
  await answers.give(3, 6);
  await answers.give(2, 7);
  assert.deepEqual([await third, await second], [11, 18]);
});

test("each pause tells its call and its area's length", async () => {
  const pauses = [];
  const answers = new Answers();
  const { exports } = await strands(answers.read, { onpause: ({ entry, length }) => pauses.push([entry, length]) });
  const both = [exports.add(1), exports.divide(8, 2)];
  await answers.give(2, 4);
  await answers.give(1, 3);
  assert.deepEqual(await Promise.all(both), [3, 2]);
  assert.deepEqual(pauses, [["add", 2048], ["divide", 2048]]);
});

test("a failed answer ends its call alone", async () => {
  const answers = new Answers();
  const { exports } = await strands(answers.read);
  const failure = new RangeError("no such number");
  const first = assert.rejects(exports.add(1), failure);
  const second = exports.add(2);
  await answers.fail(1, failure);
  await first;
  await answers.give(2, 4);
  assert.equal(await second, 4);
  await refused(exports.add(3), "spent", /add: an error/, { cause: failure });
});

test("an area that is too small spends paused calls as well, as the state is no longer normal", async () => {
  const answers = new Answers();
  const small = (instance) => areasOf(2)(instance).map(({ at, length }, which) => ({ at, length: which === 0 ? length : 24 }));
  const { exports } = await strands(answers.read, { areas: small });
  const first = refused(exports.add(1), "spent", /make a new instance/);
  await refused(exports.deep(9), "area-too-small", /24 bytes/, { length: 24 });
  await answers.give(1, 5);
  await first;
});

test("areas may be a list, and may not overlap", async () => {
  const areas = [{ at: 1024, length: 64 }, { at: 1088, length: 64 }];
  const answers = new Answers();
  const { exports } = await strands(answers.read, { areas });
  const both = [exports.add(1), exports.add(2)];
  await answers.give(1, 1);
  await answers.give(2, 2);
  assert.deepEqual(await Promise.all(both), [1, 3]);
  const overlapping = [areas[0], { at: 1084, length: 64 }];
  await refused(strands(answers.read, { areas: overlapping }), "no-area", /64 bytes at 1024 and of 64 at 1084 overlap/);
});

test("a signal ends all that wait", async () => {
  const answers = new Answers();
  const controller = new AbortController();
  const { exports } = await strands(answers.read, { signal: controller.signal });
  const both = [refused(exports.add(1), "aborted", /aborted/), refused(exports.add(2), "aborted", /aborted/)];
  controller.abort("enough");
  await Promise.all(both);
});
