// Times a call of an import, and a pause in it: ORIGINAL ALL LIVE, tests/host/programs/calls.wasm and what the program makes of it
// under each policy. Prints lines `what: nanoseconds a call`. Hosts and modules are tried in turns, so that all meet the machine's
// changes of speed, and the least of the rounds counts.
import { readFile } from "node:fs/promises";
import { instantiate as byLibrary } from "../host/reshgonu-host.mjs";
import { instantiate as byProtocol } from "../tests/host/asyncify_wasm.mjs";

const ROUNDS = Number(process.env.RUNS ?? 15);
const CALLS = 200_000;
const PAUSES = 20_000;
const area = { at: 16, length: 1008 }; // where the other protocol has it

const [original, all, live] = await Promise.all(process.argv.slice(2).map((file) => readFile(file)));
const others = { wide: (value) => value, sleep: () => {}, fill: () => 0, plain: (value) => value };
const imports = (read) => ({ env: { ...others, read } });
const atOnce = (which) => which & 7;
const later = async (which) => which & 7;
const alone = async (source, its) => {
  const { instance } = await WebAssembly.instantiate(source, its);
  return instance;
};

/** A call of `deep_sum` of a module under a host. */
async function summing(host, source, read, depth) {
  const { exports } = await host(source, imports(read), { area });
  return (count) => exports.deep_sum(depth, count);
}

/** The promises alone, as a JavaScript program awaits them. */
async function awaiting(count) {
  let sum = 0;
  for (let index = 0; index < count; index++) sum += await later(index);
  return sum;
}

const cases = {
  "call, original": [CALLS, await summing(alone, original, atOnce, 0)],
  "call, rewritten": [CALLS, await summing(alone, all, atOnce, 0)],
  "call, library": [CALLS, await summing(byLibrary, all, atOnce, 0)],
  "call, protocol": [CALLS, await summing(byProtocol, all, atOnce, 0)],
  "await, no program": [PAUSES, awaiting],
};
for (const depth of [0, 8, 32]) {
  cases[`pause ${depth} down, library`] = [PAUSES, await summing(byLibrary, all, later, depth)];
  cases[`pause ${depth} down, library, live`] = [PAUSES, await summing(byLibrary, live, later, depth)];
  cases[`pause ${depth} down, protocol`] = [PAUSES, await summing(byProtocol, all, later, depth)];
}

const least = {};
for (let round = 0; round < ROUNDS; round++) {
  for (const [name, [count, run]] of Object.entries(cases)) {
    const before = process.hrtime.bigint();
    await run(count);
    least[name] = Math.min(least[name] ?? Infinity, Number(process.hrtime.bigint() - before) / count);
  }
}
for (const [name, time] of Object.entries(least)) console.log(`${name}: ${time.toFixed(0)}`);
