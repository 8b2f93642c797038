// Runs `run` of a module whose imports `env.read` and `env.sleep` take time: the protocol of docs/HOSTING.md by hand, with a look at
// each place where a slip shows. (host/ has a library that does all of it.)
//
//   node host.mjs MODULE DEPTH             a rewritten module: each of these imports pauses it, with real timers
//   node host.mjs --blocking MODULE DEPTH  the original: they answer at once
import { readFile } from "node:fs/promises";

const words = process.argv.slice(2);
const blocking = words[0] === "--blocking";
const [file, depth] = blocking ? words.slice(1) : words;
const [NORMAL, UNWINDING, REWINDING] = [0, 1, 2];

const number = (which) => (which * 7919) % 101;
const slow = {
  read: async (which) => (await wait(2), number(which)),
  sleep: (milliseconds) => wait(milliseconds),
};
const wait = (milliseconds) => new Promise((done) => setTimeout(done, milliseconds));

let program; // the exports of the instance
let pauses = 0;
let pause; // the import call that pauses: its name, its arguments, and what it will be given

const state = () => program.asyncify_get_state();
// The area's two words: where frames end now, and where they have to end. Made anew each time: memory may have grown.
const area = () => new DataView(program.memory.buffer, program.area(), 8);
const used = () => area().getUint32(0, true) - program.area();
const unlisted = (what) => new Error(`${what}: is env.${pause.name} in --imports? 'asyncify run' shows such a pause`);

// An import that unwinds the stack at its first call, and gives the answer at the second, when the stack is rewound.
function pausing(name, start) {
  return (...args) => {
    if (state() === REWINDING) return resumed(name, args);
    if (state() !== NORMAL) throw unlisted(`the program went on and called ${name}`);
    pause = { name, args, answer: start(...args) };
    const at = program.area();
    area().setUint32(0, at + 8, true);
    area().setUint32(4, at + program.area_size(), true);
    program.asyncify_start_unwind(at);
    return false; // not used: serves an i32 and an i64
  };
}

function resumed(name, args) {
  if (name !== pause.name || String(args) !== String(pause.args)) {
    throw unlisted(`the program came back to ${name}(${args}) and not to ${pause.name}(${pause.args})`);
  }
  program.asyncify_stop_rewind();
  return pause.answer;
}

// Calls an export until it returns for good: each time that it comes back unwound, the answer is waited for, and the same
// export is called again with the same arguments.
async function call(name, ...args) {
  let result = entered(name, args);
  while (state() === UNWINDING) {
    program.asyncify_stop_unwind();
    if (used() === 8) throw unlisted("the stack wasn't kept");
    pauses += 1;
    pause.answer = await pause.answer;
    program.asyncify_start_rewind(program.area());
    result = entered(name, args);
  }
  if (state() !== NORMAL) throw unlisted(`${name} ended with the state ${state()}`);
  return result;
}

// Calls an export once. Where `unreachable` runs while the stack is unwound, the stack doesn't fit (or, with --asserts, a call which
// isn't rewritten led to the pause); another trap then, or one on the way back, shows that the import isn't listed.
function entered(name, args) {
  try {
    return program[name](...args);
  } catch (error) {
    if (!(error instanceof WebAssembly.RuntimeError) || state() === NORMAL) throw error;
    if (state() === REWINDING) throw unlisted(`the way back trapped (${error.message})`);
    if (!error.message.includes("unreachable")) throw unlisted(`the program went on and trapped (${error.message})`);
    throw new Error(`the area of ${program.area_size()} bytes is too small: ${used()} are used, and one frame more doesn't fit`);
  }
}

const print = (n) => console.log(`print ${n}`);
const env = blocking
  ? { read: number, sleep: () => {}, print }
  : { read: pausing("read", slow.read), sleep: pausing("sleep", slow.sleep), print };
try {
  program = (await WebAssembly.instantiate(await readFile(file), { env })).instance.exports;
  const result = blocking ? program.run(Number(depth)) : await call("run", Number(depth));
  console.log(`result ${result}`);
  if (!blocking) console.error(`${pauses} pauses`);
} catch (error) {
  console.error(`host.mjs: ${error.message}`);
  process.exitCode = 1;
}
