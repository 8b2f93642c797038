// Modules for the tests of the host library: originals that are kept, and what the program and Binaryen's pass make of them.
import { execFileSync, spawnSync } from "node:child_process";
import { mkdtempSync, readFileSync, rmSync } from "node:fs";
import { tmpdir } from "node:os";
import { join } from "node:path";
import { fileURLToPath } from "node:url";

const top = fileURLToPath(new URL("../..", import.meta.url));
/** The built program; the environment's `program` may name another. */
const program = process.env.program ?? join(top, "crates/asyncify_cli/out/asyncify_cli");
const hasBinaryen = spawnSync("wasm-opt", ["--version"]).status === 0;
/** Where Binaryen's pass isn't installed, why its tests are skipped; else false. */
export const withoutBinaryen = hasBinaryen ? false : "wasm-opt is not installed";

const originals = {
  ask: "examples/ask.wasm",
  story: "examples/story.wasm",
  repl: "examples/repl.wasm",
  calls: "tests/host/programs/calls.wasm",
  broken: "tests/host/programs/broken.wasm",
  newer: "tests/host/programs/newer.wasm",
  strands: "tests/host/programs/strands.wasm",
  compiled: "tests/rows/compiled_program_pauses_often/given/compiled.wasm",
  start: "tests/rows/pauses_that_may_not_be/given/start_sleeps.wasm",
  countdown: "tests/rows/pauses_that_may_not_be/given/countdown.wasm",
};

/** What may pause in each of them. */
const listed = {
  ask: "env.read",
  story: "env.read,env.sleep",
  repl: "wasi_snapshot_preview1.fd_read,wasi_snapshot_preview1.poll_oneoff",
  calls: "env.read,env.wide,env.sleep,env.fill",
  newer: "env.read",
  strands: "env.read",
  compiled: "env.sleep",
  start: "env.pause",
  countdown: "env.pause",
};

const folder = mkdtempSync(join(tmpdir(), "host-tests-"));
process.on("exit", () => rmSync(folder, { recursive: true }));
const made = new Map();

export const original = (name) => readFileSync(join(top, originals[name]));

/** Each way to rewrite a module that the library has to serve alike, with why it can't be tried, if it can't. */
export const rewriters = [
  { by: "all", skip: false },
  { by: "live", skip: false },
  { by: "binaryen", skip: withoutBinaryen },
];

/** The bytes of a rewritten module. */
export function rewritten(name, by = "all", imports = listed[name]) {
  const key = `${name} ${by} ${imports}`;
  if (!made.has(key)) made.set(key, rewrite(join(top, originals[name]), by, imports));
  return made.get(key);
}

function rewrite(from, by, imports) {
  const to = join(folder, `${made.size}.wasm`);
  if (by === "binaryen") {
    execFileSync("wasm-opt", ["--mvp-features", "--enable-mutable-globals", "--asyncify", `--pass-arg=asyncify-imports@${imports}`, from, "-o", to]);
  } else {
    execFileSync(program, ["transform", "--imports", imports, "--save", by, from, to]);
  }
  return readFileSync(to);
}
