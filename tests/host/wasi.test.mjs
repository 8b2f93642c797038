// The system of wasi.mjs: call by call, and under a program of wasi-libc that reads what is typed and sleeps.
import assert from "node:assert/strict";
import { spawn } from "node:child_process";
import { once } from "node:events";
import { mkdtempSync, rmSync, writeFileSync } from "node:fs";
import { tmpdir } from "node:os";
import { join } from "node:path";
import { describe, it, test } from "node:test";
import { fileURLToPath } from "node:url";
import { instantiate } from "../../host/reshgonu-host.mjs";
import { Exit, Wasi } from "../../host/wasi.mjs";
import { rewritten, rewriters } from "./rewriting.mjs";

/** A system with a memory of one page, its calls, and the memory's bytes. */
function system(given) {
  const memory = new WebAssembly.Memory({ initial: 1 });
  const wasi = new Wasi(given);
  wasi.attach({ exports: { memory } });
  const view = new DataView(memory.buffer);
  const text = (at, length) => new TextDecoder().decode(new Uint8Array(memory.buffer, at, length));
  const put = (at, ...words) => words.forEach((it, index) => view.setUint32(at + 4 * index, it, true));
  return { memory, view, text, put, calls: wasi.imports.wasi_snapshot_preview1 };
}

test("words and environment", () => {
  const { calls, view, text } = system({ args: ["it", "-x"], env: { HOME: "/", Ä: "ö" } });
  assert.equal(calls.args_sizes_get(0, 4), 0);
  assert.deepEqual([view.getUint32(0, true), view.getUint32(4, true)], [2, 6]);
  assert.equal(calls.args_get(16, 64), 0);
  assert.deepEqual([view.getUint32(16, true), view.getUint32(20, true), text(64, 6)], [64, 67, "it\0-x\0"]);
  assert.equal(calls.environ_sizes_get(0, 4), 0);
  assert.deepEqual([view.getUint32(0, true), view.getUint32(4, true)], [2, 13]);
  assert.equal(calls.environ_get(16, 128), 0);
  assert.equal(text(128, 13), "HOME=/\0Ä=ö\0");
});

test("times", () => {
  const { calls, view } = system();
  const now = () => (assert.equal(calls.clock_time_get(0, 0n, 0), 0), Number(view.getBigUint64(0, true) / 1_000_000n));
  assert.ok(Math.abs(now() - Date.now()) < 1000);
  calls.clock_time_get(1, 0n, 8);
  calls.clock_time_get(1, 0n, 16);
  assert.ok(view.getBigUint64(8, true) <= view.getBigUint64(16, true));
  assert.equal(calls.clock_res_get(1, 8), 0);
  assert.equal(view.getBigUint64(8, true), 1000n);
});

test("random bytes, more than a browser gives at once", () => {
  const { calls, memory } = system();
  memory.grow(2);
  assert.equal(calls.random_get(8, 70_000), 0);
  const bytes = new Uint8Array(memory.buffer, 8, 70_001);
  assert.ok(bytes.subarray(69_900, 70_000).some((it) => it !== 0));
  assert.equal(bytes[70_000], 0);
});

describe("fd_write", () => {
  it("writes pieces in order, to the sink of the file", () => {
    const written = [[], []];
    const [stdout, stderr] = written.map((all) => (bytes) => void all.push(new TextDecoder().decode(bytes)));
    const { calls, put, view, memory } = system({ stdout, stderr });
    new TextEncoder().encodeInto("hello world", new Uint8Array(memory.buffer, 100));
    put(0, 100, 5, 105, 6);
    assert.equal(calls.fd_write(1, 0, 2, 40), 0);
    assert.equal(view.getUint32(40, true), 11);
    assert.equal(calls.fd_write(2, 8, 1, 40), 0);
    assert.deepEqual(written, [["hello world"], [" world"]]);
    assert.equal(calls.fd_write(3, 0, 2, 40), 8);
    assert.equal(calls.fd_write(0, 0, 2, 40), 8);
  });

  it("waits for a sink that returns a promise", async () => {
    let keep;
    const { calls, put } = system({ stdout: () => new Promise((done) => (keep = done)) });
    put(0, 100, 5);
    const call = calls.fd_write(1, 0, 1, 40);
    keep("all of it");
    assert.equal(await call, 0);
  });
});

describe("fd_read", () => {
  const read = async ({ calls, put, view, text }, length) => {
    put(0, 100, 2, 102, length - 2);
    const call = calls.fd_read(0, 0, 2, 40);
    assert.equal(await call, 0);
    return [text(100, view.getUint32(40, true)), typeof call === "number"];
  };

  it("answers at once with what has come, and waits for more", async () => {
    const given = system({ stdin: ["abcdef", "", new Uint8Array([103, 104])] });
    assert.deepEqual(await read(given, 4), ["abcd", false]);
    assert.deepEqual(await read(given, 4), ["ef", true]);
    assert.deepEqual(await read(given, 4), ["gh", false]);
    assert.deepEqual(await read(given, 4), ["", false]);
    assert.deepEqual(await read(given, 4), ["", true]);
    assert.equal(given.calls.fd_read(1, 0, 2, 40), 8);
  });

  it("writes into a memory that has grown meanwhile", async () => {
    let come;
    const given = system({ stdin: (async function* () { yield await new Promise((done) => (come = done)); })() });
    given.put(0, 65536, 4);
    const call = given.calls.fd_read(0, 0, 1, 40);
    given.memory.grow(1);
    await new Promise((done) => setImmediate(done));
    come("late");
    assert.equal(await call, 0);
    assert.equal(new TextDecoder().decode(new Uint8Array(given.memory.buffer, 65536, 4)), "late");
  });

  it("fails as its source fails", async () => {
    const given = system({ stdin: (async function* () { throw new Error("torn"); })() });
    given.put(0, 100, 4);
    await assert.rejects(given.calls.fd_read(0, 0, 1, 40), /torn/);
  });
});

describe("poll_oneoff", () => {
  const MILLISECOND = 1_000_000n;
  /** Puts a subscription at a place: to a time, or to a file. */
  function subscribe({ view, put }, at, userdata, { kind, clock, file, timeout, absolute }) {
    view.setBigUint64(at, userdata, true);
    view.setUint8(at + 8, kind);
    put(at + 16, clock ?? file);
    view.setBigUint64(at + 24, timeout ?? 0n, true);
    view.setUint16(at + 40, absolute ? 1 : 0, true);
  }
  /** The events that came: userdata, error and kind of each. */
  async function poll({ calls, view }, count) {
    assert.equal(await calls.poll_oneoff(0, 1024, count, 2048), 0);
    return Array.from({ length: view.getUint32(2048, true) }, (_, index) => {
      const at = 1024 + 32 * index;
      return [view.getBigUint64(at, true), view.getUint16(at + 8, true), view.getUint8(at + 10)];
    });
  }

  it("waits for the first of two times", async () => {
    const given = system();
    subscribe(given, 0, 7n, { kind: 0, clock: 1, timeout: 10_000n * MILLISECOND });
    subscribe(given, 48, 8n, { kind: 0, clock: 0, timeout: BigInt(Date.now() + 30) * MILLISECOND, absolute: true });
    const before = performance.now();
    assert.deepEqual(await poll(given, 2), [[8n, 0, 0]]);
    const taken = performance.now() - before;
    assert.ok(taken > 15 && taken < 5_000, `${taken} ms`);
  });

  it("gives the event loop a turn where the time is over already", async () => {
    const given = system();
    subscribe(given, 0, 1n, { kind: 0, clock: 1, timeout: 0n });
    let turned = false;
    setImmediate(() => (turned = true));
    assert.deepEqual(await poll(given, 1), [[1n, 0, 0]]);
    assert.ok(turned || (await new Promise((done) => setImmediate(() => done(turned)))));
  });

  it("waits for input or for a time, whatever comes first", async () => {
    let come;
    const given = system({ stdin: (async function* () { yield await new Promise((done) => (come = done)); })() });
    subscribe(given, 0, 1n, { kind: 1, file: 0 });
    subscribe(given, 48, 2n, { kind: 0, clock: 1, timeout: 5n * MILLISECOND });
    assert.deepEqual(await poll(given, 2), [[2n, 0, 0]]);
    subscribe(given, 48, 2n, { kind: 0, clock: 1, timeout: 10_000n * MILLISECOND });
    setTimeout(() => come("x"), 5);
    assert.deepEqual(await poll(given, 2), [[1n, 0, 1]]);
    assert.equal(given.view.getBigUint64(1024 + 16, true), 1n);
    assert.ok(!process.getActiveResourcesInfo().includes("Timeout"), "the timer is left");
  });

  it("answers at once for what can be written, and for a file that isn't there", async () => {
    const given = system();
    subscribe(given, 0, 1n, { kind: 2, file: 1 });
    subscribe(given, 48, 2n, { kind: 1, file: 9 });
    subscribe(given, 96, 3n, { kind: 0, clock: 1, timeout: 10_000n * MILLISECOND });
    assert.deepEqual(await poll(given, 3), [[1n, 0, 2], [2n, 8, 1]]);
    assert.equal(given.calls.poll_oneoff(0, 1024, 0, 2048), 28);
  });
});

test("files, and calls that aren't there", () => {
  const { calls, view } = system();
  assert.equal(calls.fd_fdstat_get(0, 0), 0);
  assert.deepEqual([view.getUint8(0), view.getBigUint64(8, true)], [2, (1n << 27n) | 2n]);
  assert.deepEqual([calls.fd_fdstat_get(3, 0), calls.fd_seek(1, 0n, 0, 0), calls.fd_close(2), calls.fd_prestat_get(3, 0)], [8, 70, 0, 8]);
  assert.equal(calls.path_open(3), 52);
  assert.equal(calls.sched_yield(), 0);
  assert.throws(() => calls.proc_exit(3), (error) => error instanceof Exit && error.status === 3);
});

for (const { by, skip } of rewriters) {
  test(`a program of wasi-libc that reads, sleeps and ends with a status, rewritten by ${by}`, { skip }, async () => {
    let printed = "";
    const pauses = {};
    const given = { stdin: ["4\n", "5", "\nwait 2\nhm\nquit\n"], stdout: (bytes) => void (printed += new TextDecoder().decode(bytes)) };
    const onpause = (pause) => (pauses[pause.import] = (pauses[pause.import] ?? 0) + 1);
    const wasi = new Wasi(given);
    assert.equal(await wasi.start(await instantiate(rewritten("repl", by), wasi.imports, { onpause })), 1);
    assert.equal(printed, "> 4\n> 9\n> 2 ..\n1 ..\ndone\n> a number, 'wait' and a number, or 'quit'\n> total 9\n");
    assert.deepEqual(pauses, { "wasi_snapshot_preview1.fd_read": 3, "wasi_snapshot_preview1.poll_oneoff": 2 });
  });
}

test("its end of input, and status 0", async () => {
  const wasi = new Wasi();
  assert.equal(await wasi.start(await instantiate(rewritten("repl"), wasi.imports)), 0);
});

test("examples/repl.mjs answers each line before the next one is typed", async () => {
  const folder = mkdtempSync(join(tmpdir(), "repl-"));
  writeFileSync(join(folder, "repl.wasm"), rewritten("repl", "live"));
  const child = spawn(process.execPath, [fileURLToPath(new URL("../../examples/repl.mjs", import.meta.url)), join(folder, "repl.wasm")]);
  const ended = once(child, "exit");
  child.stdout.setEncoding("utf8");
  let printed = "";
  const until = async (end) => {
    while (!printed.endsWith(end)) printed += (await once(child.stdout, "data"))[0];
  };
  await until("> ");
  for (const [line, answer] of [["30", "30\n> "], ["12", "42\n> "], ["wait 1", "1 ..\ndone\n> "]]) {
    child.stdin.write(`${line}\n`);
    await until(answer);
  }
  child.stdin.write("quit\n"); // and standard input stays open
  await until("total 42\n");
  assert.equal((await ended)[0], 1);
  rmSync(folder, { recursive: true });
});
