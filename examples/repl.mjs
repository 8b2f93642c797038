// Runs examples/repl.c, rewritten, over standard input and output as they come: node repl.mjs MODULE
import { readFile } from "node:fs/promises";
import { instantiate } from "../host/reshgonu-host.mjs";
import { Wasi } from "../host/wasi.mjs";

const system = new Wasi({ stdin: process.stdin, stdout: (bytes) => process.stdout.write(bytes) });
process.exitCode = await system.start(await instantiate(await readFile(process.argv[2]), system.imports));
