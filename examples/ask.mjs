// Runs examples/ask.c, rewritten: node ask.mjs MODULE COUNT
import { readFile } from "node:fs/promises";
import { instantiate } from "../host/reshgonu-host.mjs";

const [file, count] = process.argv.slice(2);
const wait = (milliseconds) => new Promise((done) => setTimeout(done, milliseconds));
const env = { read: async (which) => (await wait(100), 100 + which) };
const { exports } = await instantiate(await readFile(file), { env });
console.log(await exports.run(Number(count)));
