// Drives the page of host/page in a browser without a window: types, waits, and compares what the program printed.
//
//   node drive_page.mjs BROWSER [MODULE [PICTURE]]   MODULE is a rewritten examples/repl.wasm, else the page's own; a picture of the
//                                                    page is written into PICTURE
import assert from "node:assert/strict";
import { once } from "node:events";
import { writeFile } from "node:fs/promises";
import { pageServer } from "../../host/page/serve.mjs";
import { Browser } from "./browser.mjs";

const [command, module, picture] = process.argv.slice(2);
const output = "document.getElementById('output').textContent";
const state = "document.getElementById('state').textContent";
const frames = "Number(document.getElementById('frames').textContent)";

const server = pageServer(module ? { "/page/repl.wasm": module } : {}).listen(0, "127.0.0.1");
await once(server, "listening");
const browser = await Browser.open(command, `http://127.0.0.1:${server.address().port}/page/`);
try {
  await browser.until(`${state} === 'is paused in wasi_snapshot_preview1.fd_read'`);
  assert.equal(await browser.value(output), "> ");
  await browser.type("30");
  await browser.until(`${output}.endsWith('30\\n> ')`);
  await browser.type("12");
  await browser.until(`${output}.endsWith('42\\n> ')`);

  await browser.type("wait 20"); // two seconds, in which the page has to draw and to take what is typed
  await browser.until(`${output}.includes('19 ..\\n')`);
  assert.match(await browser.value(state), /poll_oneoff/);
  const before = await browser.value(frames);
  await browser.type("100");
  assert.equal(await browser.value("document.getElementById('line').value"), "");
  if (picture) {
    await browser.until(`${output}.includes('15 ..\\n')`);
    await writeFile(picture, await browser.picture());
  }
  await browser.until(`${output}.endsWith('142\\n> ')`);
  assert.ok((await browser.value(frames)) > before + 2, "the page stood still while the program slept");

  await browser.type("quit");
  await browser.until(`${state} === 'has ended with status 1'`);
  const countdown = Array.from({ length: 20 }, (_, step) => `${20 - step} ..\n`).join("");
  assert.equal(await browser.value(output), `> 30\n30\n> 12\n42\n> wait 20\n${countdown}done\n> 100\n142\n> quit\ntotal 142\n`);
  console.log("the page goes on while the program waits");
} finally {
  await browser.close();
  server.close();
}
