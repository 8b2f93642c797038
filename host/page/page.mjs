// Runs the rewritten examples/repl.c on the page: what is typed is its standard input, and what it prints is shown.
import { instantiate } from "../reshgonu-host.mjs";
import { Wasi } from "../wasi.mjs";

const part = (name) => document.getElementById(name);
const show = (text) => {
  part("output").textContent += text;
  part("output").scrollTop = part("output").scrollHeight;
};

// The lines that were typed and not read yet, and the reader that waits for the next one.
const typed = [];
let wake = () => {};
document.querySelector("form").addEventListener("submit", (event) => {
  event.preventDefault();
  typed.push(`${part("line").value}\n`);
  part("line").value = "";
  wake();
});

async function* lines() {
  for (;;) {
    if (typed.length === 0) await new Promise((done) => (wake = done));
    const line = typed.shift();
    show(line);
    yield line;
  }
}

// The page draws on, whatever the program does.
function frame() {
  part("frames").textContent = Number(part("frames").textContent) + 1;
  requestAnimationFrame(frame);
}
frame();

function onpause(pause) {
  part("state").textContent = `is paused in ${pause.import}`;
  part("pauses").textContent = Number(part("pauses").textContent) + 1;
  part("used").textContent = pause.used;
}

const decoder = new TextDecoder();
const system = new Wasi({ stdin: lines(), stdout: (bytes) => show(decoder.decode(bytes, { stream: true })) });
try {
  const status = await system.start(await instantiate(fetch("repl.wasm"), system.imports, { onpause }));
  part("state").textContent = `has ended with status ${status}`;
} catch (error) {
  part("state").textContent = `has failed: ${error.message}`;
  throw error;
}
