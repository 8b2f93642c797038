// A browser without a window, driven by Chromium's debugging protocol over a pipe.
import { spawn } from "node:child_process";
import { mkdtemp, rm } from "node:fs/promises";
import { tmpdir } from "node:os";
import { join } from "node:path";

/** How long a page may take to do what is waited for. */
const PATIENCE = 20_000;

export class Browser {
  #process;
  #folder;
  #pending = new Map();
  #number = 0;
  #session;

  /** Starts a browser and opens a page in it. */
  static async open(command, url) {
    const browser = new Browser();
    await browser.#start(command);
    const { targetId } = await browser.#send("Target.createTarget", { url: "about:blank" });
    const { sessionId } = await browser.#send("Target.attachToTarget", { targetId, flatten: true });
    browser.#session = sessionId;
    await browser.#send("Emulation.setDeviceMetricsOverride", { width: 760, height: 660, deviceScaleFactor: 1, mobile: false });
    await browser.#send("Page.navigate", { url });
    return browser;
  }

  async #start(command) {
    this.#folder = await mkdtemp(join(tmpdir(), "browser-"));
    const options = ["--headless", "--remote-debugging-pipe", `--user-data-dir=${this.#folder}`, "--disable-gpu", "--no-first-run"];
    if (process.getuid?.() === 0) options.push("--no-sandbox"); // Chromium has no sandbox for root
    this.#process = spawn(command, options, { stdio: ["ignore", "ignore", "ignore", "pipe", "pipe"] });
    this.#process.on("error", (error) => this.#failAll(error));
    this.#process.on("exit", () => this.#failAll(new Error("the browser has ended")));
    this.#process.stdio[3].on("error", (error) => this.#failAll(error));
    let rest = "";
    this.#process.stdio[4].setEncoding("utf8").on("data", (text) => {
      const messages = (rest + text).split("\0");
      rest = messages.pop();
      messages.forEach((it) => this.#receive(JSON.parse(it)));
    });
  }

  #receive({ id, result, error }) {
    const waiting = this.#pending.get(id);
    if (!waiting) return;
    this.#pending.delete(id);
    if (error) waiting.reject(new Error(error.message));
    else waiting.resolve(result);
  }

  #failAll(error) {
    for (const { reject } of this.#pending.values()) reject(error);
    this.#pending.clear();
  }

  #send(method, params = {}) {
    const id = ++this.#number;
    const answer = new Promise((resolve, reject) => this.#pending.set(id, { resolve, reject }));
    this.#process.stdio[3].write(`${JSON.stringify({ id, method, params, sessionId: this.#session })}\0`);
    return answer;
  }

  /** What an expression is on the page. */
  async value(expression) {
    const { result, exceptionDetails } = await this.#send("Runtime.evaluate", { expression, returnByValue: true, awaitPromise: true });
    if (exceptionDetails) throw new Error(exceptionDetails.exception?.description ?? exceptionDetails.text);
    return result.value;
  }

  /** Waits until an expression holds on the page. */
  async until(expression) {
    const end = Date.now() + PATIENCE;
    while (!(await this.value(expression).catch(() => false))) {
      if (Date.now() > end) {
        throw new Error(`the page didn't come to ${expression}; it shows:\n${await this.value("document.body.innerText")}`);
      }
      await new Promise((done) => setTimeout(done, 20));
    }
  }

  /** Types a line with the keyboard, and its return. */
  async type(line) {
    await this.#send("Input.insertText", { text: line });
    const key = { key: "Enter", code: "Enter", windowsVirtualKeyCode: 13, text: "\r" };
    await this.#send("Input.dispatchKeyEvent", { type: "keyDown", ...key });
    await this.#send("Input.dispatchKeyEvent", { type: "keyUp", ...key });
  }

  /** A picture of the page, as the bytes of a PNG file. */
  async picture() {
    const { data } = await this.#send("Page.captureScreenshot", { format: "png" });
    return Buffer.from(data, "base64");
  }

  async close() {
    const ended = new Promise((done) => this.#process.once("exit", done));
    await this.#send("Browser.close").catch(() => this.#process.kill());
    await ended;
    await rm(this.#folder, { recursive: true, force: true, maxRetries: 5 });
  }
}
