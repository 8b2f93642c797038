// Runs a module that Asyncify has rewritten: an import that returns a promise pauses the program, which goes on with the promise's
// value. As many calls may be paused at once as there are areas. Works under Node and in browsers, with nothing else. README.md beside
// this file shows how; docs/HOSTING.md tells the protocol.

const FIVE_EXPORTS = [
  "asyncify_start_unwind",
  "asyncify_stop_unwind",
  "asyncify_start_rewind",
  "asyncify_stop_rewind",
  "asyncify_get_state",
];
const UNWINDING = 1;
const REWINDING = 2;
/** The two words at the area's beginning, behind which the frames stand. */
const AREA_HEAD = 8;

/** An error of the library. `code` tells which; where they are known, `import`, `used`, `length` and `wanted` tell more. */
export class AsyncifyError extends Error {
  constructor(code, message, { cause, ...facts } = {}) {
    super(message, cause === undefined ? undefined : { cause });
    this.name = "AsyncifyError";
    this.code = code;
    Object.assign(this, facts);
  }
}

/** What an import throws, or its promise is rejected with, for the program to trap in that call: `instantiate` tells it as "import-trap". */
export class ImportTrap extends Error {
  constructor(message = "import trap", options) {
    super(message, options);
    this.name = "ImportTrap";
  }
}

/**
 * Compiles a rewritten module and makes an instance of it.
 *
 * Imports may return promises, and exports are asynchronous: their promise resolves when the program has returned from them for good.
 */
export async function instantiate(source, imports = {}, options = {}) {
  const module = await compiled(source);
  checkRewritten(module);
  const host = new Host(options);
  host.checkSignal();
  const instance = await WebAssembly.instantiate(module, host.wrapImports(module, imports));
  host.attach(instance, memoryOf(module, instance, imports));
  return { instance, exports: host.wrapExports(instance) };
}

/** A module of what `instantiate` was given: bytes, a response, a module, or a promise of one of them. */
async function compiled(source) {
  const given = await source;
  if (given instanceof WebAssembly.Module) return given;
  if (typeof Response !== "function" || !(given instanceof Response)) return WebAssembly.compile(given);
  if (!given.ok) throw new TypeError(`${given.url || "the module"} was answered with status ${given.status}`);
  const streams = WebAssembly.compileStreaming && given.headers.get("content-type") === "application/wasm";
  return streams ? WebAssembly.compileStreaming(given) : WebAssembly.compile(await given.arrayBuffer());
}

/** Fails where a module lacks one of the exports that the rewriting adds. */
function checkRewritten(module) {
  const functions = WebAssembly.Module.exports(module).filter((it) => it.kind === "function");
  const lacking = FIVE_EXPORTS.find((name) => !functions.some((it) => it.name === name));
  if (lacking) {
    throw new AsyncifyError("not-rewritten", `the module doesn't export ${lacking}: rewrite it first, by 'asyncify transform IN OUT'`);
  }
}

/** The module's memory, where it is exported or was imported. */
function memoryOf(module, instance, imports) {
  const isMemory = (it) => it.kind === "memory";
  const exported = WebAssembly.Module.exports(module).find(isMemory);
  if (exported) return instance.exports[exported.name];
  const imported = WebAssembly.Module.imports(module).find(isMemory);
  return imported && imports[imported.module][imported.name];
}

const isPromise = (value) =>
  value !== null && (typeof value === "object" || typeof value === "function") && typeof value.then === "function";

const sameArguments = (some, others) => some.length === others.length && some.every((it, at) => Object.is(it, others[at]));

/** Lets a promise that nobody waits for any more fail unheard. */
const abandon = (promise) => void Promise.resolve(promise).catch(() => {});

/** A range of the memory for the suspended stack of one call at a time. */
class Area {
  #words;

  constructor({ at, length }) {
    this.at = at;
    this.length = length;
  }

  /** Fails where the area isn't one inside this memory. */
  check(memory) {
    const { at, length } = this;
    const wrong = (why) => new AsyncifyError("no-area", `the area of ${length} bytes at ${at} ${why}`, { length });
    if (!memory) throw new AsyncifyError("no-area", "the memory, in which the area is, is neither exported nor imported");
    if (!Number.isInteger(at) || at < 0 || at % 4 !== 0) throw wrong("doesn't begin at a multiple of 4");
    if (!Number.isInteger(length) || length < AREA_HEAD) throw wrong(`needs ${AREA_HEAD} bytes for its first two words`);
    if (at + length > memory.buffer.byteLength) throw wrong(`reaches past the memory of ${memory.buffer.byteLength} bytes`);
  }

  meets(other) {
    return this.at < other.at + other.length && other.at < this.at + this.length;
  }

  /** The two words at its beginning. When the memory has grown it has another buffer, and the one before has no bytes any more. */
  #head(memory) {
    if (!this.#words || this.#words.buffer.byteLength === 0) this.#words = new DataView(memory.buffer, this.at, AREA_HEAD);
    return this.#words;
  }

  /** Makes it empty: frames go behind the two words, up to its end. */
  clear(memory) {
    const head = this.#head(memory);
    head.setUint32(0, this.at + AREA_HEAD, true);
    head.setUint32(4, this.at + this.length, true);
  }

  /** How much of it is in use, by its first word. */
  used(memory) {
    return this.#head(memory).getUint32(0, true) - this.at;
  }
}

/** A call of an export that has begun and not ended. */
class Call {
  /** Whether it has called an import. */
  called = false;
  /** The import call that it is paused in: `import`, `args` and `promise`, and `answer`, which gives the answer in that call or throws. */
  pause;
  /** How far down the C stack is in use at the pause, where the module tells. */
  stack;

  constructor(entry, area) {
    this.entry = entry;
    this.area = area;
  }
}

/** One instance: where it is, and the calls of it that are under way. */
class Host {
  /** "starting", "idle" (though calls may be paused), "running", "unwinding" or "rewinding". */
  #phase = "starting";
  #instance;
  #memory;
  /** What the options say of areas, and the areas. */
  #given;
  #areas = [];
  #signal;
  #onpause;
  /** The calls that are under way: the one that runs and those that are paused. */
  #calls = new Set();
  /** The one that runs. */
  #call;
  /** The import whose own code is running. */
  #within;
  /** What spent the instance, its `cause`, and whether the `whole` of it is, so that paused calls can't go on either. */
  #spent;
  /** The C stack's pointer, where the module exports it. */
  #stack;
  /** Where that stood when no call was under way. */
  #base;

  constructor({ area, areas = area && [area], onpause, signal }) {
    this.#given = areas;
    this.#onpause = onpause;
    this.#signal = signal;
  }

  /** What the module is linked with: its functions wrapped so that they can pause, all else as it is. */
  wrapImports(module, imports) {
    const wrapped = Object.create(null);
    for (const { module: from, name, kind } of WebAssembly.Module.imports(module)) {
      const given = imports[from]?.[name];
      wrapped[from] ??= Object.create(null);
      wrapped[from][name] = kind === "function" && typeof given === "function" ? this.#wrapImport(`${from}.${name}`, given) : given;
    }
    return wrapped;
  }

  /** Takes over the instance, and looks where its areas are. */
  attach(instance, memory) {
    this.#instance = instance.exports;
    this.#memory = memory;
    this.#stack = stackPointerOf(instance);
    const given = typeof this.#given === "function" ? this.#given(instance) : (this.#given ?? exportedAreas(instance));
    this.#areas = given.map((it) => new Area(it));
    this.#checkAreas(this.#areas);
    this.#phase = "idle";
  }

  /** The module's exported functions, but for the five, each as an asynchronous one. */
  wrapExports(instance) {
    const wrapped = Object.create(null);
    for (const [name, it] of Object.entries(instance.exports)) {
      if (typeof it === "function" && !FIVE_EXPORTS.includes(name)) wrapped[name] = (...args) => this.#enter(name, it, args);
    }
    return Object.freeze(wrapped);
  }

  checkSignal() {
    if (this.#signal?.aborted) throw aborted(this.#signal);
  }

  #checkAreas(areas) {
    areas.forEach((area, place) => {
      area.check(this.#memory);
      const met = areas.slice(0, place).find((it) => it.meets(area));
      if (met) {
        const message = `the areas of ${met.length} bytes at ${met.at} and of ${area.length} at ${area.at} overlap`;
        throw new AsyncifyError("no-area", message, { length: area.length });
      }
    });
  }

  #wrapImport(name, start) {
    return (...args) => {
      if (this.#phase === "rewinding") return this.#replay(name, args);
      if (this.#phase === "unwinding") throw this.#unlisted(`the program called ${name} when ${this.#call.pause.import} had paused it`);
      const caller = this.#within;
      this.#within = name;
      if (this.#call) this.#call.called = true;
      let value;
      try {
        value = start(...args);
      } catch (error) {
        throw asTrap(name, error);
      } finally {
        this.#within = caller;
      }
      return isPromise(value) ? this.#suspend({ import: name, args, promise: value }, caller) : value;
    };
  }

  /** Begins to unwind the stack, in an import call that waits for a promise. */
  #suspend(pause, caller) {
    const refusal = this.#refusal(pause.import, caller);
    if (refusal) {
      abandon(pause.promise);
      throw refusal;
    }
    const { area } = this.#call;
    area.clear(this.#memory);
    this.#call.pause = pause;
    this.#phase = "unwinding";
    this.#instance.asyncify_start_unwind(area.at);
    return false; // isn't used, and serves an i32 as well as an i64
  }

  /** Why this import can't pause the program now, if it can't. */
  #refusal(name, caller) {
    const asked = `${name} returned a promise`;
    if (this.#phase === "starting") {
      const message = `${asked} in the module's start function, which can't be paused: do it in an export`;
      return new AsyncifyError("pause-in-start", message, { import: name });
    }
    if (this.#phase !== "running" || caller !== undefined) {
      const where = caller === undefined ? "of 'instance.exports'" : `that the import ${caller} made`;
      const message = `${asked} in a call ${where}: only calls of the 'exports' that 'instantiate' gave can pause`;
      return new AsyncifyError("no-entry", message, { import: name });
    }
    if (!this.#call.area || !this.#memory) {
      const wanted = "export functions 'area' and 'area_size' (and the memory) from the module, or give the option 'area'";
      return new AsyncifyError("no-area", `${asked}, and there is no area to keep the stack in: ${wanted}`, { import: name });
    }
    return undefined;
  }

  /** Gives the answer, in the call that the stack was rewound to. */
  #replay(name, args) {
    const { area, pause } = this.#call;
    const { import: paused, args: wanted, answer } = pause;
    if (name !== paused) throw this.#unlisted(`the program called ${name} where it should have come back to ${paused}`);
    if (!sameArguments(args, wanted)) {
      throw this.#unlisted(`the program came back to ${name} with other arguments (${args}) than it had (${wanted})`);
    }
    if (this.#instance.asyncify_get_state() !== REWINDING || area.used(this.#memory) !== AREA_HEAD) {
      throw this.#unlisted(`the program called ${name} before its stack was rewound`);
    }
    this.#instance.asyncify_stop_rewind();
    this.#phase = "running";
    this.#call.pause = undefined;
    return answer();
  }

  /** Calls an export until it has returned for good. */
  async #enter(name, entry, args) {
    const call = this.#begin(name);
    try {
      let result = entry(...args);
      while (this.#phase === "unwinding") {
        this.#unwound(call);
        call.pause.answer = await this.#answer(call.pause);
        this.#resume(call);
        result = entry(...args);
      }
      this.#checkEnd(call);
      this.#end(call);
      return result;
    } catch (error) {
      throw this.#failed(call, error);
    }
  }

  /** A new call, in the first area that no other has. */
  #begin(name) {
    this.#checkFree(name);
    const call = new Call(name, this.#areas.find((area) => ![...this.#calls].some((it) => it.area === area)));
    if (this.#calls.size > 0) this.#stackBelow(this.#calls, this.#stack?.value >>> 0);
    else this.#base = this.#stack?.value;
    this.#calls.add(call);
    this.#call = call;
    this.#phase = "running";
    return call;
  }

  /** The call has returned, or hasn't begun: where it was the last, the C stack is as before them all. */
  #end(call) {
    this.#calls.delete(call);
    this.#call = undefined;
    this.#phase = "idle";
    if (this.#stack && this.#calls.size === 0) this.#stack.value = this.#base;
  }

  /** Begins to rewind a paused call. */
  #resume(call) {
    if (this.#spent?.whole) throw this.#spentError(call.entry);
    this.#call = call;
    this.#phase = "rewinding";
    this.#stackBelow(this.#calls);
    this.#instance.asyncify_start_rewind(call.area.at);
  }

  /** Puts the C stack below what paused calls have there, which may be below what it was set to by a call that has ended since. */
  #stackBelow(calls, low = Infinity) {
    if (this.#stack) this.#stack.value = Math.min(low, ...[...calls].map((it) => it.stack));
  }

  /** Waits for what the paused import comes to: a value that the call gives, or a trap that it makes. */
  async #answer({ import: name, promise }) {
    try {
      const value = await unlessAborted(promise, this.#signal);
      return () => value;
    } catch (error) {
      if (!(error instanceof ImportTrap)) throw error;
      return () => {
        throw asTrap(name, error);
      };
    }
  }

  #spentError(name) {
    const why = "an error has left the program in the middle, with its stack as it was: make a new instance";
    return new AsyncifyError("spent", `${name}: ${why}`, { cause: this.#spent.cause });
  }

  /** Fails where no call can begin now. */
  #checkFree(name) {
    if (this.#spent) throw this.#spentError(name);
    const [call = this.#call] = this.#phase === "idle" ? this.#calls : [];
    if (call && (this.#phase !== "idle" || this.#calls.size >= this.#areas.length)) {
      const where = call.pause ? ` (paused in ${call.pause.import})` : "";
      const todo = "await that call first, give an area for each call that may wait, or make another instance";
      throw new AsyncifyError("busy", `${name} was called while ${call.entry} is under way${where}: ${todo}`);
    }
    this.checkSignal();
  }

  /** Ends the unwinding, when the entry has come back. */
  #unwound(call) {
    const { area, pause } = call;
    const { import: name } = pause;
    if (this.#instance.asyncify_get_state() !== UNWINDING) throw this.#unlisted(`the program went on behind ${name}`);
    this.#instance.asyncify_stop_unwind();
    const used = area.used(this.#memory);
    if (used <= AREA_HEAD) throw this.#unlisted(`no function kept its place when ${name} paused: the program went on with a wrong answer`);
    call.stack = this.#stack?.value >>> 0;
    this.#call = undefined;
    this.#phase = "idle";
    this.#onpause?.({ entry: call.entry, import: name, used, length: area.length });
  }

  #checkEnd({ entry, pause }) {
    if (this.#phase === "rewinding") throw this.#unlisted(`${entry} ended without coming back to ${pause.import}`);
    const state = this.#instance.asyncify_get_state();
    if (state !== 0) throw this.#unlisted(`${entry} ended with the state ${state}`);
  }

  /** Takes note that an exception came out of a call, and tells it in the words of who has to mend it. */
  #failed(call, error) {
    if (error instanceof TypeError && !call.called) {
      this.#end(call); // an argument of another type: the program hasn't begun
      return error;
    }
    const told = this.#explained(call, error);
    if (call.pause) abandon(call.pause.promise);
    const midway = this.#phase === "unwinding" || this.#phase === "rewinding" || this.#instance.asyncify_get_state() !== 0;
    this.#spent = { cause: this.#spent?.cause ?? told, whole: midway || this.#spent?.whole };
    this.#calls.delete(call);
    this.#call = undefined;
    this.#phase = "idle";
    return told;
  }

  /** What an exception out of a call means. */
  #explained(call, error) {
    if (!(error instanceof WebAssembly.RuntimeError) || !call.pause) return error;
    const { import: name } = call.pause;
    if (this.#phase === "rewinding") return this.#unlisted(`the program trapped on its way back to ${name}`, error);
    if (this.#phase !== "unwinding") return error;
    if (!/unreachable/i.test(error.message)) return this.#unlisted(`the program trapped when ${name} had paused it`, error);
    return this.#tooSmall(call, error);
  }

  /**
   * The area was too small: a frame didn't fit, or (as Binaryen's pass writes modules) was written behind it. A module with asserts traps in the
   * same way where a call that isn't rewritten led to the pause.
   */
  #tooSmall({ area, pause }, cause) {
    const { length } = area;
    const used = area.used(this.#memory);
    const wanted = used > length ? used : used + 4 * (Math.floor((length - used) / 4) + 1);
    const name = pause.import;
    const message =
      `the area of ${length} bytes is too small for the stack when ${name} pauses: it takes at least ${wanted}. Make the area larger; ` +
      `'-O2' of the compiler and '--save live' make less of it needed. Where it is ample, ${name} isn't among the rewriting's '--imports', or ` +
      "a call through a table leads to it and '--ignore-indirect' was given";
    return new AsyncifyError("area-too-small", message, { cause, import: name, used, length, wanted });
  }

  /** The program wasn't rewritten for a pause at this import. */
  #unlisted(found, cause) {
    const name = this.#call?.pause?.import;
    const todo =
      `Name ${name ?? "the import"} in '--imports' of 'asyncify transform' (without that option all are), ` +
      "and leave out '--ignore-indirect' where a call through a table leads to it; 'asyncify run' shows such pauses";
    return new AsyncifyError("unlisted-pause", `${found}. ${todo}`, { cause, import: name });
  }
}

/** The area that a module tells by its exports, if it does. */
function exportedAreas({ exports: { area, area_size: size } }) {
  return typeof area === "function" && typeof size === "function" ? [{ at: area() >>> 0, length: size() >>> 0 }] : [];
}

/** The pointer of the C stack, where the module exports it so that it can be set. */
function stackPointerOf(instance) {
  const it = instance.exports.__stack_pointer;
  if (!(it instanceof WebAssembly.Global)) return undefined;
  try {
    it.value = it.value;
    return it;
  } catch {
    return undefined; // it isn't mutable
  }
}

/** What an import threw, in the words of the library where it asks for a trap. */
function asTrap(name, error) {
  if (!(error instanceof ImportTrap)) return error;
  return new AsyncifyError("import-trap", `${name} trapped: ${error.message}`, { cause: error, import: name });
}

const aborted = (signal) => new AsyncifyError("aborted", "the signal given to 'instantiate' was aborted", { cause: signal.reason });

/** What a promise comes to, or a failure as soon as the signal is aborted. */
function unlessAborted(promise, signal) {
  if (!signal) return promise;
  return new Promise((resolve, reject) => {
    const abort = () => reject(aborted(signal));
    if (signal.aborted) return void (abandon(promise), abort());
    signal.addEventListener("abort", abort);
    const release = () => signal.removeEventListener("abort", abort);
    Promise.resolve(promise).then(resolve, reject).finally(release);
  });
}
