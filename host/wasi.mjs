// As much of WASI (wasi_snapshot_preview1) as a program needs that reads standard input, prints, tells the time and sleeps. Reading and
// sleeping return promises, so that a rewritten module pauses there: `fd_read` and `poll_oneoff` have to be among its listed imports.

const SUCCESS = 0;
const BAD_DESCRIPTOR = 8;
const INVALID = 28;
const NO_SUCH_CALL = 52;
const NO_SEEK = 70;

const CHARACTER_DEVICE = 2;
const RIGHT_TO_READ = 1n << 1n;
const RIGHT_TO_WRITE = 1n << 6n;
const RIGHT_TO_POLL = 1n << 27n;

const STDIN = 0;
const STDOUT = 1;
const STDERR = 2;

const CLOCK = 0; // the kinds of what `poll_oneoff` waits for
const READABLE = 1;
const REALTIME = 0;
const ABSOLUTE = 1;
/** The longest time that a timer takes. */
const LONGEST_TIMER = 2 ** 31 - 1;

const encoder = new TextEncoder();
const bytesOf = (text) => encoder.encode(`${text}\0`);
const nanoseconds = (milliseconds) => BigInt(Math.trunc(milliseconds * 1000)) * 1000n;
const now = (clock) => (clock === REALTIME ? BigInt(Date.now()) * 1_000_000n : nanoseconds(performance.now()));

/** What `proc_exit` throws: the program ended with this status. */
export class Exit extends Error {
  constructor(status) {
    super(`the program ended with status ${status}`);
    this.name = "Exit";
    this.status = status;
  }
}

/** The system that a program of wasi-libc runs on. */
export class Wasi {
  #args;
  #env;
  #input;
  #sinks;
  #memory;

  constructor({ args = ["program"], env = {}, stdin = [], stdout = () => {}, stderr = stdout } = {}) {
    this.#args = args.map(bytesOf);
    this.#env = Object.entries(env).map(([name, value]) => bytesOf(`${name}=${value}`));
    this.#input = new Input(stdin);
    this.#sinks = { [STDOUT]: stdout, [STDERR]: stderr };
  }

  /** What the module imports. Calls that aren't here answer that there is no such call. */
  get imports() {
    const calls = { ...this.#processCalls(), ...this.#fileCalls(), poll_oneoff: (...args) => this.#poll(...args) };
    const none = () => NO_SUCH_CALL;
    return { wasi_snapshot_preview1: new Proxy(calls, { get: (own, name) => own[name] ?? none }) };
  }

  /** Tells the system where the program's memory is: before its first call. */
  attach(instance) {
    this.#memory = instance.exports.memory;
  }

  /** Runs `_start` of a program that `instantiate` made, and answers its exit status. */
  async start(program) {
    this.attach(program.instance);
    try {
      await program.exports._start();
      return 0;
    } catch (error) {
      if (error instanceof Exit) return error.status;
      throw error;
    } finally {
      this.#input.close();
    }
  }

  /** The memory, which is another buffer whenever it has grown. */
  get #view() {
    return new DataView(this.#memory.buffer);
  }

  #processCalls() {
    return {
      args_sizes_get: (count, size) => this.#putSizes(this.#args, count, size),
      args_get: (places, bytes) => this.#putStrings(this.#args, places, bytes),
      environ_sizes_get: (count, size) => this.#putSizes(this.#env, count, size),
      environ_get: (places, bytes) => this.#putStrings(this.#env, places, bytes),
      clock_res_get: (clock, at) => this.#putWide(at, clock === REALTIME ? 1_000_000n : 1_000n),
      clock_time_get: (clock, precision, at) => this.#putWide(at, now(clock)),
      random_get: (at, length) => this.#putRandom(at, length),
      sched_yield: () => SUCCESS,
      proc_exit: (status) => {
        throw new Exit(status);
      },
    };
  }

  #fileCalls() {
    const known = (file) => file === STDIN || file in this.#sinks;
    return {
      fd_read: (file, list, count, told) => this.#read(file, list, count, told),
      fd_write: (file, list, count, told) => this.#write(file, list, count, told),
      fd_fdstat_get: (file, at) => (known(file) ? this.#putFileState(file, at) : BAD_DESCRIPTOR),
      fd_fdstat_set_flags: (file) => (known(file) ? SUCCESS : BAD_DESCRIPTOR),
      fd_seek: (file) => (known(file) ? NO_SEEK : BAD_DESCRIPTOR),
      fd_close: (file) => (known(file) ? SUCCESS : BAD_DESCRIPTOR),
      fd_prestat_get: () => BAD_DESCRIPTOR,
      fd_prestat_dir_name: () => BAD_DESCRIPTOR,
    };
  }

  #putWide(at, value) {
    this.#view.setBigUint64(at, value, true);
    return SUCCESS;
  }

  #putSizes(strings, count, size) {
    this.#view.setUint32(count, strings.length, true);
    this.#view.setUint32(size, strings.reduce((all, it) => all + it.length, 0), true);
    return SUCCESS;
  }

  #putStrings(strings, places, bytes) {
    let at = bytes;
    strings.forEach((it, index) => {
      this.#view.setUint32(places + 4 * index, at, true);
      new Uint8Array(this.#memory.buffer).set(it, at);
      at += it.length;
    });
    return SUCCESS;
  }

  #putRandom(at, length) {
    for (let done = 0; done < length; done += 65536) {
      crypto.getRandomValues(new Uint8Array(this.#memory.buffer, at + done, Math.min(65536, length - done)));
    }
    return SUCCESS;
  }

  #putFileState(file, at) {
    const rights = RIGHT_TO_POLL | (file === STDIN ? RIGHT_TO_READ : RIGHT_TO_WRITE);
    const view = this.#view;
    view.setUint8(at, CHARACTER_DEVICE);
    view.setUint16(at + 2, 0, true);
    view.setBigUint64(at + 8, rights, true);
    view.setBigUint64(at + 16, 0n, true);
    return SUCCESS;
  }

  /** The ranges of memory that a list of addresses and lengths names. */
  #ranges(list, count) {
    const view = this.#view;
    return Array.from({ length: count }, (_, index) => {
      const at = list + 8 * index;
      return new Uint8Array(this.#memory.buffer, view.getUint32(at, true), view.getUint32(at + 4, true));
    });
  }

  /** Reads what has come; where nothing has, the program pauses until something does. */
  #read(file, list, count, told) {
    if (file !== STDIN) return BAD_DESCRIPTOR;
    const take = () => {
      const taken = this.#ranges(list, count).reduce((all, range) => all + this.#input.take(range), 0);
      this.#view.setUint32(told, taken, true);
      return SUCCESS;
    };
    return this.#input.isReady ? take() : this.#input.ready().then(take);
  }

  /** Writes to a sink; where it returns a promise, the program pauses until it is kept. */
  #write(file, list, count, told) {
    const sink = this.#sinks[file];
    if (!sink) return BAD_DESCRIPTOR;
    const ranges = this.#ranges(list, count);
    const bytes = new Uint8Array(ranges.reduce((all, it) => all + it.length, 0));
    ranges.reduce((at, it) => (bytes.set(it, at), at + it.length), 0);
    this.#view.setUint32(told, bytes.length, true);
    const done = sink(bytes);
    return typeof done?.then === "function" ? done.then(() => SUCCESS) : SUCCESS;
  }

  /** Waits for the first of some times and files: this is how wasi-libc sleeps. */
  #poll(subscriptions, events, count, told) {
    if (count === 0) return INVALID;
    const all = Array.from({ length: count }, (_, index) => this.#subscription(subscriptions + 48 * index));
    const tell = (due) => {
      due.forEach((it, index) => this.#putEvent(events + 32 * index, it));
      this.#view.setUint32(told, due.length, true);
      return SUCCESS;
    };
    const files = all.filter((it) => it.kind !== CLOCK && this.#isDue(it));
    return files.length > 0 ? tell(files) : this.#due(all).then(tell);
  }

  #subscription(at) {
    const view = this.#view;
    const userdata = view.getBigUint64(at, true);
    const kind = view.getUint8(at + 8);
    if (kind !== CLOCK) return { userdata, kind, file: view.getUint32(at + 16, true) };
    const clock = view.getUint32(at + 16, true);
    const timeout = view.getBigUint64(at + 24, true);
    const isAbsolute = (view.getUint16(at + 40, true) & ABSOLUTE) !== 0;
    return { userdata, kind, clock, end: isAbsolute ? timeout : now(clock) + timeout };
  }

  #isDue({ kind, clock, end, file }) {
    if (kind === CLOCK) return now(clock) >= end;
    return kind !== READABLE || file !== STDIN || this.#input.isReady;
  }

  /** Those of the subscriptions that are due first. At least one turn of the event loop passes. */
  async #due(subscriptions) {
    const clocks = subscriptions.filter((it) => it.kind === CLOCK);
    for (;;) {
      const left = clocks.map((it) => Number(it.end - now(it.clock)) / 1e6);
      const waits = subscriptions.length > clocks.length ? [this.#input.ready()] : [];
      await firstOf(waits, clocks.length > 0 ? Math.min(...left) : undefined);
      const due = subscriptions.filter((it) => this.#isDue(it));
      if (due.length > 0) return due;
    }
  }

  #putEvent(at, { userdata, kind, file }) {
    const view = this.#view;
    const isKnown = kind === CLOCK || (kind === READABLE ? file === STDIN : file in this.#sinks);
    view.setBigUint64(at, userdata, true);
    view.setUint16(at + 8, isKnown ? SUCCESS : BAD_DESCRIPTOR, true);
    view.setUint8(at + 10, kind);
    view.setBigUint64(at + 16, kind === READABLE ? BigInt(this.#input.length) : 0n, true);
    view.setUint16(at + 24, 0, true);
  }
}

/** Waits for the first of some promises, or for a number of milliseconds where one is given. */
async function firstOf(promises, milliseconds) {
  let timer;
  const waits = [...promises];
  if (milliseconds !== undefined) {
    const time = Math.min(Math.max(0, Math.ceil(milliseconds)), LONGEST_TIMER);
    waits.push(new Promise((done) => (timer = setTimeout(done, time))));
  }
  await Promise.race(waits).finally(() => clearTimeout(timer));
}

/** Standard input: the pieces of an iterable, synchronous or not, each a string or bytes. */
class Input {
  #source;
  #pieces;
  #rest = new Uint8Array(0);
  #hasEnded = false;
  #coming;

  constructor(source) {
    this.#source = typeof source === "string" ? [source] : source;
  }

  /** How many bytes have come that weren't taken. */
  get length() {
    return this.#rest.length;
  }

  /** Whether a read needs no wait: there are bytes, or the end has come. */
  get isReady() {
    return this.#rest.length > 0 || this.#hasEnded;
  }

  /** Waits until `isReady`. */
  ready() {
    this.#coming ??= this.#fill().finally(() => (this.#coming = undefined));
    return this.#coming;
  }

  async #fill() {
    this.#pieces ??= (this.#source[Symbol.asyncIterator] ?? this.#source[Symbol.iterator]).call(this.#source);
    while (!this.isReady) {
      const { done, value } = await this.#pieces.next();
      if (done) this.#hasEnded = true;
      else this.#rest = typeof value === "string" ? encoder.encode(value) : value;
    }
  }

  /** Moves as many bytes as there are into a range, and answers how many. */
  take(range) {
    const taken = this.#rest.subarray(0, range.length);
    range.set(taken);
    this.#rest = this.#rest.subarray(taken.length);
    return taken.length;
  }

  /** Takes no more of the source. */
  close() {
    this.#hasEnded = true;
    this.#pieces?.return?.();
  }
}
