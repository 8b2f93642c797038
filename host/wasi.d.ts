import type { Imports, Program } from "./reshgonu-host.js";

/** Takes what the program prints. Where it returns a promise, `fd_write` pauses, and has to be among the listed imports. */
export type Sink = (bytes: Uint8Array) => unknown;

export interface System {
  /** The words of the command, the program's own name first. */
  args?: string[];
  env?: Record<string, string>;
  /** Standard input, piece by piece: `process.stdin` of Node, a stream, an asynchronous generator, a text. */
  stdin?: string | Iterable<string | Uint8Array> | AsyncIterable<string | Uint8Array>;
  stdout?: Sink;
  /** As `stdout`, where it isn't given. */
  stderr?: Sink;
}

/** What `proc_exit` throws. */
export class Exit extends Error {
  readonly status: number;
}

/** The system that a program of wasi-libc runs on. */
export class Wasi {
  constructor(system?: System);
  /** What to give to `instantiate`. */
  readonly imports: Imports;
  /** Tells where the memory is, before the first call of another export than `_start`. */
  attach(instance: WebAssembly.Instance): void;
  /** Runs `_start`, and answers the exit status. */
  start(program: Program): Promise<number>;
}
