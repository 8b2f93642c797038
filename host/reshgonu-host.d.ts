/** What a program passes to imports and takes from them: a bigint for an i64, a number for an i32. */
export type Value = number | bigint;

/** What an import may answer at once: `undefined` where it has no result, `true` and `false` for 1 and 0. */
export type Answer = Value | boolean | void;

/** An import. A call of it that returns a promise pauses the program; another goes on at once. */
export type ImportFunction = (...args: any[]) => Answer | PromiseLike<Answer>;

export type Imports = Record<string, Record<string, ImportFunction | WebAssembly.Memory | WebAssembly.Table | WebAssembly.Global>>;

/** A range of the module's memory that nothing else uses: `at` is a multiple of 4, `length` at least 8. */
export interface Area {
  at: number;
  length: number;
}

/** A pause: which call of an export it is in, at which import, and how much of the area it takes. */
export interface Pause {
  entry: string;
  import: string;
  used: number;
  length: number;
}

export interface Options {
  /** Where the suspended stack is kept; without it, what the module's exports `area` and `area_size` tell. */
  area?: Area;
  /** As many calls may be paused at once: each keeps its stack in an area of its own. No two overlap. A function may find them in the instance. */
  areas?: Area[] | ((instance: WebAssembly.Instance) => Area[]);
  /** Is called at each pause. */
  onpause?(pause: Pause): void;
  /** Ends a pause, and refuses further calls: the code is "aborted". */
  signal?: AbortSignal;
}

/** A call of an export: it resolves when the program has returned from it for good. While it is paused others may begin, one an area. */
export type Entry = (...args: Value[]) => Promise<Value | undefined>;

export interface Program {
  /** The instance as WebAssembly made it. Its own exports can't pause. */
  instance: WebAssembly.Instance;
  /** The exported functions of the module, but for the five of the rewriting. */
  exports: Readonly<Record<string, Entry>>;
}

/**
 * - "not-rewritten": the module lacks the five exports.
 * - "no-area": there is no area, or not one inside the memory at a multiple of 4, or two overlap.
 * - "area-too-small": the stack didn't fit: `wanted` tells how many bytes it takes at least. In a module with asserts also that a call which isn't
 *   rewritten led to the pause: the message says so.
 * - "unlisted-pause": the program wasn't rewritten for a pause at `import`.
 * - "pause-in-start": an import returned a promise in the module's start function.
 * - "no-entry": an import returned a promise in a call of `instance.exports`.
 * - "import-trap": `import` trapped, by an `ImportTrap`, which is the `cause`.
 * - "busy": another call runs, or as many are paused as there are areas.
 * - "spent": an error has left the program in the middle; `cause` is that error. Calls that were paused go on, unless it came while the stack was
 *   unwound or rewound.
 * - "aborted": by the signal; `cause` is its reason.
 */
export type Code =
  | "not-rewritten"
  | "no-area"
  | "area-too-small"
  | "unlisted-pause"
  | "pause-in-start"
  | "no-entry"
  | "import-trap"
  | "busy"
  | "spent"
  | "aborted";

export class AsyncifyError extends Error {
  readonly code: Code;
  readonly import?: string;
  readonly used?: number;
  readonly length?: number;
  readonly wanted?: number;
}

/** What an import throws, or its promise is rejected with, for the program to trap in that call. */
export class ImportTrap extends Error {
  constructor(message?: string, options?: { cause?: unknown });
}

export type Source = BufferSource | Response | WebAssembly.Module;

/** Compiles a rewritten module and makes an instance of it. */
export function instantiate(source: Source | PromiseLike<Source>, imports?: Imports, options?: Options): Promise<Program>;
