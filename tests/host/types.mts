// What a host in TypeScript writes: it has to compile against the types of the library.
import { AsyncifyError, ImportTrap, instantiate, type Options, type Program } from "reshgonu-host";
import { Exit, Wasi } from "reshgonu-host/wasi";

const options: Options = {
  area: { at: 1024, length: 4096 },
  onpause: ({ import: name, used, length }) => console.log(`${name}: ${used} of ${length}`),
  signal: new AbortController().signal,
};
const several: Options = { areas: [{ at: 1024, length: 64 }, { at: 2048, length: 64 }], onpause: ({ entry }) => console.log(entry) };
const found: Options = { areas: ({ exports }) => [{ at: (exports.area as () => number)(), length: 64 }] };
const env = {
  read: async (which: number) => 100 + which,
  wide: (value: bigint) => value + 1n,
  tell: (text: number) => console.log(text),
  fail: async () => Promise.reject(new ImportTrap("disk gone", { cause: 5 })),
  memory: new WebAssembly.Memory({ initial: 1 }),
};

const program: Program = await instantiate(fetch("program.wasm"), { env }, options);
const { instance, exports } = await instantiate(new Uint8Array(8), { env });
const result: number | bigint | undefined = await exports.run(1, 2n);
const memory = instance.exports.memory as WebAssembly.Memory;

const system = new Wasi({ args: ["it"], stdin: "text", stdout: (bytes) => console.log(bytes.length) });
const status: number = await system.start(await instantiate(new Response(), system.imports));
try {
  await program.exports.run();
} catch (error) {
  if (error instanceof AsyncifyError && error.code === "area-too-small") console.log(error.wanted, error.import, error.cause);
  else if (error instanceof AsyncifyError && error.code === "import-trap") console.log(error.import, error.cause instanceof ImportTrap);
  else if (error instanceof Exit) console.log(error.status);
}

// @ts-expect-error: an import's answer is no text
instantiate(new Uint8Array(8), { env: { read: () => "text" } });
// @ts-expect-error: an export is asynchronous
const early: number = exports.run(1);
// @ts-expect-error: there is no such code
export const wrong = (error: AsyncifyError) => error.code === "too-small";
export { early, found, memory, result, several, status };
