// A host by the protocol that the npm package asyncify-wasm documents, written anew: imports may return promises, exports are
// asynchronous, the stack is kept from byte 16 to byte 1024 of the exported `memory`, and a rewinding call gets no arguments.

const AREA = 16;
const END = 1024;

export async function instantiate(source, imports) {
  let exports;
  let pending;
  const pausing =
    (start) =>
    (...args) => {
      if (exports.asyncify_get_state() === 2) {
        exports.asyncify_stop_rewind();
        return pending;
      }
      const value = start(...args);
      if (typeof value?.then !== "function") return value;
      pending = value;
      exports.asyncify_start_unwind(AREA);
      return false;
    };
  const resuming =
    (entry) =>
    async (...args) => {
      let result = entry(...args);
      while (exports.asyncify_get_state() === 1) {
        exports.asyncify_stop_unwind();
        pending = await pending;
        exports.asyncify_start_rewind(AREA);
        result = entry();
      }
      return result;
    };
  const each = (items, change) =>
    Object.fromEntries(Object.entries(items).map(([name, it]) => [name, typeof it === "function" ? change(it) : it]));

  // The package wraps whatever an import object gives by name.
  const wrapped = {};
  const module = await WebAssembly.compile(source);
  for (const { module: from, name } of WebAssembly.Module.imports(module)) (wrapped[from] ??= {})[name] = pausing(imports[from][name]);
  const instance = await WebAssembly.instantiate(module, wrapped);
  exports = instance.exports;
  const words = new Int32Array(exports.memory.buffer, AREA);
  words[0] = AREA + 8;
  words[1] = END;
  return { instance, exports: each(exports, resuming) };
}
