#!/usr/bin/env bash
# Compiles the programs of this folder, and those of examples/ that the tests of the host library run, by Debian's clang 14 and lld with
# wasi-libc and libclang-rt-14-dev-wasm32. Compiled and linked in two steps, as `clang -O2` would run wasm-opt where it is installed.
set -euo pipefail
cd "$(dirname "$0")"
objects=$(mktemp -d)
trap 'rm -rf "$objects"' EXIT

for program in calls broken; do
    clang --target=wasm32 -mcpu=mvp -O2 -c "$program.c" -o "$objects/$program.o"
    wasm-ld --no-entry --strip-all "$objects/$program.o" -o "$program.wasm"
done
clang --target=wasm32 -mcpu=mvp -mmutable-globals -O2 -c strands.c -o "$objects/strands.o"
wasm-ld --no-entry --strip-all --export=__stack_pointer "$objects/strands.o" -o strands.wasm
clang --target=wasm32 -mcpu=mvp -msign-ext -mbulk-memory -O2 -c newer.c -o "$objects/newer.o"
wasm-ld --no-entry --strip-all "$objects/newer.o" -o newer.wasm
clang --target=wasm32-wasi -mcpu=mvp -O2 -c ../../../examples/repl.c -o "$objects/repl.o"
clang --target=wasm32-wasi "$objects/repl.o" -o ../../../examples/repl.wasm -lc-printscan-no-floating-point -Wl,--strip-all
