#!/usr/bin/env bash
# Rewrites examples/story.wasm, runs it with Node under examples/host.mjs, each read and sleep a pause, and compares what it prints with what
# the original prints with imports that answer at once, then under mistakes that the host has to tell; and ask.wasm under ask.mjs, by the
# host library. Without Node it says so, and does nothing more. First it runs ask.script, turns.script, mail.script and strands.script, and looks whether README shows
# the files of the first as they are, and docs/COMMAND.md those of the others.
cd "$(dirname "$0")" || exit 1
out=$(mktemp -d)
trap 'rm -rf "$out"' EXIT
for script in ask turns mail strands count; do
    ../asyncify run $script.script | diff $script.lines - || { echo "examples: $script.script prints other lines"; exit 1; }
done
for events in 1 2 3 4 5; do
    { ../asyncify save count.script $events "$out/snap" && ../asyncify continue count.script "$out/snap"; } | diff count.lines - \
        || { echo "examples: count.script goes on with other lines behind event $events"; exit 1; }
done
for shown in README.md:ask.c README.md:ask.mjs README.md:ask.script README.md:ask.lines docs/HOSTING.md:ask.mjs docs/COMMAND.md:turns.script docs/COMMAND.md:turns.lines docs/COMMAND.md:mail.script docs/COMMAND.md:mail.lines docs/COMMAND.md:strands.script docs/COMMAND.md:strands.lines; do
    file=${shown#*:} document=${shown%:*}
    # (without the comment that says what the file is)
    grep -v '^// Runs' "$file" | python3 -c "import sys; sys.exit(sys.stdin.read() not in open('../$document').read())" || { echo "examples: $document has another $file"; exit 1; }
done
command -v node >/dev/null || { echo "examples: no node, not run"; exit 0; }
# (beside the file, and then renamed, as docs/COMMAND.md says: whoever opens the file meanwhile finds all of it)
../asyncify transform --imports env.read ask.wasm "$out/ask.wasm.$$" && mv "$out/ask.wasm.$$" "$out/ask.wasm" || exit 1
[ "$(node ask.mjs "$out/ask.wasm" 5)" = 510 ] || { echo "examples: ask.mjs prints another sum"; exit 1; }
../asyncify transform --imports env.read,env.sleep story.wasm "$out/story.wasm" || exit 1
for depth in 0 1 4; do
    node host.mjs --blocking story.wasm "$depth" > "$out/wanted" || exit 1
    node host.mjs "$out/story.wasm" "$depth" > "$out/found" 2> "$out/pauses" || { cat "$out/pauses"; exit 1; }
    cmp "$out/wanted" "$out/found" || { echo "examples: they differ at depth $depth"; exit 1; }
done
# A run that the host ends with these words: WORDS MODULE DEPTH
mistaken() {
    timeout 20 node host.mjs "$2" "$3" 2>&1 >/dev/null | grep -q "^host.mjs: $1" || { echo "examples: not told: $1"; exit 1; }
}
# An import that isn't listed, at which the host pauses.
../asyncify transform --imports env.read story.wasm "$out/unlisted.wasm" >/dev/null || exit 1
mistaken "the program went on and called read: is env.sleep in --imports?" "$out/unlisted.wasm" 2
../asyncify transform --imports env.raed ask.wasm "$out/misspelt.wasm" >/dev/null 2>&1 || exit 1
mistaken "the program went on and called read: is env.read in --imports?" "$out/misspelt.wasm" 2
mistaken "the stack wasn't kept: is env.read in --imports?" "$out/misspelt.wasm" 1
# What such a program may do besides; and an area of 64 bytes in place of 4,096.
mistaken "the program went on and called read" ../tests/slips/slips.wasm 1
mistaken "the stack wasn't kept" ../tests/slips/slips.wasm 2
mistaken "run ended with the state 2" ../tests/slips/slips.wasm 3
mistaken "the program came back to read(1) and not to read(0)" ../tests/slips/slips.wasm 4
mistaken "the program came back to sleep(5) and not to read(5)" ../tests/slips/slips.wasm 5
python3 - "$out/story.wasm" "$out/small.wasm" <<'PY'
import sys
module = open(sys.argv[1], "rb").read()
assert module.count(b"\x41\x80\x20\x0b") == 1
open(sys.argv[2], "wb").write(module.replace(b"\x41\x80\x20\x0b", b"\x41\xc0\x00\x0b"))
PY
mistaken "the area of 64 bytes is too small: .. are used" "$out/small.wasm" 4
echo "examples: the same, paused or not, and mistakes are told"
