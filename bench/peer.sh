#!/usr/bin/env bash
# Rewrites some of the worked modules with `wasm-opt --asyncify` (Debian's binaryen), runs them under `asyncify host`, and compares the
# printed lines with those of the same script over what `asyncify transform` writes, sizes of frames aside. No part of the gate.
. "$(dirname "$0")/common.sh"
rows=$bench/../tests/rows
build_asyncify
has_peer wasm-opt || exit 1

# A module of the rows, an import, and the lines behind the program line.
compare() {
    local file=$1 import=$2
    shift 2
    "$asyncify" transform --imports "$import" "$file" "$temp/ours.wasm" >/dev/null
    wasm-opt --mvp-features --asyncify --pass-arg="asyncify-imports@$import" "$file" -o "$temp/theirs.wasm"
    for tool in ours theirs; do
        printf '%s\n' "program $temp/$tool.wasm" "$@" >"$temp/script"
        "$asyncify" host "$temp/script" | sed 's/area [0-9]* of/area of/' >"$temp/$tool.lines" || true
    done
    if diff "$temp/ours.lines" "$temp/theirs.lines"; then
        echo "$(basename "$file"): the same $(wc -l <"$temp/ours.lines") lines"
    else
        echo "$(basename "$file"): other lines"
        failed=1
    fi
}

compare "$rows/deepest_recursion/given/recursion.wasm" env.pause "area 0 131072" "enter run i32:1000" "answer env.pause i32:5 ticks 1"
compare "$rows/wide_values_and_a_trap_after_a_pause/given/division_after_pause.wasm" env.pause "area 0 256" "enter run" "answer env.pause i32:1000 ticks 1"
compare "$rows/wide_values_and_a_trap_after_a_pause/given/division_after_pause.wasm" env.pause "area 0 256" "enter run" "answer env.pause i32:0 ticks 1"
compare "$rows/answers_that_poke/given/poked_read.wasm" env.read "area 0 256" "enter run" "enter run" \
    "answer env.read i32:4 ticks 2 poke 65532 01020304" "answer env.read i32:5 ticks 3 poke 65532 05060708"
compare "$bench/../examples/story.wasm" env.read "area 0 64" # nothing is entered
exit $failed
