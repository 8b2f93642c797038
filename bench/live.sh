#!/usr/bin/env bash
# Times `asyncify transform --save live`, the least of RUNS runs (3), at a quarter, half and the whole of a size: loops nested 500 deep with a
# call inside, the same with 2 KB of code in each, 10,000 calls of one function, 49,000 locals and 100 calls, 10,000 locals each of which is read
# behind one call more than the one before (`reads`); SHAPES names the shapes, and may name one whose time and memory aren't linear: 10,000 results
# of calls left on the operand stack (`left`). Then beside `--save all` on ordinary
# functions with several calls each (2 MB): user time and length of what is written. At last the bytes that a pause takes in a few programs, by
# either policy and as `wasm-opt -O2 --asyncify` (Debian's binaryen) writes them.
# Fails where twice the size takes more than 2.6 times the time, past 1.3 times the time of `--save all`, and past 1.1 times its length.
. "$(dirname "$0")/common.sh"
runs=${RUNS:-3}

# A module of a shape, at so many quarters of its size.
make_module() {
    python3 - "$1" "$2" "$3" <<'PY'
import sys
from wasm_bytes import module, section, signed, sized, unsigned

shape, quarters, path = sys.argv[1], int(sys.argv[2]), sys.argv[3]
GET, PAUSE, ADD = b"\x20\x00", b"\x20\x00\x10\x00", b"\x6a"

def body(code, runs=b"\x00"):
    return sized(runs + code + b"\x0b")

# code of some bytes that keeps the operand on top
def plain(pieces):
    return b"".join(b"\x41" + signed(i % 1000) + b"\x6a\x41\x03\x6c" for i in range(pieces))

# a loop that reads a local of its own before the loops inside and sets another behind them
def loop(level, inner):
    here, there = unsigned(1 + level % 100), unsigned(1 + (level + 7) % 100)
    return b"\x03\x40" + b"\x20" + here + b"\x1a" + inner + GET + b"\x21" + there + b"\x20" + here + b"\x0d\x00\x0b"

def ordinary(i):
    here = PAUSE + plain(8) + b"\x21\x01" + GET + b"\x04\x40" + b"\x20\x01" + b"\x10" + unsigned(max(i, 1)) + b"\x21\x01\x0b"
    turns = b"\x03\x40" + b"\x20\x01" + PAUSE + ADD + b"\x22\x01" + b"\x41\x00\x48\x0d\x00\x0b"
    return body(here + turns + b"\x20\x01" + plain(12), b"\x01\x01\x7f")

if shape == "loops":
    code = PAUSE + b"\x1a"
    for level in range(125 * quarters):
        code = loop(level, code)
    bodies = [body(code + GET, b"\x01\x64\x7f")]
elif shape == "heavy":
    # the same with 2 KB of code in each loop
    code = PAUSE + b"\x1a"
    for level in range(125 * quarters):
        code = loop(level, GET + plain(250) + b"\x1a" + code)
    bodies = [body(code + GET, b"\x01\x64\x7f")]
elif shape == "calls":
    bodies = [body(GET + (PAUSE + ADD) * (2_500 * quarters))]
elif shape == "locals":
    count = 12_250 * quarters
    bodies = [body(GET + (PAUSE + ADD) * 100, b"\x01" + unsigned(count) + b"\x7f")]
elif shape == "left":
    bodies = [body(PAUSE * (2_500 * quarters) + ADD * (2_500 * quarters - 1))]
elif shape == "reads":
    count = 2_500 * quarters
    bodies = [body(GET + b"".join(PAUSE + ADD + b"\x20" + unsigned(1 + i) + ADD for i in range(count)), b"\x01" + unsigned(count) + b"\x7f")]
elif shape == "ordinary":
    bodies = [ordinary(i) for i in range(4_500 * quarters)]
count = len(bodies)
whole = module(
    section(1, [b"\x60\x01\x7f\x01\x7f"]),
    section(2, [sized(b"env") + sized(b"pause") + b"\x00\x00"]),
    section(3, [b"\x00"] * count),
    section(5, [b"\x00\x02"]),
    section(7, [sized(b"run") + b"\x00" + unsigned(count)]),
    section(10, bodies))
open(path, "wb").write(whole)
PY
}

# What `transform` of this policy writes, checked: POLICY
write_module() {
    "$asyncify" transform --save "$1" "$temp/in.wasm" "$temp/$1.wasm" >/dev/null
    if has_peer wasm-validate; then
        wasm-validate "$temp/$1.wasm" || { echo "what is written isn't valid"; failed=1; }
    fi
}

# The bytes of the first pause of a rewritten module, or `none`: MODULE LINES
bytes_of_pause() {
    printf "program $1\narea 16384 16384\n$2" >"$temp/script"
    "$asyncify" host "$temp/script" | sed -n 's/.* pause until .* area \([0-9]*\) of .*/\1/p' | head -1 | grep . || echo none
}

# What a pause takes by each policy and in the peer's module: NAME MODULE LINES
tell_pause() {
    local name=$1 lines=$3 policy found=
    cp "$2" "$temp/in.wasm"
    for policy in live all; do
        write_module $policy
        found+="$policy $(bytes_of_pause "$temp/$policy.wasm" "$lines"), "
    done
    if has_peer wasm-opt; then
        wasm-opt -O2 --asyncify "$temp/in.wasm" -o "$temp/peer.wasm"
        found+="wasm-opt $(bytes_of_pause "$temp/peer.wasm" "$lines")"
    fi
    echo "$name: bytes of a pause: $found"
}

build_asyncify
for shape in ${SHAPES:-loops heavy calls locals reads}; do
    before=
    for part in 1 2 4; do
        make_module "$shape" "$part" "$temp/in.wasm"
        read -r time kilobytes < <(measure 0 "$runs" "$asyncify" transform --save live "$temp/in.wasm" "$temp/out.wasm")
        echo "$shape: $(stat -c %s "$temp/in.wasm") bytes in $time s and $kilobytes KB, to $(stat -c %s "$temp/out.wasm") bytes"
        [ "$time" = none ] && { failed=1; break; }
        [ -n "$before" ] && bar "$time <= 2.6 * $before + 0.03" "twice the size takes more than 2.6 times the time"
        before=$time
    done
done

make_module ordinary 4 "$temp/in.wasm"
write_module live
write_module all
read -r live all < <(in_turns "$runs" 0 "$asyncify" transform --save live "$temp/in.wasm" "$temp/out.wasm" -- 0 "$asyncify" transform --save all "$temp/in.wasm" "$temp/out.wasm")
live_bytes=$(stat -c %s "$temp/live.wasm") all_bytes=$(stat -c %s "$temp/all.wasm")
echo "ordinary: live in $live s to $live_bytes bytes, all in $all s to $all_bytes bytes"
bar "$live <= 1.3 * $all" "more than 1.3 times the time of all"
bar "$live_bytes <= 1.1 * $all_bytes" "more than 1.1 times as long as under all"

rows=$bench/../tests/rows
tell_pause recursion "$rows/deepest_recursion/given/recursion.wasm" 'enter run i32:20\nanswer env.pause i32:5 ticks 1\n'
tell_pause compiled "$rows/compiled_program_pauses_often/given/compiled.wasm" 'enter run i32:1\nanswer env.sleep i32:5 ticks 1\n'
tell_pause division "$rows/wide_values_and_a_trap_after_a_pause/given/division_after_pause.wasm" 'enter run\nanswer env.pause i32:5 ticks 1\n'
make_module ordinary 1 "$temp/ordinary.wasm"
tell_pause ordinary "$temp/ordinary.wasm" 'enter run i32:9\nanswer env.pause i32:5 ticks 1\n'
exit $failed
