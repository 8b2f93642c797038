#!/usr/bin/env bash
# Times the rewriting of modules that pause, `asyncify transform` beside `wasm-opt --asyncify` (Debian's binaryen) with the same list of
# imports and no optimisation, whose checker (`wasm-validate`, Debian's wabt) takes what is written. Each shape is made at a quarter, half
# and the whole of its size: ordinary functions with several calls each (2 MB), 10,000 calls in one function, 1,000 nested ifs with
# a call each, 49,000 locals and 100 calls, 30,000 small functions, one body of 1 MB, 1,000 nested ifs with results, and 100,000 small blocks above
# 1,000 operands. User time, the least of RUNS runs (3); SHAPES names the shapes to time.
# Fails where twice the size takes more than 2.6 times the time; for ordinary functions past a quarter of the peer's user time and
# past 64 bytes of memory a byte of file; past 0.3 s for 5,000 calls in a function and for nested ifs with calls.
. "$(dirname "$0")/common.sh"
runs=${RUNS:-3}

# A module of a shape, at so many quarters of its size.
make_module() {
    python3 - "$1" "$2" "$3" <<'PY'
import sys
from wasm_bytes import module, section, signed, sized, unsigned

shape, quarters, path = sys.argv[1], int(sys.argv[2]), sys.argv[3]
GET, PAUSE, ADD = b"\x20\x00", b"\x20\x00\x10\x00", b"\x6a"

def body(code, runs=b"\x00"):
    return sized(runs + code + b"\x0b")

# code of some bytes that keeps the operand on top
def plain(pieces):
    return b"".join(b"\x41" + signed(i % 1000) + b"\x6a\x41\x03\x6c" for i in range(pieces))

def ordinary(i):
    here = PAUSE + plain(8) + b"\x21\x01" + GET + b"\x04\x40" + b"\x20\x01" + b"\x10" + unsigned(max(i, 1)) + b"\x21\x01\x0b"
    turns = b"\x03\x40" + b"\x20\x01" + PAUSE + ADD + b"\x22\x01" + b"\x41\x00\x48\x0d\x00\x0b"
    return body(here + turns + b"\x20\x01" + plain(12), b"\x01\x01\x7f")

def nested(depth, inner):
    if depth == 0:
        return inner
    return GET + b"\x04\x7f" + inner + b"\x05" + b"\x41\x00" + b"\x0b"

if shape == "ordinary":
    bodies = [ordinary(i) for i in range(4_500 * quarters)]
elif shape == "calls":
    bodies = [body(GET + (PAUSE + ADD) * (2_500 * quarters))]
elif shape == "ifs":
    code = GET
    for _ in range(250 * quarters - 5):
        code = nested(1, PAUSE + code + ADD)
    bodies = [body(code)]
elif shape == "locals":
    count = 12_250 * quarters
    bodies = [body(GET + (PAUSE + ADD) * 100, b"\x01" + unsigned(count) + b"\x7f")]
elif shape == "small":
    bodies = [body(PAUSE + plain(1))] * (7_500 * quarters)
elif shape == "long":
    bodies = [body(PAUSE + plain(36_000 * quarters))]
elif shape == "results":
    code = PAUSE
    for _ in range(250 * quarters - 5):
        code = nested(1, code)
    bodies = [body(code)]
elif shape == "blocks":
    block = b"\x02\x40\x0b"
    bodies = [body(GET * 1_000 + block * (25_000 * quarters) + PAUSE + ADD * 1_000)]
count = len(bodies)
whole = module(
    section(1, [b"\x60\x01\x7f\x01\x7f"]),
    section(2, [sized(b"env") + sized(b"pause") + b"\x00\x00"]),
    section(3, [b"\x00"] * count),
    section(5, [b"\x00\x02"]),
    section(7, [sized(b"run") + b"\x00" + unsigned(count)]),
    section(10, bodies))
open(path, "wb").write(whole)
PY
}

build_asyncify
for shape in ${SHAPES:-ordinary calls ifs locals small long results blocks}; do
    before=
    for part in 1 2 4; do
        make_module "$shape" "$part" "$temp/in.wasm"
        read -r time kilobytes < <(measure 0 "$runs" "$asyncify" transform --imports env.pause "$temp/in.wasm" "$temp/out.wasm")
        bytes=$(stat -c %s "$temp/in.wasm")
        echo "$shape: $bytes bytes in $time s and $kilobytes KB, to $(stat -c %s "$temp/out.wasm") bytes"
        [ "$time" = none ] && { failed=1; break; }
        [ -n "$before" ] && bar "$time <= 2.6 * $before + 0.03" "twice the size takes more than 2.6 times the time"
        before=$time
        [ "$shape/$part" = calls/2 ] && bar "$time <= 0.3" "more than 0.3 s"
        [ "$shape/$part" = ifs/4 ] && bar "$time <= 0.3" "more than 0.3 s"
    done
    [ "$time" = none ] && continue
    [ "$shape" = ordinary ] && bar "$kilobytes * 1024 <= 64 * $bytes" "more than 64 bytes of memory a byte"
    if has_peer wasm-validate; then
        wasm-validate "$temp/out.wasm" || { echo "what is written isn't valid"; failed=1; }
    fi
    # In one function of many calls the peer takes minutes.
    if [ "$shape" = ordinary ] && has_peer wasm-opt; then
        read -r peer peer_kilobytes < <(measure 0 1 wasm-opt --asyncify --pass-arg=asyncify-imports@env.pause "$temp/in.wasm" -o "$temp/peer.wasm")
        echo "$shape: wasm-opt in $peer s and $peer_kilobytes KB, to $(stat -c %s "$temp/peer.wasm") bytes"
        bar "$time <= $peer / 4" "more than a quarter of wasm-opt's time"
    fi
done
exit $failed
