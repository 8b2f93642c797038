#!/usr/bin/env bash
# Times reading and writing: bench/loops on modules of 8 to 64 MB just below the bounds of prepared
# modules, in three shapes: small bodies, as many as there may be; one long body; data segments. User time and greatest
# resident memory, beside `wasm-opt` reading and writing the same file (Debian's binaryen). Fails where a doubled size takes
# more than 2.6 times the time, or where more than half of wasm-opt's time is taken.
. "$(dirname "$0")/common.sh"

# A module of a kind and at most so many bytes, in its shortest spelling.
make_module() {
    python3 - "$1" "$2" "$3" <<'PY'
import sys
from wasm_bytes import module, section, sized

kind, size, path = sys.argv[1], int(sys.argv[2]), sys.argv[3]
piece = b"\x20\x00\x41\x2a\x6b\x1a"
if kind == "small":
    count = 100_000
    pieces = (size // count - 12) // len(piece)
    bodies = [sized(b"\x00" + piece * pieces + b"\x20\x00\x0b")] * count
    sections = [section(3, [b"\x00"] * count), section(10, bodies)]
elif kind == "long":
    body = b"\x00" + piece * ((size - 64) // len(piece)) + b"\x20\x00\x0b"
    sections = [section(3, [b"\x00"]), section(10, [sized(body)])]
elif kind == "data":
    segment = b"\x00\x41\x00\x0b" + sized(b"x" * 64)
    sections = [section(5, [b"\x00\x01"]), section(11, [segment] * ((size - 64) // len(segment)))]
open(path, "wb").write(module(section(1, [b"\x60\x01\x7f\x01\x7f"]), *sections))
PY
}

build_loops "$temp/loops"
for kind in small long data; do
    before=
    for megabytes in 8 16 32 64; do
        make_module "$kind" $((megabytes * 1048576)) "$temp/in.wasm"
        bytes=$(stat -c %s "$temp/in.wasm")
        read -r time kilobytes < <(measure 0 1 "$temp/loops" encode "$temp/in.wasm" "$temp/out.wasm")
        cmp -s "$temp/in.wasm" "$temp/out.wasm" || { echo "$kind: the bytes differ"; exit 1; }
        echo "$kind: $bytes bytes in $time s, $((kilobytes * 1024 / bytes)) bytes of memory a byte"
        if has_peer wasm-opt; then
            read -r opt _ < <(measure 0 1 wasm-opt "$temp/in.wasm" -o "$temp/peer.wasm")
            echo "$kind: wasm-opt $opt s"
            bar "$time <= $opt / 2" "$kind: past half of wasm-opt's time"
        fi
        [ -z "$before" ] || bar "$time <= 2.6 * $before" "$kind: more than linear"
        before=$time
    done
done
exit $failed
