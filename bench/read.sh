#!/usr/bin/env bash
# Times reading and validating: `asyncify transform` of modules whose last body alone isn't valid (status 5), so that nothing is
# rewritten, and of a malformed one (status 3). User time, the least of RUNS runs (3), and greatest resident memory, beside `wasm-opt`
# reading and writing the same file with a valid last body and `wasm-validate` (Debian's binaryen and wabt). Fails where a byte takes more than 1.3
# times the time of one in the next smaller file, where the 8 MB take more than half of wasm-opt's time or more than 64 bytes
# of memory a byte, or where blocks that never end are refused in more than twice the time of a file of that size of nested
# blocks; says whether half of wasm-validate's time is kept too. Then the least native stack in which files are read and dropped whose nesting is the
# deepest of a source (a reserved name refuses it, status 7) and of a prepared module (bench/loops); fails where that is more than 64 KiB.
. "$(dirname "$0")/common.sh"
runs=${RUNS:-3}

# A module of a kind and about so many megabytes, with an invalid last body, and beside it, `.valid`, with a valid one.
make_module() {
    python3 - "$1" "$2" "$3" <<'PY'
import sys
from wasm_bytes import INVALID, VALID, module, section, sized, unsigned

kind, megabytes, path = sys.argv[1], float(sys.argv[2]), sys.argv[3]
size = int(megabytes * 1_000_000)
if kind == "many":
    piece = b"\x20\x00" + b"\x41\x2a\x6b" * 30 + b"\x0b"
    bodies = [sized(b"\x00" + piece)] * (size // (len(piece) + 3))
elif kind == "long":
    piece = b"\x20\x00\x41\x2a\x6b\x1a" * 170_000 + b"\x20\x00\x0b"
    bodies = [sized(b"\x00" + piece)] * max(1, size // len(piece))
elif kind == "deep":
    piece = b"\x02\x40" * 999 + b"\x0b" * 999 + b"\x20\x00\x0b"
    bodies = [sized(b"\x00" + piece)] * (size // (len(piece) + 4))
elif kind == "labels":
    piece = b"\x02\x40\x20\x00\x0e" + unsigned(10_000) + b"\x00" * 10_000 + b"\x00\x0b\x20\x00\x0b"
    bodies = [sized(b"\x00" + piece)] * (size // (len(piece) + 4))
if kind == "open":
    code = b"\x01" + unsigned(size) + b"\x00" + b"\x02\x40" * (size // 2)
    whole = module(section(1, [b"\x60\x00\x00"]), section(3, [b"\x00"]), b"\x0a" + unsigned(len(code) + 16) + code)
    open(path, "wb").write(whole)
else:
    for last, name in (INVALID, path), (VALID, path + ".valid"):
        all = [*bodies, last]
        whole = module(section(1, [b"\x60\x01\x7f\x01\x7f"]), section(3, [b"\x00"] * len(all)), section(10, all))
        open(name, "wb").write(whole)
PY
}

build_asyncify
for kind in many long deep labels; do
    before=
    for megabytes in 1 2 4 8; do
        make_module "$kind" "$megabytes" "$temp/in.wasm"
        bytes=$(stat -c %s "$temp/in.wasm")
        read -r time kilobytes < <(measure 5 "$runs" "$asyncify" transform "$temp/in.wasm" "$temp/out.wasm")
        echo "$kind: $bytes bytes in $time s, $((kilobytes * 1024 / bytes)) bytes of memory a byte"
        [ -z "$before" ] || bar "$time <= 1.3 * $before * $bytes / $fewer + 0.02" "$kind: a byte takes 1.3 times the time of before"
        before=$time fewer=$bytes
    done
    if has_peer wasm-opt; then
        read -r opt _ < <(measure 0 1 wasm-opt "$temp/in.wasm.valid" -o "$temp/out.wasm")
        echo "$kind: wasm-opt $opt s"
        bar "$time <= $opt / 2" "$kind: past half of wasm-opt's time"
    fi
    if has_peer wasm-validate; then
        read -r valid _ < <(measure 0 "$runs" wasm-validate "$temp/in.wasm.valid")
        echo "$kind: wasm-validate $valid s"
        holds "$time <= $valid / 2" || echo "$kind: past half of wasm-validate's time"
    fi
    bar "$kilobytes * 1024 <= 64 * $bytes" "$kind: past 64 bytes of memory a byte"
    [ "$kind" = deep ] && nested=$time
done
make_module open 8 "$temp/in.wasm"
read -r time kilobytes < <(measure 3 "$runs" "$asyncify" transform "$temp/in.wasm" "$temp/out.wasm")
echo "blocks that never end: $(stat -c %s "$temp/in.wasm") bytes refused in $time s, $kilobytes kB"
bar "$time <= 2 * $nested" "past twice the time of a file of that size"

# A file of constructs nested so many levels deep, of each kind in turn, in a module with a reserved name.
make_nested() {
    python3 - "$1" "$2" <<'PY'
import sys
from wasm_bytes import module, section, sized

code = b""
for level in range(int(sys.argv[1])):
    code = [b"\x02\x40\x01" + code + b"\x0b", b"\x03\x40" + code + b"\x01\x0b", b"\x41\x00\x04\x40\x01" + code + b"\x05\x01\x0b",
            b"\x41\x00\x04\x40\x01\x05" + code + b"\x01\x0b"][level % 4]
export = sized(b"asyncify_get_state") + b"\x00\x00"
parts = section(1, [b"\x60\x00\x00"]), section(3, [b"\x00"]), section(7, [export]), section(10, [sized(b"\x00" + code + b"\x0b")])
open(sys.argv[2], "wb").write(module(*parts))
PY
}

build_loops "$temp/loops"
make_nested 1000 "$temp/in.wasm"
kibibytes=$(least_stack 7 "$asyncify" transform "$temp/in.wasm" "$temp/out.wasm")
echo "a source of 1,000 levels: read and dropped in $kibibytes KiB of stack"
bar "$kibibytes <= 64" "past 64 KiB of stack"
make_nested 3008 "$temp/in.wasm"
kibibytes=$(least_stack 0 "$temp/loops" read "$temp/in.wasm")
echo "a prepared module of 3,008 levels: read and dropped in $kibibytes KiB of stack"
bar "$kibibytes <= 64" "past 64 KiB of stack"
exit $failed
