#!/usr/bin/env bash
# Times `asyncify transform` on a module of about 6 MB with each section in use, of which nothing may pause: user time and
# greatest resident memory, beside those of `wasm-opt` reading and writing the same file (Debian's binaryen), whose checker
# (`wasm-validate`, Debian's wabt) takes what is written.
# Then `run` with a LIST of as many beginnings as the module has imports, none of which begins with one: 25,000, 50,000 and 100,000.
# At last the least native stack in which functions are rewritten that pause inside 1,000 constructs of one kind, by either policy.
# Fails past half of wasm-opt's user time, past 48 bytes of memory a byte of file, where twice the functions take far more than twice the
# time, twice the imports and beginnings more than 2.3 times, or where that stack is more than 1 MiB (512 KiB is wanted again).
. "$(dirname "$0")/common.sh"

# A module of so many functions [i32] -> [i32] with blocks, branches, memory and calls of the neighbour, each exported under
# a name of its own and standing in the table, beside imports that nobody calls, globals, data, a start function and customs.
make_module() {
    python3 - "$1" "$2" <<'PY'
import sys
from wasm_bytes import module, section, signed, sized, unsigned

functions, path = int(sys.argv[1]), sys.argv[2]
imports = functions // 100

def imported(i):
    return sized(b"env") + sized(b"import%d" % i) + b"\x00\x00"

def body(i):
    code = b"\x20\x00" + b"\x41\x2a\x6a" * 6 + b"\x02\x40\x20\x00\x0d\x00\x20\x00\x41" + signed(i) + b"\x36\x02\x08\x0b"
    code += b"\x20\x00\x28\x02\x04\x6a\x23" + unsigned(i % 100 + 1) + b"\x6a\x10" + unsigned(imports + (i + 1) % functions)
    return sized(b"\x01\x02\x7f" + code + b"\x0b")

def custom(name, content):
    return b"\x00" + sized(sized(name) + content)

zero = b"\x41\x00\x0b"
whole = module(
    section(1, [b"\x60\x01\x7f\x01\x7f", b"\x60\x00\x00"]),
    section(2, [*map(imported, range(imports)), sized(b"env") + sized(b"global") + b"\x03\x7f\x00"]),
    section(3, [b"\x00"] * functions + [b"\x01"]),
    section(4, [b"\x70\x00" + unsigned(functions)]),
    section(5, [b"\x00\x10"]),
    section(6, [b"\x7f\x01\x41" + signed(i) + b"\x0b" for i in range(100)]),
    section(7, [sized(b"function%d" % i) + b"\x00" + unsigned(imports + i) for i in range(functions)]),
    bytes([8]) + sized(unsigned(imports + functions)),
    section(9, [b"\x00" + zero + unsigned(functions) + b"".join(unsigned(imports + i) for i in range(functions))]),
    section(10, [*map(body, range(functions)), sized(b"\x00\x0b")]),
    section(11, [b"\x00\x41" + signed(16 * i) + b"\x0b" + sized(b"0123456789abcdef") for i in range(functions // 8)]),
    custom(b"name", b"\x00\x02\x01m"),
    custom(b"producers", bytes(functions)))
open(path, "wb").write(whole)
PY
}

# A module of so many imported functions, and a script that runs it with as many beginnings listed.
make_list() {
    python3 - "$1" "$2" <<'PY'
import os, sys
from wasm_bytes import module, section, sized

count, folder = int(sys.argv[1]), sys.argv[2]
imports = [sized(b"e") + sized(b"%05d" % i) + b"\x00\x00" for i in range(count)]
whole = module(section(1, [b"\x60\x00\x00"]), section(2, imports), section(5, [b"\x00\x01"]))
open(os.path.join(folder, "listed.wasm"), "wb").write(whole)
listed = ",".join("e.%05dx*" % i for i in range(count))
open(os.path.join(folder, "script"), "w").write("program listed.wasm\narea 0 8\nimports " + listed + "\n")
PY
}

# A function that pauses inside so many constructs of a kind.
make_nested() {
    python3 - "$1" "$2" "$3" <<'PY'
import sys
from wasm_bytes import module, section, sized

kind, levels, path = sys.argv[1], int(sys.argv[2]), sys.argv[3]
GET = b"\x20\x00"
code = GET + b"\x10\x00\x21\x00"
for _ in range(levels):
    code = {
        "blocks": b"\x02\x40" + code + b"\x0b",
        "loops": b"\x03\x40" + code + GET + b"\x0d\x00\x0b",
        "arms": GET + b"\x04\x40" + code + b"\x0b",
        "others": GET + b"\x04\x40\x01\x05" + code + b"\x0b",
    }[kind]
whole = module(
    section(1, [b"\x60\x01\x7f\x01\x7f"]),
    section(2, [sized(b"env") + sized(b"pause") + b"\x00\x00"]),
    section(3, [b"\x00"]),
    section(5, [b"\x00\x01"]),
    section(7, [sized(b"run") + b"\x00\x01"]),
    section(10, [sized(b"\x00" + code + GET + b"\x0b")]))
open(path, "wb").write(whole)
PY
}

build_asyncify
make_module 40000 "$temp/half.wasm"
make_module 80000 "$temp/in.wasm"
bytes=$(stat -c %s "$temp/in.wasm")
read -r half _ < <(measure 0 1 "$asyncify" transform "$temp/half.wasm" "$temp/out.wasm")
read -r time kilobytes < <(measure 0 1 "$asyncify" transform "$temp/in.wasm" "$temp/out.wasm")
echo "asyncify: $bytes bytes, user time $time s (half of the functions: $half s), memory $kilobytes KB"
bar "$kilobytes * 1024 <= 48 * $bytes" "more than 48 bytes of memory a byte"
bar "$time <= 3 * $half + 0.1" "more than linear"
if has_peer wasm-validate; then
    wasm-validate "$temp/out.wasm" || { echo "what is written isn't valid"; failed=1; }
fi
if has_peer wasm-opt; then
    read -r peer peer_kilobytes < <(measure 0 1 wasm-opt "$temp/in.wasm" -o "$temp/peer.wasm")
    echo "wasm-opt: user time $peer s, memory $peer_kilobytes KB"
    bar "$time <= $peer / 2" "more than half of wasm-opt's time"
fi
before=
for count in 25000 50000 100000; do
    make_list "$count" "$temp"
    read -r time kilobytes < <(cd "$temp" && measure 0 3 "$asyncify" run script)
    echo "$count imports, as many beginnings: $time s and $kilobytes KB"
    [ -z "$before" ] || bar "$time <= 2.3 * $before + 0.01" "twice the imports and beginnings take more than 2.3 times the time"
    before=$time
done
for kind in blocks loops arms others; do
    make_nested "$kind" 1000 "$temp/in.wasm"
    for policy in all live; do
        kibibytes=$(least_stack 0 "$asyncify" transform --save "$policy" "$temp/in.wasm" "$temp/out.wasm")
        echo "a pause inside 1,000 $kind, $policy: $kibibytes KiB of stack"
        bar "$kibibytes <= 1024" "past 1 MiB of stack"
    done
done
exit $failed
