#!/usr/bin/env bash
# Times `asyncify host` on sixteen programs that pause in turns, each for a quarter, half and the whole of 10,000 pauses of a small frame,
# answered by the counter, and on sixteen that pass 25,000, 50,000 and 100,000 values round a ring of mailboxes. User time, the least of
# RUNS runs (3). Fails where twice the pauses, or the values, take more than 2.6 times the time, or where sixteen programs take more than
# 1.1 times sixteen runs of one.
. "$(dirname "$0")/common.sh"
runs=${RUNS:-3}

# A module whose function `run` calls an import so many times: ROUNDS PATH
make_module() {
    python3 - "$@" <<'PY'
import sys
from wasm_bytes import module, section, signed, sized

rounds, path = int(sys.argv[1]), sys.argv[2]
const = lambda n: b"\x41" + signed(n)
turn = b"\x20\x00" + const(-1) + b"\x6a\x22\x00\x0d\x00"
code = const(rounds) + b"\x21\x00\x03\x40\x10\x00\x1a" + turn + b"\x0b\x20\x00"
open(path, "wb").write(module(
    section(1, [b"\x60\x00\x01\x7f"]),
    section(2, [sized(b"e") + sized(b"p") + b"\x00\x00"]),
    section(3, [b"\x00"]),
    section(7, [b"\x03run\x00\x01"]),
    section(10, [sized(b"\x01\x01\x7f" + code + b"\x0b")])))
PY
}

# A module whose function `pass` receives, adds 1 and sends, so many times as its argument says, and whose `first` sends its argument: PATH
make_ring() {
    python3 - "$@" <<'PY'
import sys
from wasm_bytes import module, section, signed, sized

const = lambda n: b"\x41" + signed(n)
get, put = (sized(b"m") + sized(name) + b"\x00" + ty for name, ty in ((b"get", b"\x00"), (b"put", b"\x01")))
turn = b"\x10\x00" + const(1) + b"\x6a\x10\x01\x20\x00" + const(-1) + b"\x6a\x22\x00\x0d\x00"
body = lambda code: sized(b"\x00" + code + b"\x0b")
open(sys.argv[1], "wb").write(module(
    section(1, [b"\x60\x00\x01\x7f", b"\x60\x01\x7f\x00"]),
    section(2, [get, put]),
    section(3, [b"\x01", b"\x01"]),
    section(7, [sized(b"first") + b"\x00\x02", sized(b"pass") + b"\x00\x03"]),
    section(10, [body(b"\x20\x00\x10\x01"), body(b"\x03\x40" + turn + b"\x0b")])))
PY
}

# Hosts a ring of sixteen programs over a written module, each of which passes so many values on, and finds the time: MODULE VALUES
ringed() {
    for number in {0..15}; do
        printf 'mailbox %s\nprogram %s\narea 0 64\ndevice m.get %s\ndevice m.put %s\n' "$number" "$1" "$number" $(((number + 1) % 16))
        [ "$number" != 0 ] || echo 'enter first i32:0'
        echo "enter pass i32:$2"
    done >"$temp/script"
    read -r time _ < <(measure 0 "$runs" "$asyncify" host "$temp/script")
    grep -q "^programs 16 events" "$temp/printed" && ! grep -q stalled "$temp/printed" || { echo "a ring of $2: $(tail -1 "$temp/printed")"; failed=1; }
}

# Hosts so many programs over a written module, and finds the time: COUNT MODULE PAUSES
hosted() {
    for _ in $(seq "$1"); do
        printf 'program %s\narea 0 64\ndevice e.p counter\nenter run\n' "$2"
    done >"$temp/script"
    read -r time _ < <(measure 0 "$runs" "$asyncify" host "$temp/script")
    grep -q "programs $1 events $(($1 * ($3 + 1)))\$" "$temp/printed" || { echo "$1 programs: $(tail -1 "$temp/printed")"; failed=1; }
}

build_asyncify
before=
for pauses in 2500 5000 10000; do
    make_module "$pauses" "$temp/in.wasm"
    "$asyncify" transform "$temp/in.wasm" "$temp/out.wasm" >/dev/null
    hosted 16 "$temp/out.wasm" "$pauses"
    echo "16 programs, $pauses pauses each: $time s"
    [ -z "$before" ] || bar "$time <= 2.6 * $before + 0.02" "twice the pauses take more than 2.6 times the time"
    before=$time
done
make_ring "$temp/ring.wasm"
"$asyncify" transform "$temp/ring.wasm" "$temp/ring_out.wasm" >/dev/null
last=
for values in 1563 3125 6250; do
    ringed "$temp/ring_out.wasm" "$values"
    echo "16 programs, $((16 * values)) values round a ring of mailboxes: $time s"
    [ -z "$last" ] || bar "$time <= 2.6 * $last + 0.02" "twice the values take more than 2.6 times the time"
    last=$time
done
# one run of one is too short to be measured alone
hosted 1 "$temp/out.wasm" 10000
printf 'for _ in $(seq 16); do "%s" host "%s"; done\n' "$asyncify" "$temp/script" >"$temp/alone"
read -r time _ < <(measure 0 "$runs" bash "$temp/alone")
echo "sixteen runs of one program, 10000 pauses: $time s"
bar "$before <= 1.1 * $time + 0.02" "sixteen programs take more than 1.1 times sixteen runs of one"
exit $failed
