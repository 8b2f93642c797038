#!/usr/bin/env bash
# Times `asyncify host`: a loop of 120 million reductions beside the interpreter alone (bench/loops) on the same module; a script
# of 1 MiB of answer lines; and pauses of a small frame, as many as a script has answer lines for, at a quarter, half and the whole.
# User time, the least of RUNS runs (3). Fails where the loop takes more than 1.05 times the interpreter's time, the script more than
# 0.2 s, or twice the pauses more than 2.6 times the time.
. "$(dirname "$0")/common.sh"
runs=${RUNS:-3}

# A module whose function `run` goes through rounds with a load each, or calls an import in each of them: KIND ROUNDS PATH
make_module() {
    python3 - "$@" <<'PY'
import sys
from wasm_bytes import module, section, signed, sized, unsigned

kind, rounds, path = sys.argv[1], int(sys.argv[2]), sys.argv[3]
const = lambda n: b"\x41" + signed(n)
turn = b"\x20\x00" + const(-1) + b"\x6a\x22\x00\x0d\x00"
inner = b"\x20\x01\x20\x00" + const(65532) + b"\x71\x28\x02\x00\x6a\x21\x01" if kind == "loads" else b"\x10\x00"
code = const(rounds) + b"\x21\x00\x03\x40" + inner + turn + b"\x0b\x20\x01"
open(path, "wb").write(module(
    section(1, [b"\x60\x00\x01\x7f", b"\x60\x00\x00"]),
    section(2, [sized(b"e") + sized(b"p") + b"\x00\x01"]),
    section(3, [b"\x00"]),
    section(5, [b"\x00\x01"]),
    section(7, [b"\x03run\x00\x01"]),
    section(10, [sized(b"\x01\x02\x7f" + code + b"\x0b")])))
PY
}

# Hosts a written module by a script of these lines behind its program line, and prints its time.
hosted() {
    printf 'program %s\narea 0 64\nsteps 1000000000\n' "$1" | cat - "$2" >"$temp/script"
    measure 0 "$runs" "$asyncify" host "$temp/script" | cut -d ' ' -f 1
}

build_asyncify
build_loops "$temp/loops"

make_module loads 10000000 "$temp/in.wasm"
"$asyncify" transform --ignore-imports "$temp/in.wasm" "$temp/loop.wasm" >/dev/null
echo "enter run" >"$temp/lines"
time=$(hosted "$temp/loop.wasm" "$temp/lines")
read -r alone _ < <(measure 0 "$runs" "$temp/loops" interp "$temp/loop.wasm")
echo "loop: $time s, the interpreter alone $alone s"
bar "$time <= 1.05 * $alone" "loop: more than 1.05 times the interpreter's time"

python3 -c 'print(end="answer e.p none poke 64 00\n" * (1_048_400 // 27))' >"$temp/lines"
time=$(hosted "$temp/loop.wasm" "$temp/lines")
echo "script of $(stat -c %s "$temp/script") bytes: $time s"
bar "$time <= 0.2" "script: more than 0.2 s"

before=
for pauses in 10000 20000 40000; do
    make_module pauses "$pauses" "$temp/in.wasm"
    "$asyncify" transform "$temp/in.wasm" "$temp/pauses.wasm" >/dev/null
    { echo "enter run"; python3 -c "print(end='answer e.p none ticks 1\n' * $pauses)"; } >"$temp/lines"
    time=$(hosted "$temp/pauses.wasm" "$temp/lines")
    grep -q "events $((pauses + 1))\$" "$temp/printed" || { echo "pauses: $(tail -1 "$temp/printed")"; failed=1; }
    echo "$pauses pauses: $time s"
    [ -z "$before" ] || bar "$time <= 2.6 * $before + 0.02" "twice the pauses take more than 2.6 times the time"
    before=$time
done
exit $failed
