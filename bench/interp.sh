#!/usr/bin/env bash
# Times the interpreter (bench/loops, which calls `Instance::begin` on the function `run` of a module): a loop of
# as many rounds as the argument says, or 10 million, each with a load and two additions, beside `wasm-interp` (Debian's
# wabt) running the same file; and runs over nested blocks, locals and calls, each at one size and at twice that size.
# Takes the best user time of five runs of each. Fails where the loop makes less than 20 million reductions a second or
# takes longer than `wasm-interp`, where the two results differ, or where twice a size takes more than 2.6 times as long.
. "$(dirname "$0")/common.sh"
rounds=${1:-10000000}

# A module of a kind and size, whose function `run` has no parameters and goes through so many rounds.
make_module() {
    python3 - "$@" <<'PY'
import sys
from wasm_bytes import module, section, signed, sized, unsigned

kind, size, rounds, path = sys.argv[1], int(sys.argv[2]), int(sys.argv[3]), sys.argv[4]

def const(n):
    return b"\x41" + signed(n)

def get(x):
    return b"\x20" + unsigned(x)

def set_to(x):
    return b"\x21" + unsigned(x)

# a function with so many i32 as locals behind its parameters
def function(locals, body):
    runs = [unsigned(locals) + b"\x7f"] if locals else []
    return sized(unsigned(len(runs)) + b"".join(runs) + body + b"\x0b")

ADD, AND, LOAD, CALL, NULLARY, UNARY = b"\x6a", b"\x71", b"\x28\x02\x00", b"\x10", 0, 1

# what is done in each round, with local 0 counting down to 0 and local 1 as the sum
def loop(inner):
    turn = get(0) + const(-1) + ADD + b"\x22\x00\x0d\x00"
    return const(rounds) + set_to(0) + b"\x03\x40" + inner + turn + b"\x0b" + get(1)

if kind == "loads": # the sum of the numbers at many addresses
    inner = get(1) + get(0) + const(65532) + AND + LOAD + ADD + set_to(1)
    funcs = [(NULLARY, function(2, loop(inner)))]
elif kind == "nesting": # blocks in one another, with a branch out of all of them
    inner = b"\x02\x40" * size + b"\x0c" + unsigned(size - 1) + b"\x0b" * size
    funcs = [(NULLARY, function(2, loop(inner)))]
elif kind == "locals": # a call of a function with many locals, of which the last one is written and read
    inner = get(1) + const(1) + CALL + b"\x01" + ADD + set_to(1)
    funcs = [(NULLARY, function(2, loop(inner))), (UNARY, function(size, get(0) + set_to(size) + get(size)))]
elif kind == "calls": # calls in one another
    inner = get(1) + const(size) + CALL + b"\x01" + ADD + set_to(1)
    deeper = get(0) + b"\x04\x7f" + get(0) + const(-1) + ADD + CALL + b"\x01" + const(1) + ADD + b"\x05" + const(0) + b"\x0b"
    funcs = [(NULLARY, function(2, loop(inner))), (UNARY, function(0, deeper))]
open(path, "wb").write(module(
    section(1, [b"\x60\x00\x01\x7f", b"\x60\x01\x7f\x01\x7f"]),
    section(3, [unsigned(sort) for sort, _ in funcs]),
    section(5, [b"\x00\x01"]),
    section(7, [b"\x03run\x00\x00"]),
    section(10, [body for _, body in funcs]),
    section(11, [b"\x00" + const(0) + b"\x0b" + sized(bytes(n * 37 % 256 for n in range(65536)))])))
PY
}

build_loops "$temp/loops"
make_module loads 0 "$rounds" "$temp/loads.wasm"
read -r time _ < <(measure 0 5 "$temp/loops" interp "$temp/loads.wasm")
sum=$(sed -n 1p "$temp/printed")
steps=$(sed -n 's/ steps$//p' "$temp/printed")
echo "loop: $steps reductions in $time s, $(python3 -c "print(round($steps / $time / 1e6))") million a second"
bar "$steps >= 20_000_000 * $time" "loop: below 20 million a second"
if has_peer wasm-interp; then
    read -r other _ < <(measure 0 5 wasm-interp "$temp/loads.wasm" --run-all-exports)
    echo "loop: wasm-interp $other s"
    [ "$(cat "$temp/printed")" = "$sum" ] || { echo "loop: wasm-interp answers $(cat "$temp/printed"), not $sum"; failed=1; }
    bar "$time <= $other" "loop: longer than wasm-interp"
fi

# times a kind at one size and at twice that size
doubled() {
    make_module "$1" "$2" "$3" "$temp/once.wasm"
    make_module "$1" "$(($2 * 2))" "$3" "$temp/twice.wasm"
    local once twice
    read -r once _ < <(measure 0 5 "$temp/loops" interp "$temp/once.wasm")
    read -r twice _ < <(measure 0 5 "$temp/loops" interp "$temp/twice.wasm")
    echo "$1: $2 in $once s, $(($2 * 2)) in $twice s"
    grep -q '^run() => i32:' "$temp/printed" || { echo "$1: $(head -1 "$temp/printed")"; failed=1; }
    bar "$twice <= 2.6 * $once" "$1: more than 2.6 times the time"
}
doubled nesting 400 50000
doubled locals 10000 20000
doubled calls 2000 1000
exit $failed
