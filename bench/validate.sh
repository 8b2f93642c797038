#!/usr/bin/env bash
# Times reading and validating: `asyncify transform` of modules whose last body alone isn't valid (status 5), so that nothing is
# rewritten, beside `wasm-opt` reading and writing the same file with a valid last body and `wasm-validate` (Debian's binaryen and wabt). Each shape is
# made at an eighth, a quarter, half and the whole of its bound: a body of 1 MB, blocks nested 1,000 deep, 100,000
# functions, as many small bodies of 50,000 locals each, tables of 10,000 labels, and a body of 1 MB of calls with 1,000
# parameters behind `unreachable`; bodies with a run for each of 50,000 locals, bodies of empty runs, types of 1,000 parameters, constants in the
# longest spelling, labels 999 levels out; 239,000 export names whose hashes in a table of `indexmap` are all 0, which take at most 1.5 s; and, for
# its growth alone, custom sections without a byte. User time, the least of RUNS runs (5), of `wasm-opt` one; beside `wasm-validate` the median of
# RUNS runs of both in turns. SHAPES names the shapes to time.
# Fails where twice the size takes more than 2.6 times the time; where 8 MB of the shapes up to the tables and the dead calls take more than half the
# time of `wasm-opt` or of `wasm-validate`, whichever is less; and where the runs, the parameters, the constants or the far labels take more than all
# of the time of `wasm-validate`. It throws custom sections away where a module keeps each of them, so these have no bar beside it.
. "$(dirname "$0")/common.sh"
runs=${RUNS:-5}

# A module of a shape, at so many eighths of its bound, or 8 MB of it (`whole`), with an invalid last body, and beside it,
# `.valid`, with a valid one.
make_module() {
    python3 - "$1" "$2" "$3" <<'PY'
import sys
from wasm_bytes import INVALID, VALID, module, section, sized, unsigned

shape, eighths, path = sys.argv[1:]
END = b"\x20\x00\x0b"
FILE = 8_000_000
part = 8 if eighths == "whole" else int(eighths)

# a body of a parameter, these runs of locals and this code
def body(code, runs=b"\x00"):
    return sized(runs + code + END)

# code of so many bytes: a local, less 42, dropped
def plain(size, local=b"\x20\x00"):
    piece = local + b"\x41\x2a\x6b\x1a"
    return piece * (size // len(piece))

types = [b"\x60\x01\x7f\x01\x7f"]
first = []
exports = []
customs = b""
if shape == "long":
    one = body(plain(part * 125_000))
    count = 8 if eighths == "whole" else 1
elif shape == "dead":
    types.append(b"\x60" + unsigned(1_000) + b"\x7f" * 1_000 + b"\x00")
    first = [(b"\x01", sized(b"\x00\x0b"))]
    one = body(b"\x00" + b"\x10\x00" * (part * 62_500))
    count = 8 if eighths == "whole" else 1
elif shape == "deep":
    one = body(b"\x02\x40" * (part * 125) + b"\x0b" * (part * 125))
    count = FILE // 3_010
elif shape == "functions":
    one = body(plain(72))
    count = part * 12_500 - 1
elif shape == "locals":
    one = body(plain(64, b"\x20" + unsigned(49_998)), b"\x01" + unsigned(49_999) + b"\x7f")
    count = part * 12_500 - 1
elif shape == "runs":
    one = body(plain(4_000, b"\x20" + unsigned(part * 6_000 + 1)), unsigned(part * 6_248) + b"\x01\x7f\x01\x7e" * (part * 3_124))
    count = FILE // 105_000
elif shape == "labels":
    one = body(b"\x02\x40\x20\x00\x0e" + unsigned(part * 1_250) + b"\x00" * (part * 1_250) + b"\x00\x0b")
    count = FILE // 10_020
elif shape == "empty_runs":
    one = body(b"", unsigned(part * 60_000) + b"\x00\x7f" * (part * 60_000))
    count = FILE // 960_000
elif shape == "padded":
    one = body(b"\x41\x80\x80\x80\x80\x00\x1a" * (part * 17_750))
    count = FILE // 994_000
elif shape == "far":
    one = body(b"\x02\x40" * 1_000 + b"\x20\x00\x0d\xe7\x07" * (part * 25_000) + b"\x0b" * 1_000)
    count = FILE // 1_003_000
elif shape == "params":
    types += [b"\x60" + unsigned(1_000) + b"\x7f" * 1_000 + b"\x00"] * (part * 996)
    one, count = body(b""), 1
elif shape == "customs":
    customs = b"\x00\x01\x00" * (part * 330_000)
    one, count = body(b""), 1
elif shape == "names":
    one, count = body(b""), 1
    for n in range(part * 29_875):
        free = "".join(chr(97 + (n >> 4 * k & 15)) for k in range(8))
        exports.append(sized(b"vael51bfy6vcb6a2A3<F0~[k" + free.encode()) + b"\x00\x00")
for last, name in (INVALID, path), (VALID, path + ".valid"):
    sorts, bodies = zip(*first, *[(b"\x00", one)] * count, (b"\x00", last))
    whole = module(customs, section(1, types), section(3, sorts), section(7, exports), section(10, bodies))
    open(name, "wb").write(whole)
PY
}

build_asyncify
for shape in ${SHAPES:-long dead deep functions locals labels runs empty_runs params padded far names customs}; do
    half=
    for part in 1 2 4 8 whole; do
        [ "$part" = whole ] && [[ "$shape" != long && "$shape" != dead ]] && continue
        make_module "$shape" "$part" "$temp/in.wasm"
        read -r time _ < <(measure 5 "$runs" "$asyncify" transform "$temp/in.wasm" "$temp/out.wasm")
        echo "$shape: $(stat -c %s "$temp/in.wasm") bytes in $time s"
        if [ "$part" != whole ] && [ -n "$half" ]; then
            bar "$time <= 2.6 * $half + 0.02" "$shape: twice the size takes more than 2.6 times the time"
        fi
        half=$time
    done
    [ "$shape" = names ] && bar "$time <= 1.5" "names of one hash: past 1.5 s"
    [[ "$shape" = names || "$shape" = customs ]] && continue
    share=1
    case $shape in runs | empty_runs | params | padded | far) ;; *) share=2 ;; esac
    if [ "$share" = 2 ] && has_peer wasm-opt; then
        # within the memory, `wasm-opt` doesn't end on many bodies of 50,000 locals
        read -r opt _ < <(measure 0 1 wasm-opt "$temp/in.wasm.valid" -o "$temp/out.wasm")
        echo "$shape: wasm-opt $opt s"
        [ "$opt" = none ] || bar "$time <= $opt / 2 + 0.004" "$shape: past half of wasm-opt's time"
    fi
    if has_peer wasm-validate; then
        read -r ours valid < <(in_turns "$runs" 5 "$asyncify" transform "$temp/in.wasm" "$temp/out.wasm" -- \
            0 wasm-validate "$temp/in.wasm.valid")
        echo "$shape: $ours s in turns with wasm-validate, $valid s"
        bar "$ours <= $valid / $share + 0.004" "$shape: past wasm-validate's time by $share"
    fi
done
exit $failed
