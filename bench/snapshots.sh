#!/usr/bin/env bash
# Saves three programs of 64 MiB each, of whose memory a run has set every page, at the first pause of each, and goes on with them, beside a
# plain copy of the snapshot. Prints times and the greatest memory, and fails where the two texts aren't that of one run; where the save takes more
# than 2 bytes of memory for a byte of the snapshot beyond the programs' own, or going on more than 2 beyond what it takes with programs of one
# page; or where both take more than ten times the time of the copy.
. "$(dirname "$0")/common.sh"
build_asyncify
cd "$temp"
python3 - <<'PY'
import os, sys
sys.path.insert(0, os.path.join(os.environ["PYTHONPATH"], "..", "tests"))
from modules import I32, body, exported, of_type, whole
from wasm_bytes import sized, unsigned
# Sets a byte of each page, asks the import, and answers what it said.
bounds = dict(large=(1024, b"\x41\x80\x80\x80\x20"), small=(1, b"\x41\x80\x80\x04"))
for name, (pages, bound) in bounds.items():
    code = (b"\x03\x40" + b"\x20\x00\x41\x01\x3a\x00\x00" + b"\x20\x00\x41\x80\x80\x04\x6a\x22\x00" + bound + b"\x49\x0d\x00\x0b" + b"\x10\x00")
    parts = dict(
        types=[of_type(b"", I32)], imports=[sized(b"env") + sized(b"pause") + b"\x00\x00"], sorts=[b"\x00"], memories=[b"\x00" + unsigned(pages)],
        exports=[exported("run", 0, 1)], bodies=[body(code, [(1, I32)])],
    )
    open(f"{name}.wasm", "wb").write(whole(**parts))
    program = f"program {name}.wasm\narea 4 64\nenter run\nanswer env.pause i32:{{}} ticks {{}}\nshow {65536 * (pages - 1)} 4\n"
    open(f"{name}.script", "w").write("".join(program.format(i, 5 + i) for i in range(3)))
PY
"$asyncify" save small.script 3 few >first
measure 0 1 "$asyncify" continue small.script few >small
"$asyncify" run large.script >whole
measure 0 1 "$asyncify" save large.script 3 snap >saved
cp "$temp/printed" first
size=$(stat -c %s snap)
measure 0 1 "$asyncify" continue large.script snap >gone
cat first "$temp/printed" | cmp - whole || { echo "the texts aren't that of one run"; failed=1; }
begin=$(date +%s%N)
dd if=snap of=copy bs=1M conv=fsync 2>/dev/null
copied=$((($(date +%s%N) - begin) / 1000000))
read -r save_time save_memory <saved
read -r continue_time continue_memory <gone
read -r _ small_memory <small
echo "snapshot: $size bytes; save $save_time s, $save_memory KB; continue $continue_time s, $continue_memory KB (of a small one $small_memory KB);" \
    "a copy of it $copied ms"
bar "$save_memory * 1024 <= 3.1 * $size" "saving takes more than 2 bytes of memory a byte beyond the programs"
bar "($continue_memory - $small_memory) * 1024 <= 2 * $size" "going on takes more than 2 bytes of memory a byte"
bar "$save_time + $continue_time <= 0.02 * $copied" "more than ten times the time of a copy"
exit "$failed"
