#!/usr/bin/env bash
# Has each allocation fail in turn of a `transform`, a `host`, a `run` and a `gen` over a small module, up to the first number that is
# never reached. Each call has to end with status 9, with a beginning of its lines and then one of `out of memory` printed, and OUT absent or a
# beginning of the bytes; or as if nothing had failed, since what standard error alone is made of may be wanting. No other file may change.
#
# The numbers of `rt try --fail-alloc` are compiled in, so that each would take minutes. Here the program is built once, and fail_allocation.c has calls
# of malloc and realloc fail, by which it allocates all. Another program than the proved one may be named, where it calls those of the C
# library: [PROGRAM].
. "$(dirname "$0")/common.sh"
has_peer cc || exit 1
if [ $# -gt 0 ]; then asyncify=$(realpath "$1"); else build_asyncify; fi
cc -O1 -shared -fPIC -o "$temp/fail_allocation.so" "$bench/fail_allocation.c" -ldl
mkdir "$temp/there"
cp "$bench"/../tests/rows/pause_in_a_loop/given/* "$temp/there"
(cd "$temp/there" && "$asyncify" transform countdown.wasm written.wasm >/dev/null)

python3 - "$asyncify" "$temp" <<'PY'
import os, shutil, subprocess, sys

program, temp = sys.argv[1:]
there, at, told = (os.path.join(temp, name) for name in ("there", "at", "told"))
MEMORY = b"out of memory\n"
COMMANDS = [["transform", "countdown.wasm", "out"], ["host", "loop.host"], ["run", "loop.run"], ["gen", "4", "out"]]


def call(words, number):
    """The status, what was printed, the files, and whether the allocation of this number was reached."""
    shutil.rmtree(at, ignore_errors=True)
    shutil.copytree(there, at)
    if os.path.exists(told):
        os.remove(told)
    failing = {"LD_PRELOAD": f"{temp}/fail_allocation.so", "FAIL_ALLOCATION": str(number), "ALLOCATION_FAILED": told}
    ended = subprocess.run([program, *words], cwd=at, env={**os.environ, **failing}, capture_output=True)
    files = {}
    for name in os.listdir(at):
        with open(os.path.join(at, name), "rb") as file:
            files[name] = file.read()
    return ended.returncode, ended.stdout, files, os.path.exists(told)


def is_less(printed, whole):
    """Whether this is a beginning of the text, and then one of the line on memory."""
    return any(whole.startswith(printed[:n]) and MEMORY.startswith(printed[n:]) for n in range(len(printed) + 1))


def wrong(got, whole):
    """What is wrong with a call, beside the one in which nothing fails."""
    (status, printed, files, _), (_, lines, files_then, _) = got, whole
    out, out_then = files.pop("out", b""), files_then["out"] if "out" in files_then else b""
    if files != {name: bytes for name, bytes in files_then.items() if name != "out"}:
        return "another file has changed"
    if status == 0:
        return "" if printed == lines and out == out_then else "less is done"
    if status != 9:
        return f"status {status}"
    if not is_less(printed, lines):
        return f"it printed {printed!r}"
    return "" if out_then.startswith(out) else "OUT holds something else"


failed = 0
for words in COMMANDS:
    whole = call(words, 0)
    number, ends = 1, {0: 0, 9: 0}
    while (got := call(words, number))[3]:
        why = wrong(got, whole)
        if why:
            print(f"{' '.join(words)}: allocation {number}: {why}")
            failed = 1
        ends[got[0]] = ends.get(got[0], 0) + 1
        number += 1
    print(f"{' '.join(words)}: {number - 1} allocations, {ends[9]} end with 9, {ends[0]} as if none had failed")
    if number == 1 or whole[0] != 0 or got[:3] != whole[:3]:
        print(f"{' '.join(words)}: " + ("no allocation is counted" if number == 1 else "nothing fails, and it isn't done"))
        failed = 1
sys.exit(failed)
PY
