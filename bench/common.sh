# What the benchmarks share; each reads this file first. `bench` is the folder of the benchmarks, `temp` a folder that goes
# with the script, and `failed` is 1 once a bar wasn't kept. Python finds the pieces of modules in `wasm_bytes`.
set -euo pipefail
bench=$(cd "$(dirname "${BASH_SOURCE[0]}")" && pwd)
temp=$(mktemp -d)
trap 'rm -rf "$temp"' EXIT
failed=0
export PYTHONPATH=$bench PYTHONDONTWRITEBYTECODE=1

# The program `asyncify`, which is proved and built first where it isn't there or is older than its sources.
asyncify=$bench/../crates/asyncify_cli/out/asyncify_cli
build_asyncify() {
    "$bench/../asyncify" --prove
}

# Proves and builds the loops of bench/loops, which are no crate of the repository, in a copy of it that has one crate more, and puts
# the program at a path: PATH
build_loops() {
    local at=$temp/copy file
    mkdir -p "$at"
    cp -al "$bench/../crates" "$at" 2>/dev/null || cp -r "$bench/../crates" "$at"
    cp "$bench/../HANDLES" "$at"
    { cat "$bench/../crates.txt"; echo "bench_loops: $(cat "$bench/loops/libraries")"; } >"$at/crates.txt"
    mkdir -p "$at/crates/bench_loops/src"
    for file in "$bench"/loops/*.rs; do
        cp "$file" "$at/crates/bench_loops/src/$(basename "$file" .rs).rt"
    done
    (cd "$at/crates/bench_loops" && rt run) >"$temp/log" 2>&1 || { cat "$temp/log"; exit 1; }
    cp "$at/crates/bench_loops/out/bench_loops" "$1"
}

# Whether a peer is there to be measured beside; without it the script says so, and fails.
has_peer() {
    command -v "$1" >/dev/null || { echo "$1 is not installed: its bar wasn't tried"; failed=1; return 1; }
}

# Whether a condition in Python holds.
holds() {
    python3 -c "import sys; sys.exit(not ($1))"
}

# Asks for a condition in Python, and prints why the bar isn't kept where it doesn't hold: CONDITION WHY
bar() {
    holds "$1" || { echo "$2"; failed=1; }
}

# The least user seconds of some runs within 4 GB of memory, and the greatest resident kilobytes, of a command that ends
# with a status: STATUS RUNS COMMAND [WORD ...]. What the last run printed stays in $temp/printed. A command that ends
# with another status prints `none none`.
measure() {
    python3 - "$temp/printed" "$@" <<'PY'
import resource, subprocess, sys

printed, status, runs, command = sys.argv[1], int(sys.argv[2]), int(sys.argv[3]), sys.argv[4:]
times = []
for _ in range(runs):
    before = resource.getrusage(resource.RUSAGE_CHILDREN).ru_utime
    with open(printed, "wb") as out:
        bound = lambda: resource.setrlimit(resource.RLIMIT_AS, (4 << 30, 4 << 30))
        ended = subprocess.run(command, stdout=out, stderr=subprocess.DEVNULL, preexec_fn=bound)
    if ended.returncode != status:
        print("%s ended with status %d" % (command[0], ended.returncode), file=sys.stderr)
        print("none none")
        sys.exit()
    after = resource.getrusage(resource.RUSAGE_CHILDREN)
    times.append(after.ru_utime - before)
print("%.3f %d" % (min(times), after.ru_maxrss))
PY
}

# The median user seconds of two commands that run in turns, so that both meet the machine's changes of speed:
# RUNS STATUS COMMAND [WORD ...] -- STATUS COMMAND [WORD ...]. Fails where one ends with another status.
in_turns() {
    python3 - "$@" <<'PY'
import resource, statistics, subprocess, sys

runs, words = int(sys.argv[1]), sys.argv[2:]
cut = words.index("--")
commands = [words[:cut], words[cut + 1:]]
times = [[], []]
for _ in range(runs):
    for (status, *command), taken in zip(commands, times):
        before = resource.getrusage(resource.RUSAGE_CHILDREN).ru_utime
        ended = subprocess.run(command, stdout=subprocess.DEVNULL, stderr=subprocess.DEVNULL)
        if ended.returncode != int(status):
            sys.exit("%s ended with status %d" % (command[0], ended.returncode))
        taken.append(resource.getrusage(resource.RUSAGE_CHILDREN).ru_utime - before)
print("%.3f %.3f" % tuple(statistics.median(taken) for taken in times))
PY
}

# The least stack, in steps of 4 KiB up to 8 MiB, with which a command ends with a status: STATUS COMMAND [WORD ...]
least_stack() {
    local wanted=$1 low=0 high=2048 middle status
    shift
    while [ $((high - low)) -gt 1 ]; do
        middle=$(((low + high) / 2)) status=0
        { (ulimit -s $((4 * middle)) && exec "$@" >/dev/null 2>&1); } 2>/dev/null || status=$?
        if [ "$status" = "$wanted" ]; then high=$middle; else low=$middle; fi
    done
    echo $((4 * high))
}
