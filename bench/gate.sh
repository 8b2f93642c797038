#!/usr/bin/env bash
# What the gate costs, crate by crate, in processor seconds: the proof, the tests, and the edits with the check that they begin
# with. With no argument it runs `rt ci --anew`; with names of crates, `rt ci --anew NAME ..`; with a file it reads what an
# earlier run of this script wrote. The run's log stays in bench/out. `rt` tells no times: they are those of its processes,
# looked at five times a second, so a crate may lack a fifth of a second for each; the sum is the system's own, and exact.
# Fails where `rt ci` does; where the crates that stood before flattening pass 90 minutes together; or where all of it passes
# 300, of the 360 that a run of three hours has on two processors. The bars hold for a run of all crates.
. "$(dirname "$0")/common.sh"
old="asyncify_app asyncify_cli call_graph checks command_words file_laws interp interp_state leb_numbers local_spill memory_vaults page_memory transcript
    transform_command validate_bodies vault_port wa_model wa_ops wa_types wasm_build wasm_encode wasm_grammar wasm_reader wasm_validate"
mkdir -p "$bench/out"
log=$bench/out/gate.log

# Runs `rt ci --anew` with these words, and writes its output and then a line `seconds KIND CRATE SECONDS` for each kind of work.
run_gate() {
    python3 -u - "$@" <<'PY'
import collections, os, resource, subprocess, sys, time

def stat(pid):
    """The parent, the beginning and the ticks of a process."""
    with open("/proc/%s/stat" % pid) as file:
        fields = file.read().rpartition(")")[2].split()
    return int(fields[1]), fields[19], int(fields[11]) + int(fields[12])

def work(pid):
    """The crate and the kind of work that a process is started for, if its words tell them."""
    with open("/proc/%s/cmdline" % pid) as file:
        words = file.read().split("\0")
    if "--crate-name" not in words:
        return None
    crate = words[words.index("--crate-name") + 1]
    if os.readlink("/proc/%s/cwd" % pid).rpartition("/")[2].startswith("rt-edit-"):
        return "edits", crate
    return "tests" if "--test" in words else "proof", crate

def look(top, found):
    """Notes the ticks of the processes below one, by their own work or that of the nearest one above."""
    parents, seen = {}, {}
    for pid in filter(str.isdigit, os.listdir("/proc")):
        try:
            parent, begun, ticks = stat(pid)
            parents[int(pid)], seen[int(pid)] = parent, (begun, ticks, work(pid))
        except OSError:
            pass
    for pid, (begun, ticks, _) in seen.items():
        above, told = pid, None
        while above in seen and above != top:
            told = told or seen[above][2]
            above = parents[above]
        if above == top and told:
            found[pid, begun] = told, ticks

before = resource.getrusage(resource.RUSAGE_CHILDREN)
# some kits prove everything anew without being asked, and know no names
helped = subprocess.run(["rt", "help"], capture_output=True, text=True)
anew = ["--anew", *sys.argv[1:]] if "--anew" in helped.stdout + helped.stderr else []
gate, found = subprocess.Popen(["rt", "ci", *anew]), {}
while gate.poll() is None:
    look(gate.pid, found)
    time.sleep(0.2)
after = resource.getrusage(resource.RUSAGE_CHILDREN)
sums, tick = collections.Counter(), os.sysconf("SC_CLK_TCK")
for told, ticks in found.values():
    sums[told] += ticks / tick
for (kind, crate), seconds in sorted(sums.items()):
    print("seconds %s %s %.1f" % (kind, crate, seconds))
print("seconds whole - %.1f" % (after.ru_utime + after.ru_stime - before.ru_utime - before.ru_stime))
PY
}

if [ -f "${1:-}" ]; then
    log=$1
else
    (cd "$bench/.." && run_gate "$@") 2>&1 | tee "$log"
fi
python3 - "$log" "$old" <<'PY' || failed=1
import collections, re, sys

lines, old = open(sys.argv[1], errors="replace").read().splitlines(), sys.argv[2].split()
old_bar, whole_bar = 90, 300
seconds, whole = collections.defaultdict(dict), None
for line in lines:
    told = re.fullmatch(r"seconds (\w+) (\S+) ([\d.]+)", line)
    if told and told[1] == "whole":
        whole = float(told[3])
    elif told:
        seconds[told[2]][told[1]] = float(told[3])
edits = collections.Counter(re.findall(r"^(?:rt: )?must-fail (\w+)/\S+: refused", "\n".join(lines), re.M))
row = "{:<20}{:>8}{:>8}{:>8}{:>8}{:>8}".format
print(row("seconds", "proof", "tests", "edits", "sum", "refused"))
for crate, by in sorted(seconds.items(), key=lambda it: -sum(it[1].values())):
    cells = ["%.0f" % it for it in (*(by.get(kind, 0) for kind in ("proof", "tests", "edits")), sum(by.values()))]
    print(row(crate, *cells, edits[crate]))
kinds = [sum(by.get(kind, 0) for by in seconds.values()) for kind in ("proof", "tests", "edits")]
print(row("all", *("%.0f" % it for it in (*kinds, sum(kinds))), sum(edits.values())))
verdict = next((it for it in reversed(lines) if re.match(r"\d+ passed, \d+ failed", it)), "0 passed, 1 failed")
print(verdict)
failed = " 0 failed" not in verdict
if whole is None:
    print("the log tells no seconds: it isn't one of bench/gate.sh")
    sys.exit(1)
of_old = sum(sum(by.values()) for crate, by in seconds.items() if crate in old)
print("%.1f processor minutes in the crates before flattening, of at most %d" % (of_old / 60, old_bar))
print("%.1f in those since" % ((sum(kinds) - of_old) / 60))
print("%.1f in all, with what rt itself takes, of at most %d" % (whole / 60, whole_bar))
long = [crate for crate, by in seconds.items() if by.get("proof", 0) > 60]
print("over 60 s from nothing: %s" % (" ".join(sorted(long)) or "none"))
sys.exit(failed or of_old > old_bar * 60 or whole > whole_bar * 60)
PY
exit $failed
