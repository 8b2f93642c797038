#!/usr/bin/env python3
"""Tells where a crate's check spends its time, for work: LIBRARIES CRATE [rattle's flags].

Run at the top of a checkout. LIBRARIES is a checkout of the same crates in which all libraries below CRATE are built, as a gate leaves
them; nothing is written to either. The check keeps each module that it has checked as it goes, so the processor seconds between two files
are what the module behind them took. It prints the sums by stage, and the longest modules: `F.Lts` is what F's code takes, whatever its
proof, `F.Proof` its clauses. `--incremental FOLDER` keeps the work, so that a second run takes only what changed."""

import os
import re
import shutil
import subprocess
import sys
import tempfile
import time
from collections import Counter

KIT = "/opt/rattle"
HERTZ = os.sysconf("SC_CLK_TCK")
STAGES = ("Proof", "Lts", "Met", "Tie", "Answers", "Goals", "Given", "Kinds", "Reads")


def libraries():
    """The libraries that each crate of crates.txt lists."""
    lines = (line.split("#")[0].strip() for line in open("crates.txt", encoding="utf-8"))
    return {line.split(":")[0].split()[0]: line.split(":")[1].split() for line in lines if line}


def all_below(crate, listed, found):
    """Adds the repository's libraries below a crate to those found."""
    for name in listed[crate]:
        if name in listed and name not in found:
            found.add(name)
            all_below(name, listed, found)
    return found


def command(built, crate, listed):
    """The check that rt would run, over libraries built elsewhere."""
    words = [f"{KIT}/bin/rattle", "check", "--crate-name", crate, "src/lib.rt", "--extern", f"std={KIT}/rlibs/std.rlib"]
    words += ["-L", f"dependency={KIT}/rlibs"]
    for name in listed[crate]:
        rlib = f"{built}/crates/{name}/out/rlib" if name in listed else f"{KIT}/rlibs"
        words += ["--extern", f"{name}={rlib}/{name}.rlib"]
    for name in sorted(all_below(crate, listed, set())):
        words += ["-L", f"dependency={built}/crates/{name}/out/rlib"]
    words += ["--antt-project", f"{KIT}/rattle/logic/antt-project.json", "--logic-built", f"{KIT}/logic_built"]
    return [*words, "--links", f"{crate}=", "--jobs", "1"]


def modules(folder):
    """The names of the modules that are checked."""
    names = {name for _, _, files in os.walk(folder) for name in files if name.endswith(".oantt")}
    return {name.removesuffix(".oantt").removesuffix(".decls").split("-proofs.")[-1] for name in names}


def seconds(process):
    """The processor seconds of a running process."""
    with open(f"/proc/{process.pid}/stat", encoding="utf-8") as file:
        fields = file.read().rsplit(")", 1)[1].split()
    return (int(fields[11]) + int(fields[12])) / HERTZ


def named(found):
    """The module that the time is booked to, and its stage."""
    for stage in STAGES:
        for name in sorted(found):
            if re.search(rf"\.{stage}(-\w+)?$", name):
                return name, stage
    return min(found), "other"


def watch(process, folder):
    """The seconds of each module until the process ends."""
    seen, before, times = modules(folder), 0, Counter()
    while process.poll() is None:
        time.sleep(0.1)
        now, found = seconds(process), modules(folder) - seen
        if found and process.poll() is None:
            times[named(found) if before else ("the start", "start")] += now - before
            seen, before = seen | found, now
    return times


def main(built, crate, flags):
    kept = "--incremental" in flags
    at = flags.index("--incremental") if kept else len(flags)
    folder = os.path.abspath(flags[at + 1]) if kept else tempfile.mkdtemp()
    os.makedirs(folder, exist_ok=True)
    flags = [*flags[:at], "--incremental", folder, *flags[at + 2 :]]
    with subprocess.Popen(command(os.path.abspath(built), crate, libraries()) + flags, cwd=f"crates/{crate}") as process:
        times = watch(process, folder)
    stages = Counter()
    for (_, stage), took in times.items():
        stages[stage] += took
    print(", ".join(f"{stage} {took:.1f}" for stage, took in stages.most_common()))
    for (name, stage), took in times.most_common(30):
        print(f"{took:6.1f} {stage:8} {name}")
    if not kept:
        shutil.rmtree(folder)
    return process.returncode


if __name__ == "__main__":
    sys.exit(main(sys.argv[1], sys.argv[2], sys.argv[3:]))
