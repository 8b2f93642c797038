#!/usr/bin/env python3
"""Proves the libraries of a checkout side by side, for work: ROOT [LANES] [NAME ..].

With names, these crates and what is below them. Prints the seconds of each crate as it ends, and how many are done; the log of each is
out/libraries.log in its folder. It is no gate, and uses the insides of the kit's `rt`: what it leaves is what `rt check` would build, but each crate's files are summed
up once a run."""

import copy
import importlib.machinery
import importlib.util
import os
import resource
import shutil
import sys
import time

KIT_RT = os.path.realpath(os.environ.get("RT") or shutil.which("rt"))


def load(path):
    """The kit's rt as a module."""
    loader = importlib.machinery.SourceFileLoader("kit_rt", path)
    module = importlib.util.module_from_spec(importlib.util.spec_from_loader("kit_rt", loader))
    loader.exec_module(module)
    return module


def sum_once(crate_type):
    """Has each crate summed up once: its files aren't changed while this runs."""
    sums, first = {}, crate_type.stamp

    def stamp(crate):
        if crate.folder not in sums:
            sums[crate.folder] = first(crate)
        return sums[crate.folder]

    crate_type.stamp = stamp


class Progress:
    """How many of the libraries are done, and since when."""

    def __init__(self, total):
        self.begun, self.done, self.total = time.time(), 0, total

    def seconds(self):
        return time.time() - self.begun

    def tell(self, name, word, seconds):
        self.done += 1
        print(f"{self.seconds():6.0f} s: {name} {word} in {seconds:.0f} s, {self.done} of {self.total}", flush=True)


def build(crate, given, jobs, progress):
    """Builds one library, unless one below it failed, and returns whether it is there."""
    if crate.is_program or not all(given[it.name] for it in crate.below()):
        return crate.is_program
    os.makedirs(f"{crate.folder}/out", exist_ok=True)
    crate, started = copy.copy(crate), time.time()
    with open(f"{crate.folder}/out/libraries.log", "w", encoding="utf-8") as crate.out:
        try:
            status = crate.build_rlib(["--jobs", str(jobs)], anew=False)
        except SystemExit as stopped:
            status = stopped.code or 1
    progress.tell(crate.name, "ok" if status == 0 else "FAILED", time.time() - started)
    return status == 0


def main(root, lanes, names):
    rt = load(KIT_RT)
    os.chdir(root)
    rt.rtlib.guarded()
    sum_once(rt.rtlib.Crate)
    rt.processors = lambda: lanes
    crates = sorted(rt.rtlib.crates_below(os.getcwd()), key=lambda it: len(it.below()))
    wanted = {below.name for it in crates if it.name in names for below in [it, *it.below()]} or {it.name for it in crates}
    progress = Progress(sum(it.name in wanted and not it.is_program for it in crates))
    tasks = {
        it.name: ([below.name for below in it.below()], it.count(rb"\n"), rt.need(it), lambda given, jobs, it=it: build(it, given, jobs, progress))
        for it in crates
        if it.name in wanted
    }
    given = rt.in_lanes(tasks)
    used = resource.getrusage(resource.RUSAGE_CHILDREN)
    print(f"{progress.seconds():6.0f} s by the clock, {used.ru_utime + used.ru_stime:.0f} of processors")
    return 0 if all(given.values()) else 1


if __name__ == "__main__":
    root = os.path.abspath(sys.argv[1])
    lanes = int(sys.argv[2]) if len(sys.argv) > 2 else os.cpu_count()
    sys.exit(main(root, lanes, set(sys.argv[3:])))
