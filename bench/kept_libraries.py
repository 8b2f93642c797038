#!/usr/bin/env python3
"""Hands a checkout the libraries that `rt ci` has kept on this machine of the same sources, for work: ROOT.

A library comes only where its sources and all that is below it are as they were proved, so it serves while a gate, or `rt ci NAME`, goes on elsewhere:
run it again as that gets farther. It is no gate, and uses the insides of the kit's `rt`."""

import os
import shutil
import sys

sys.path.insert(0, os.path.dirname(os.path.abspath(__file__)))
from libraries import KIT_RT, load, sum_once  # noqa: E402


def hand(kept, crate):
    """Whether the crate's library stands in its out/, of what was kept if it wasn't there; a stamp tells `rt check` so."""
    if not crate.is_built():
        # what stands there may be a link to what is kept, into which nothing may be written
        shutil.rmtree(f"{crate.folder}/out/rlib", ignore_errors=True)
        if not kept.give(crate, False, kept.key(crate)):
            return False
        with open(f"{crate.folder}/out/rlib/stamp", "w", encoding="utf-8") as file:
            file.write(crate.stamp())
    kept.is_built(crate)
    return True


def main(root):
    rt = load(KIT_RT)
    os.chdir(root)
    sum_once(rt.rtlib.Crate)
    crates = [it for it in sorted(rt.rtlib.crates_below(os.getcwd()), key=lambda it: len(it.below())) if not it.is_program]
    kept, there = rt.Kept(crates), set()
    for crate in crates:
        if all(it.name in there for it in crate.below()) and hand(kept, crate):
            there.add(crate.name)
    print(f"{len(there)} of {len(crates)} libraries are there")


if __name__ == "__main__":
    main(os.path.abspath(sys.argv[1]))
