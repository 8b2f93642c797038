#!/usr/bin/env python3
"""Links the libraries that a whole `rt ci` has built in one checkout into another one, for work: FROM TO.

A gate leaves its libraries without the stamps by which `rt check` knows them, so that each clone would build them anew. This writes the
stamps in FROM, whose files must be as the gate had them, and links each library into TO whose stamp there is the same: all that it is made
from, libraries below it too. Run it before the first `rt check` in TO, or take TO's `out` folders away first. It is no gate, and uses the
insides of the kit's `rt`."""

import os
import shutil
import subprocess
import sys

sys.path.insert(0, os.path.dirname(os.path.abspath(__file__)))
from libraries import KIT_RT, load, sum_once  # noqa: E402


def libraries_of(rt, root):
    """The crates of a checkout that are libraries, by name, each with its stamp."""
    os.chdir(root)
    crates = [it for it in rt.rtlib.crates_below(os.getcwd()) if not it.is_program]
    return {it.name: (it, it.stamp()) for it in crates}


def main(source, target):
    rt = load(KIT_RT)
    sum_once(rt.rtlib.Crate)
    made = {name: it for name, it in libraries_of(rt, source).items() if os.path.isdir(it[0].rlib)}
    for crate, stamp in made.values():
        with open(f"{crate.folder}/out/rlib/stamp", "w", encoding="utf-8") as file:
            file.write(stamp)
    linked = 0
    for name, (crate, stamp) in libraries_of(rt, target).items():
        if name in made and made[name][1] == stamp:
            there = f"{crate.folder}/out/rlib"
            shutil.rmtree(there, ignore_errors=True)
            os.makedirs(os.path.dirname(there), exist_ok=True)
            subprocess.run(["cp", "-al", f"{made[name][0].folder}/out/rlib", there], check=True)
            linked += 1
    print(f"{linked} libraries linked")


if __name__ == "__main__":
    main(*map(os.path.abspath, sys.argv[1:3]))
