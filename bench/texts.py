#!/usr/bin/env python3
"""Looks at the texts of all crates as `rt ci` does before it proves anything, in half a minute: ROOT.

Layouts, links, files that no check reads, words that would mislead, must-fail edits that can't be applied; and what the gate would meet only after
half an hour: definitions and lemmas of another crate that stand nowhere, crates that are named and not listed in crates.txt, lines of crates.txt
that name a crate below them, and how many bytes the gate sums up, since `rt` sums up a crate's files once for each way through the libraries of
crates.txt, which may double with each crate. Uses the insides of the kit's `rt`, and proves nothing."""

import glob
import os
import re
import sys
import tempfile

sys.path.insert(0, os.path.dirname(os.path.abspath(__file__)))
from libraries import KIT_RT, load  # noqa: E402

CITED = re.compile(r"Rattle\.([a-z_0-9]+)\.(specs|proofs)\.([A-Za-z_0-9]+)")
PASSED_ON = re.compile(r"^pub use \S+\.(\w+)$|^pub use \S+ as (\w+)$", re.M)
# The bytes that the gate may sum up, in thousands of millions: some 40 MB a second, once before and once behind each library's proof.
SUMMED = 60


def said_of(rt, crate, crates):
    """What is wrong with a crate's own texts."""
    found = []
    for look in (
        lambda: rt.rtlib.stop_on_links(crate.folder),
        lambda: rt.rtlib.stop_on_unread(crate.folder, crates),
        lambda: rt.rtlib.stop_on_text(crate, "verdict"),
        lambda: rt.stop_on_words(crate),
    ):
        try:
            look()
        except SystemExit:
            found.append("its text is refused, as said above")
    with tempfile.TemporaryFile("w+") as out:
        if rt.rtlib.fmt(crate.folder, "--check", out):
            out.seek(0)
            found.append(out.read().strip().split("\n")[0])
    good, bad = rt.edits_of(crate)
    found += [f"{it} is no edit" for it in bad]
    for it in [*good, *sorted(glob.glob(f"{crate.folder}/../../bench/edits/{crate.name}/*.edit"))]:
        with open(it, encoding="utf-8") as file:
            texts, why = rt.edited(file.read(), crate.folder)
        if texts is None:
            found.append(f"{os.path.basename(it)}: {why}")
    return found


def passed_on(folder, part):
    """The modules of other crates that a crate passes on as its own."""
    path = f"{folder}/{part}/Lib.antt"
    if not os.path.isfile(path):
        return set()
    with open(path, encoding="utf-8") as file:
        return {one or other for one, other in PASSED_ON.findall(file.read())}


def summed(rt, crates):
    """The bytes that the stamps of all libraries go over, each crate's once for each way that leads to it."""
    bytes_of = {}
    for crate in crates:
        own = sum(os.path.getsize(it) for it in rt.rtlib.files_of(crate.folder))
        bytes_of[crate.name] = own + sum(bytes_of[it.name] for it in crate.deps)
    return sum(bytes_of[it.name] for it in crates if it.makes_rlib())


def lacking(crate, crates):
    """What a crate cites of others that isn't there."""
    listed, found = {it.name for it in crate.deps}, set()
    for path in glob.glob(f"{crate.folder}/*/**/*", recursive=True):
        if path.startswith(f"{crate.folder}/out/") or not path.endswith((".rt", ".antt")):
            continue
        with open(path, encoding="utf-8") as file:
            cited = CITED.findall(file.read())
        for name, part, module in cited:
            if name == crate.name or name not in crates:
                continue
            at = f"{crates[name].folder}/{part}/{module}"
            if name not in listed:
                found.add(f"names {name}, which crates.txt doesn't list for it")
            elif module in ("declared", "contracts") or os.path.isfile(at + ".antt") or os.path.isdir(at):
                continue
            elif module not in passed_on(crates[name].folder, part):
                found.add(f"cites {name}.{part}.{module}, which isn't there")
    return sorted(found)


def out_of_order(path):
    """Each line of crates.txt that names a crate which has its own line below: the two names."""
    with open(path, encoding="utf-8") as file:
        rows = [line.partition("#")[0].partition(":") for line in file]
    uses = {head.split()[0]: rest.split() for head, _, rest in rows if head.strip()}
    place = {name: at for at, name in enumerate(uses)}
    return [(name, it) for name in uses for it in uses[name] if place.get(it, -1) >= place[name]]


def main(root):
    rt = load(KIT_RT)
    os.chdir(root)
    crates = rt.rtlib.crates_below(os.getcwd())
    by_name, wrong = {it.name: it for it in crates}, 0
    for name, below in out_of_order("crates.txt"):
        print(f"crates.txt: the line of {name} names {below}, which stands below it")
        wrong += 1
    for crate in crates:
        for it in [*said_of(rt, crate, crates), *lacking(crate, by_name)]:
            print(f"{crate.name}: {it}")
            wrong += 1
    giga = summed(rt, sorted(crates, key=lambda it: len(it.below()))) / 1e9
    print(f"{len(crates)} crates, {wrong} faults; the gate sums up {giga:.1f} GB, of at most {SUMMED}")
    return 1 if wrong or giga > SUMMED else 0


if __name__ == "__main__":
    sys.exit(main(os.path.abspath(sys.argv[1])))
