#!/usr/bin/env bash
# Tries the edits that the gate has no time for: those below bench/edits, of the crates that are named or of all. Each must be refused, as
# the gate's own in a crate's must-fail are. Works in a copy of the crates, where the libraries below are built first.
. "$(dirname "$0")/common.sh"
top=$(cd "$bench/.." && pwd)
names=("$@")
[ $# -gt 0 ] || mapfile -t names < <(cd "$bench/edits" && printf '%s\n' *)
copy=$temp/copy
mkdir "$copy"
cp "$top/HANDLES" "$top/crates.txt" "$copy"
(cd "$top" && git ls-files -z crates | tar c --exclude='*/must-fail/*' --null -T -) | tar x -C "$copy"
for name in "${names[@]}"; do
    mkdir -p "$copy/crates/$name/must-fail"
    cp "$bench/edits/$name"/*.edit "$copy/crates/$name/must-fail"
done
cd "$copy" && rt must-fail "${names[@]}"
