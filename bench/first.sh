#!/usr/bin/env bash
# Times README's first command in a fresh clone, seconds by the clock: the first time, when the program is compiled, and the second;
# and what ./asyncify answers at once, before either. On two idle processors the bars are 120 s, 1 s and 1 s.
. "$(dirname "$0")/common.sh"

# The seconds of a command, which ends with a status: STATUS COMMAND [WORD ..]
seconds() {
    local status=$1 begun ended=0
    shift
    begun=$(date +%s.%N)
    "$@" >"$temp/printed" 2>/dev/null || ended=$?
    [ "$ended" = "$status" ] || { echo "$* ended with status $ended" >&2; echo none; return; }
    python3 -c "import time; print('%.2f' % (time.time() - $begun))"
}

git clone -q "$bench/.." "$temp/clone"
first=$(sed -n 's/^\(\.\/asyncify .*\)/\1/p' "$bench/../README.md" | head -1)
read -ra words <<<"${first//\/tmp\//$temp/}"
cd "$temp/clone"
help=$(seconds 2 ./asyncify --help)
bar "$help <= 1" "help took $help s"
one=$(seconds 0 "${words[@]}")
two=$(seconds 0 "${words[@]}")
echo "first.sh: help $help s, the first time $one s, the second $two s (load $(cut -d ' ' -f 1 /proc/loadavg), $(nproc) processors)"
bar "$one <= 120" "the first time took more than 120 s"
bar "$two <= 1" "the second time took more than 1 s"
exit "$failed"
