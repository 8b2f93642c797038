#!/usr/bin/env bash
# Times loads and stores through `Pages` (bench/loops) against the same loop over a plain slice
# (slice.rs, by rustc -O): as many of each as the argument says, or 10 million; and a hundredth as many fills and copies of less than
# 65,536 bytes, against `fill` and `copy_within`. Prints the best time of seven runs of each, and fails where the first takes more than
# twice the second, or fills and copies more than 1.2 times.
. "$(dirname "$0")/common.sh"
rounds=${1:-10000000}

build_loops "$temp/loops"
rustc --edition 2024 -O -o "$temp/slice" "$bench/slice.rs"
[ "$("$temp/loops" memory "$rounds")" = "$("$temp/slice" "$rounds")" ] || { echo "the sums differ"; exit 1; }

best_of_seven() {
    local best=0 begin took
    for _ in 1 2 3 4 5 6 7; do
        begin=$(date +%s%N)
        "$@" >/dev/null
        took=$((($(date +%s%N) - begin) / 1000))
        if [ "$best" = 0 ] || [ "$took" -lt "$best" ]; then best=$took; fi
    done
    echo "$best"
}

pages=$(best_of_seven "$temp/loops" memory "$rounds")
slice=$(best_of_seven "$temp/slice" "$rounds")
echo "Pages: $pages microseconds, slice: $slice microseconds, for $rounds loads and $rounds stores"
[ "$pages" -le $((2 * slice)) ] || { echo "more than twice the time"; exit 1; }

moves=$((rounds / 100))
[ "$("$temp/loops" copies "$moves")" = "$("$temp/slice" copies "$moves")" ] || { echo "the sums of fills and copies differ"; exit 1; }
pages=$(best_of_seven "$temp/loops" copies "$moves")
slice=$(best_of_seven "$temp/slice" copies "$moves")
echo "Pages: $pages microseconds, slice: $slice microseconds, for $moves fills and $moves copies"
[ "$((10 * pages))" -le $((12 * slice)) ] || { echo "more than 1.2 times the time"; exit 1; }
