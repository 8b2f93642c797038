#!/usr/bin/env bash
# Times `asyncify gen N OUT` at 1,000, 2,000 and 4,000 functions: user time, the least of RUNS runs (5). Fails where 4,000 take more than
# 0.5 s, or twice as many more than 2.6 times the time.
. "$(dirname "$0")/common.sh"
runs=${RUNS:-5}
build_asyncify
before=
for functions in 1000 2000 4000; do
    read -r time kilobytes < <(measure 0 "$runs" "$asyncify" gen "$functions" "$temp/out.wasm")
    echo "$functions functions: $time s and $kilobytes KB; $(tail -1 "$temp/printed")"
    [ "$time" = none ] && { failed=1; break; }
    [ -z "$before" ] || bar "$time <= 2.6 * $before + 0.02" "twice the functions take more than 2.6 times the time"
    before=$time
done
[ "$before" = none ] || [ -z "$before" ] || bar "$before <= 0.5" "4,000 functions take more than 0.5 s"
exit $failed
