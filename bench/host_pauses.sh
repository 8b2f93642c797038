#!/usr/bin/env bash
# Times, under Node, what a call of an import costs that answers at once, and what a pause costs whose promise is kept already: by the
# library of host/, by the protocol of the npm package asyncify-wasm (tests/host/asyncify_wasm.mjs), and without either. The least of RUNS
# rounds (15). Fails where the library's pause takes more than 2.5 times as long as the protocol's, or its call more than 3 times.
. "$(dirname "$0")/common.sh"
calls=$bench/../tests/host/programs/calls.wasm
has_peer node || exit 1
build_asyncify
for policy in all live; do
    "$asyncify" transform --imports env.read --save "$policy" "$calls" "$temp/$policy.wasm" >/dev/null
done
node "$bench/host_pauses.mjs" "$calls" "$temp/all.wasm" "$temp/live.wasm" >"$temp/times"
sed 's/$/ ns/' "$temp/times"

# The time told for a case.
told() {
    sed -n "s/^$1: //p" "$temp/times"
}

bar "$(told "call, library") <= 3 * $(told "call, protocol")" "a call takes more than 3 times as long as by the protocol"
for depth in 0 8 32; do
    bar "$(told "pause $depth down, library") <= 2.5 * $(told "pause $depth down, protocol")" \
        "a pause $depth calls down takes more than 2.5 times as long as by the protocol"
done
exit $failed
