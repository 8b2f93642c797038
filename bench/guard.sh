#!/usr/bin/env bash
# Times what guards and frames ask of `transform`, as bench/asyncify.sh does: 5,000 and 10,000 calls in one function, 1,000 nested ifs with a
# call each, and 49,000 locals. Fails where twice the size takes far more than twice the time.
SHAPES=${SHAPES:-calls ifs locals} exec "$(dirname "$0")/asyncify.sh"
