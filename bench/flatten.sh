#!/usr/bin/env bash
# Times what flattening asks of `transform`, as bench/asyncify.sh does: many small functions, one body of 1 MB, 1,000 nested ifs with
# results, 100,000 small blocks above 1,000 operands, and 49,000 locals. Fails where twice the size takes far more than twice the time.
SHAPES=${SHAPES:-small long results blocks locals} exec "$(dirname "$0")/asyncify.sh"
