#!/usr/bin/env python3
"""The kit's `rt` with each crate summed up once a run, for work: COMMAND [WORD ..], as `rt` takes them.

`rt check` of a crate high up sums up the files below it once for each way that leads there, for minutes; this takes seconds. It is no gate, and
uses the insides of the kit's `rt`."""

import os
import sys

sys.path.insert(0, os.path.dirname(os.path.abspath(__file__)))
from libraries import KIT_RT, load, sum_once  # noqa: E402

if __name__ == "__main__":
    rt = load(KIT_RT)
    sum_once(rt.rtlib.Crate)
    sys.exit(rt.main(sys.argv[1:]))
