#!/usr/bin/env python3
"""What a script of one's own would do for `screen`: a direct sparse solve in doubles, from the file to the verdicts. It
certifies nothing.

    python3 bench/screen_doubles.py CASE

It prints `transformer NAME north A east B worst W VERDICT` for each transformer, as `screen` does, with doubles in place of
intervals. It needs numpy and scipy.
"""

from __future__ import annotations

import sys

import paths  # noqa: F401 - it finds the modules below

from referee.words import DEFAULT_EVENT, EVENTS

try:
    import numpy as np
    import scipy.sparse.linalg  # noqa: F401
except ImportError as missing:
    sys.exit(f"screen_doubles.py: {missing.name} isn't there (apt-get install python3-numpy python3-scipy)")
from doubles import read_doubles, verdict

EVENT = EVENTS[DEFAULT_EVENT]


def main(words: list[str]) -> None:
    if len(words) != 1:
        sys.exit("usage: screen_doubles.py CASE")
    read = read_doubles(words[0])
    effective = read.quantities(EVENT.field * read.induced(False)).effective
    print("screen")
    for unit, (north, east) in zip(read.case.transformers, effective):
        worst = float(np.hypot(north, east))
        told = verdict(unit, worst, EVENT.threshold)
        print("transformer", unit.name, "north", north, "east", east, "worst", worst, told)
    print("end")


if __name__ == "__main__":
    main(sys.argv[1:])
