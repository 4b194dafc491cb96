#!/usr/bin/env python3
"""What a script of one's own would do for `study`: superposition of base solutions in doubles, from the files to the
peaks. It certifies nothing, and knows no switchings.

    python3 bench/storm_doubles.py CASE STORM

It prints the items of the peak view of `study`, with a double in place of an interval. It needs numpy, and takes scipy's
sparse solver where that is there.
"""

from __future__ import annotations

import csv
import sys
from collections.abc import Sequence

import paths  # noqa: F401 - it finds the modules below

from referee.words import DEFAULT_EVENT, EVENTS

try:
    import numpy as np
except ImportError as missing:
    sys.exit(f"storm_doubles.py: {missing.name} isn't there (apt-get install python3-numpy)")
from doubles import Array, read_doubles, verdict

THRESHOLD = EVENTS[DEFAULT_EVENT].threshold
STEPS_AT_ONCE = 256


def fields_of(path: str, zones: Sequence[str]) -> tuple[bool, Array]:
    """Whether a storm goes by zones, and for each step the parts of its field: north and east, of each zone or of all."""
    with open(path, newline="") as file:
        head, *rows = csv.reader(file)
    if head == ["time", "north", "east"]:
        return False, np.array([[float(north), float(east)] for _, north, east in rows])
    column = {name: 2 * place for place, name in enumerate(zones)}
    steps: dict[str, Array] = {}
    for time, zone, north, east in rows:
        step = steps.setdefault(time, np.zeros(2 * len(zones)))
        for at in column.values() if zone == "*" else [column[zone]]:
            step[at : at + 2] = float(north), float(east)
    return True, np.array(list(steps.values()))


def peaks(quantities: Array, fields: Array) -> Array:
    """The greatest absolute value of each quantity over all steps."""
    found = np.zeros(len(quantities))
    for first in range(0, len(fields), STEPS_AT_ONCE):
        shown = np.abs(quantities @ fields[first : first + STEPS_AT_ONCE].T)
        np.maximum(found, shown.max(axis=1), out=found)
    return found


def main(words: list[str]) -> None:
    if len(words) != 2:
        sys.exit("usage: storm_doubles.py CASE STORM")
    read = read_doubles(words[0])
    try:
        by_zone, fields = fields_of(words[1], [zone.name for zone in read.case.zones])
    except (OSError, ValueError, KeyError) as error:
        sys.exit(f"{words[1]}: {error!r}")
    potentials, currents, effective = (peaks(base, fields) for base in read.quantities(read.induced(by_zone)))
    out = ["peaks"]
    out += [f"node {name} {peak}" for name, peak in zip(read.case.nodes, potentials)]
    out += [f"{item.head} {currents[item.element]}" for item in read.items]
    for unit, peak in zip(read.case.transformers, effective):
        out.append(f"transformer {unit.name} {peak} {verdict(unit, peak, THRESHOLD)}")
    print("\n".join([*out, "end"]))


if __name__ == "__main__":
    main(sys.argv[1:])
