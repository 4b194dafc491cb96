#!/usr/bin/env python3
"""Times `screen` beside a direct sparse solve in doubles (`screen_doubles.py`), both from the file to the verdicts.

    python3 bench/screens.py PROGRAM CASE [--turns=N] [--python=PYTHON]

PROGRAM is the built program, and CASE a file, as `generators/interconnection.py` or `limit_case.py` writes it. Each time is by the clock
and the least of N turns (3), and holds the start of its program. The last line has the two times, their ratio, and how far
the currents in doubles are from the intervals, in mA. PYTHON is one that has numpy and scipy, where this one hasn't.
"""

from __future__ import annotations

import argparse
import sys
from pathlib import Path

import beside
import paths


def main() -> None:
    parser = argparse.ArgumentParser(description=__doc__, formatter_class=argparse.RawDescriptionHelpFormatter)
    parser.add_argument("program")
    parser.add_argument("case")
    parser.add_argument("--turns", type=int, default=3)
    parser.add_argument("--python", default=sys.executable)
    given = parser.parse_args()
    case = str(Path(given.case).resolve())
    screen = [str(Path(given.program).resolve()), "screen", f"--case={case}"]
    script = [given.python, str(paths.HERE / "screen_doubles.py"), case]
    runs = beside.least([screen, script], ".", given.turns)
    print(beside.told(["screen", "scipy"], runs, beside.difference(runs[0].lines, runs[1].lines)))


if __name__ == "__main__":
    main()
