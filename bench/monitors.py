#!/usr/bin/env python3
"""Times a study with three monitors, with four and with none beside one another, and prints what the monitors cost.

    python3 bench/monitors.py PROGRAM [RUNS]

PROGRAM is the built program `gic_loss_study`, whose first word says how many monitors it attaches. The study is that of
the made network of 2000 nodes over 2000 steps, with another field at each (`generators/made_case.py`, `storms.py`). The times are
user times of the processor, each the least of RUNS runs (9), which are made in turn, so that whatever else the machine
does weighs on all of them.
"""

from __future__ import annotations

import os
import subprocess
import sys
import tempfile
from pathlib import Path

import paths  # noqa: F401 - it finds the modules below

from generators import made_case, storms

SITES, SEED, STEPS = 1000, 7, 2000
COUNTS = (0, 3, 4)


def user_seconds(program: str, folder: str, count: int) -> float:
    """The user time of a run with this number of monitors."""
    with open(os.path.join(folder, "out"), "wb") as out:
        process = subprocess.Popen([program, str(count), "study", "--case=case", "--storm=storm"], cwd=folder, stdout=out)
        _, status, usage = os.wait4(process.pid, 0)
    if status:
        sys.exit(f"monitors.py: a run with {count} monitors ended with status {os.waitstatus_to_exitcode(status)}")
    return float(usage.ru_utime)


def main() -> None:
    program = os.path.abspath(sys.argv[1])
    runs = int(sys.argv[2]) if len(sys.argv) > 2 else 9
    with tempfile.TemporaryDirectory() as folder:
        Path(folder, "case").write_text(made_case.text(SITES, SEED))
        Path(folder, "storm").write_text(storms.drawn_by_zone(["Z"], STEPS))
        turns = [[user_seconds(program, folder, count) for count in COUNTS] for _ in range(runs)]
    none, three, four = (min(times) for times in zip(*turns))
    print(
        f"user time of a study of {STEPS} steps: none {none:.3f} s, three monitors {three:.3f} s, four {four:.3f} s; "
        f"three / none {three / none:.3f}, four / none {four / none:.3f}"
    )


if __name__ == "__main__":
    main()
