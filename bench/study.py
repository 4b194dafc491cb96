#!/usr/bin/env python3
"""Times `study` over storms of 20, 2000 and 20000 steps beside `field` of the same network, and beside superposition in
doubles, and prints a table. `study.sh` calls it.

    python3 bench/study.py PROGRAM SUPERPOSE CASE ..

PROGRAM is the built program, SUPERPOSE the built `baselines/superpose.c`, and each CASE a file. Times are the least of some
runs. The time of a step is that of more than 20 steps by the number of those more; what is left of a run of 20 steps is
reading, certifying the base fields and writing. A case of more than a hundred zones gets 500 steps, each with one field for
all zones: its steps are slow enough to be timed so.
"""

from __future__ import annotations

import os
import random
import re
import subprocess
import sys
import tempfile
import time
from collections.abc import Sequence
from pathlib import Path
from typing import NamedTuple

import paths  # noqa: F401 - it finds the modules below

from generators import storms
from referee.storm import MOST_STORM_ROWS

FEW, MANY, MOST = 20, 2000, MOST_STORM_ROWS
SLOW = 500
MANY_ZONES = 100
HEADS = (
    "case",
    "zones",
    "field, us",
    "20 steps, us",
    "a step, us",
    "step ÷ field",
    "20000 steps ÷ 2000 steps",
    "memory, 20000 ÷ 20 steps",
    "superposition, us",
    "step ÷ superposition",
)
INTERVAL = re.compile(r"^(?:node|ground|line|winding|neutral|effective) .* (-?\d+) (-?\d+)$", re.MULTILINE)


class Took(NamedTuple):
    """What a run took: seconds by the clock, and the peak of memory in kB."""

    seconds: float
    memory: int


def timed(words: Sequence[str], folder: str) -> Took:
    """What one run takes."""
    with open(os.path.join(folder, "out"), "wb") as out:
        begin = time.perf_counter()
        process = subprocess.Popen(words, cwd=folder, stdout=out)
        _, status, usage = os.wait4(process.pid, 0)
        seconds = time.perf_counter() - begin
    if status:
        sys.exit(f"study.py: {' '.join(words)} ended with status {os.waitstatus_to_exitcode(status)}")
    return Took(seconds, usage.ru_maxrss)


def least(words: Sequence[str], folder: str, runs: int) -> Took:
    """The least time and the greatest memory of some runs."""
    took = [timed(words, folder) for _ in range(runs)]
    return Took(min(run.seconds for run in took), max(run.memory for run in took))


def middles(program: str, folder: str, north: int, east: int) -> list[float]:
    """The middles of the signed intervals of a field."""
    words = [program, "field", "--case=case", f"--north={north}", f"--east={east}"]
    out = subprocess.run(words, cwd=folder, capture_output=True, text=True, check=True).stdout
    return [(int(low) + int(high)) / 2 for low, high in INTERVAL.findall(out)]


def superposed(program: str, superpose: str, folder: str) -> int:
    """Nanoseconds of a step by superposition in doubles, of all that `study` looks at."""
    north, east = middles(program, folder, 1000, 0), middles(program, folder, 0, 1000)
    draw = random.Random(1)
    numbers = [f"{len(north)} 2000"] + [f"{a / 1000} {b / 1000}" for a, b in zip(north, east)]
    numbers += [f"{draw.randint(-8000, 8000)} {draw.randint(-8000, 8000)}" for _ in range(2000)]
    return int(subprocess.run([superpose], input="\n".join(numbers), capture_output=True, text=True, check=True).stdout)


def row(program: str, superpose: str, case: Path) -> list[str]:
    """The cells of a case."""
    text = case.read_text()
    zones = sorted(set(re.findall(r'zone = "([^"]+)"', text)))
    many = MANY if len(zones) <= MANY_ZONES else SLOW
    with tempfile.TemporaryDirectory() as folder:
        Path(folder, "case").write_text(text)
        field = least([program, "field", "--case=case", "--north=8000"], folder, 7).seconds
        took = {}
        for steps in (FEW, many, *([MOST] if many == MANY else [])):
            Path(folder, "storm").write_text(storms.drawn_by_zone(zones, steps))
            took[steps] = least([program, "study", "--case=case", "--storm=storm"], folder, 1 if steps == MOST else 3)
        plain = superposed(program, superpose, folder) / 1e9
    few = took[FEW]
    step = (took[many].seconds - few.seconds) / (many - FEW)
    growth = memory = "-"
    if MOST in took:
        growth = f"{(took[MOST].seconds - few.seconds) / (took[many].seconds - few.seconds):.2f}"
        memory = f"{took[MOST].memory / few.memory:.2f}"
    return [
        case.name.removesuffix(".toml"),
        f"{len(zones)}",
        f"{field * 1e6:.0f}",
        f"{few.seconds * 1e6:.0f}",
        f"{step * 1e6:.1f}",
        f"1/{field / step:.1f}",
        growth,
        memory,
        f"{plain * 1e6:.1f}",
        f"{step / plain:.1f}",
    ]


def main() -> None:
    program, superpose = os.path.abspath(sys.argv[1]), os.path.abspath(sys.argv[2])
    print("| " + " | ".join(HEADS) + " |")
    print("|" + "---|" * len(HEADS))
    for case in sys.argv[3:]:
        print("| " + " | ".join(row(program, superpose, Path(case))) + " |", flush=True)


if __name__ == "__main__":
    main()
