#!/usr/bin/env python3
"""Compares the solvers of two trees by their own ratios.

    python3 bench/compare.py BEFORE AFTER FOLDER [RUNS] [CASE ..]

BEFORE and AFTER are programs that bench/solver.sh has built, of two trees, each in a folder of its own, and FOLDER has the
cases that it wrote. Each case, or each that is named, is run so often (60 where RUNS is not given), by the one program and
the other in turn, each of them first in every second turn. For each ratio of a run's own times this prints the median over
the runs of the one program and of the other, the quotient of the two medians, and the 95 per cent interval of that
quotient: its percentiles where the pairs of runs are drawn anew 2000 times. The verdict is `worse` where the whole interval
is above 1.1, `no` where none of it is, and else `undecided`. Behind it stand the least times of all runs, which decide
nothing. The last row of a case is the time of a whole field, which isn't a ratio and moves with the machine. Where plain
sweeps were given up, there is no ratio by them. The machine should have nothing else to do.
"""

from __future__ import annotations

import random
import statistics
import subprocess
import sys
from collections.abc import Sequence
from typing import NamedTuple, Optional

CASES = (
    *("p", "realistic", "ps", "made-20", "made-200", "made-2000", "row", "chain"),
    *("grid", "grid-far", "grid-units", "limit", "far-small", "far"),
)
SWEEPS = "plain"
# The ratios of a run's own times, and the time of a whole field, which other solvers' times are set beside.
RATIOS: tuple[tuple[str, str, Optional[str]], ...] = (
    ("`solve` ÷ sweeps", "solve", SWEEPS),
    ("reciprocal ÷ division", "pass", "slow_pass"),
    ("`bound` ÷ by division", "bound", "slow_bound"),
    ("whole field, ns", "field", None),
)
RUNS = 60
WORSE = 1.1
DRAWS = 2000
Run = dict[str, int]  # the figures of a run by their names


class Pair(NamedTuple):
    """What the one program has, and the other."""

    before: float
    after: float


def times(program: str, case: str) -> Run:
    words = subprocess.run([program, case], check=True, capture_output=True, text=True).stdout.split()
    return {name: int(figure) for name, figure in zip(words[::2], words[1::2])}


def turn_of(programs: tuple[str, str], path: str, turn: int) -> tuple[Run, Run]:
    """One run of each program, in this order and in the other by turns."""
    order = (0, 1) if turn % 2 == 0 else (1, 0)
    runs = {side: times(programs[side], path) for side in order}
    return runs[0], runs[1]


def ratio(run: Run, part: str, whole: Optional[str]) -> float:
    return run[part] / (run[whole] if whole else 1)


def medians(pairs: Sequence[Pair]) -> Pair:
    return Pair(statistics.median(pair.before for pair in pairs), statistics.median(pair.after for pair in pairs))


def quotient(pairs: Sequence[Pair]) -> float:
    before, after = medians(pairs)
    return after / before


def interval(pairs: Sequence[Pair]) -> tuple[float, float]:
    """The 95 per cent interval of the quotient."""
    draw = random.Random(1)
    quotients = sorted(quotient(draw.choices(pairs, k=len(pairs))) for _ in range(DRAWS))
    return quotients[DRAWS // 40], quotients[-DRAWS // 40 - 1]


def verdict(low: float, high: float) -> str:
    if low > WORSE:
        return "worse"
    return "no" if high <= WORSE else "undecided"


def least_ratio(runs: Sequence[Run], part: str, whole: Optional[str]) -> float:
    """The ratio of the least times of all runs."""
    return min(run[part] for run in runs) / (min(run[whole] for run in runs) if whole else 1)


def row(case: str, name: str, runs: Sequence[tuple[Run, Run]], part: str, whole: Optional[str]) -> None:
    pairs = [Pair(ratio(before, part, whole), ratio(after, part, whole)) for before, after in runs]
    low, high = interval(pairs)
    least = [least_ratio(side, part, whole) for side in zip(*runs)]
    before, after = medians(pairs)
    cells = (
        case,
        name,
        str(len(runs)),
        f"{before:.4g}",
        f"{after:.4g}",
        f"{after / before:.3f}",
        f"{low:.3f} to {high:.3f}",
        verdict(low, high),
        f"{least[1] / least[0]:.3f}",
    )
    print("| " + " | ".join(cells) + " |", flush=True)


def main() -> None:
    before, after, folder, *rest = sys.argv[1:]
    count = int(rest[0]) if rest else RUNS
    heads = ("case", "ratio", "runs", "before", "after", "quotient", "interval", "worse by a tenth", "by least times")
    print("| " + " | ".join(heads) + " |")
    print("|---" * len(heads) + "|")
    for case in rest[1:] or CASES:
        path = f"{folder}/{case}.toml"
        runs = [turn_of((before, after), path, turn) for turn in range(count)]
        ended = all(run["ended"] for pair in runs for run in pair)
        for name, part, whole in RATIOS:
            if whole != SWEEPS or ended:
                row(case, name, runs, part, whole)


if __name__ == "__main__":
    main()
