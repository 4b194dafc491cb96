#!/usr/bin/env python3
"""Times the steps of a study that are put together from certified base fields beside the same steps, each solved afresh, and
prints a table.

    python3 bench/steps_afresh.py PROGRAM CASE ..

PROGRAM is the built program, and each CASE a file with a line, as `generators/solver_cases.py` writes them. No contract tells the two
apart, and a solve of a small network is too fast for a test's time limit to tell them; so only such a ratio shows a study that
solves each of its steps. `trials/tests/test_steps.py` refuses one below 1.5 over twenty loops.

The program solves the steps of an epoch that has at most twice as many steps as the case has zones. So the storm has
another field at each step, and one switching for each few steps closes a line that is closed already: nothing that
stands changes, and each step is solved from the guesses of the one before. Beside it the same rows stand all at the first
time, which leaves one epoch, whose steps are put together. The time of a step is that of more than a tenth of the steps,
by their number. Both reports hold the exact peaks, so their intervals overlap, line by line; the status is 1 where they
don't, or where a run fails.
"""

from __future__ import annotations

import re
import subprocess
import sys
import tempfile
import time
from dataclasses import dataclass
from pathlib import Path

import paths  # noqa: F401 - it finds the modules below

from generators import storms
from generators.random_cases import NO_SWITCHINGS
from generators.storms import SECONDS

# The most steps and rows of switchings that are timed.
STEPS, ROWS = 2000, 1000
RUNS = 3


@dataclass(frozen=True)
class Case:
    """A case, and what its storms are made by."""

    name: str
    text: str
    zones: int
    line: str


def read(path: Path) -> Case:
    """The case in a file. Its first line is the one that is closed again and again."""
    text = path.read_text(encoding="utf-8")
    rows = re.search(r"\[\[line\]\]|^line = \[", text, re.MULTILINE)
    name = re.search(r'name = "([^"]+)"', text[rows.end() :]) if rows else None
    zones = set(re.findall(r'zone = "([^"]+)"', text))
    if name is None or not zones:
        sys.exit(f"steps_afresh.py: {path} has no line")
    return Case(path.stem, text, len(zones), name[1])


def switchings(case: Case, steps: int, *, is_afresh: bool) -> str:
    """Closings of a line that is closed: one at the beginning of each short epoch, or as many at the first time."""
    length = 2 * case.zones
    times = [SECONDS * step for step in range(length, steps, length)]
    return NO_SWITCHINGS + "".join(f"{at if is_afresh else 0},{case.line},close\n" for at in times)


def study(program: Path, folder: Path, steps: int, way: str) -> tuple[float, list[str]]:
    """The least time of some runs in seconds, and the lines of the report in front of those of the monitors."""
    words = [str(program), "study", "--case=case", f"--storm=storm{steps}", f"--switch={way}{steps}"]
    least, report = float("inf"), ""
    for _ in range(RUNS):
        begin = time.perf_counter()
        ran = subprocess.run(words, cwd=folder, capture_output=True, text=True, check=False)
        least = min(least, time.perf_counter() - begin)
        if ran.returncode:
            sys.exit(f"steps_afresh.py: {' '.join(words)} ended with status {ran.returncode}: {ran.stderr.strip()}")
        report = ran.stdout
    return least, report.split("\nmonitor ")[0].splitlines()


def overlap(line: str, other: str) -> bool:
    """Whether two lines of peaks name the same and may hold the same number."""
    ends = re.compile(r"(.*?) (-?\d+) (-?\d+)( [a-z]+)?")
    one, two = ends.fullmatch(line), ends.fullmatch(other)
    if one is None or two is None:
        return line == other
    return one[1] == two[1] and int(one[2]) <= int(two[3]) and int(two[2]) <= int(one[3])


def row(program: Path, case: Case) -> tuple[str, bool]:
    """The row of a case, and whether the reports agree."""
    most = min(STEPS, 2 * case.zones * ROWS)
    few = most // 10
    took: dict[tuple[str, int], float] = {}
    peaks: dict[str, list[str]] = {}
    with tempfile.TemporaryDirectory() as name:
        folder = Path(name)
        (folder / "case").write_text(case.text, encoding="utf-8")
        for steps in (few, most):
            (folder / f"storm{steps}").write_text(storms.drawn(steps), encoding="utf-8")
            for way in ("together", "afresh"):
                rows = switchings(case, steps, is_afresh=way == "afresh")
                (folder / f"{way}{steps}").write_text(rows, encoding="utf-8")
                took[way, steps], peaks[way] = study(program, folder, steps, way)
    together, afresh = ((took[way, most] - took[way, few]) / (most - few) for way in ("together", "afresh"))
    agree = len(peaks["together"]) == len(peaks["afresh"]) and all(map(overlap, peaks["together"], peaks["afresh"]))
    ratio = f"{afresh / together:.1f}" if together > 0 else "-"
    text = f"| {case.name} | {case.zones} | {most} | {together * 1e6:.1f} | {afresh * 1e6:.1f} | {ratio} |"
    return text, agree


def main() -> int:
    if len(sys.argv) < 3:
        print(__doc__, file=sys.stderr)
        return 2
    program = Path(sys.argv[1]).resolve()
    print("| case | zones | steps | a step put together, us | a step solved afresh, us | afresh ÷ together |")
    print("|---|---|---|---|---|---|")
    status = 0
    for path in sys.argv[2:]:
        text, agree = row(program, read(Path(path)))
        print(text, flush=True)
        if not agree:
            print(f"steps_afresh.py: the peaks of {path} don't overlap", file=sys.stderr)
            status = 1
    return status


if __name__ == "__main__":
    sys.exit(main())
