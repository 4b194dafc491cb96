#!/usr/bin/env python3
"""Times a day of ten-second steps in `study` beside a script in numpy that does the same in doubles (`storm_doubles.py`),
both from the files to the peaks; and in `series`, of the transformer in the middle of the case, beside `list` and the script.

    python3 bench/day.py PROGRAM [--case=FILE] [--zones] [--steps=N] [--sites=N] [--turns=N] [--seed=S] [--python=PYTHON]

PROGRAM is the built program. The case is a made one of 2000 nodes (`generators/made_case.py`, 1000 sites), or FILE; the storm has 8640
steps, with one field for all zones, or with --zones a field for each zone of the case, as far as 20000 rows go. Each time is
by the clock and the least of N turns (3), and holds the start of its program. The first line has the time of `series` and its
ratios, where the peak of its steps is that of `study`; the last one the times of `study` and the script, their ratio, and how
far the peaks in doubles are from the intervals, in mV and mA. PYTHON is one that has numpy, where this one hasn't.
"""

from __future__ import annotations

import argparse
import sys
import tempfile
import tomllib
from pathlib import Path

import beside
import paths
from generators import made_case, storms
from referee.storm import MOST_STORM_ROWS


def peak_of_series(lines: list[str]) -> tuple[int, int]:
    """The greatest low end and the greatest high end of the absolute intervals of the steps."""
    steps = [[int(word) for word in line.split(" ")[-2:]] for line in lines if line.startswith("step ")]
    return max(max(0, low, -high) for low, high in steps), max(max(high, -low) for low, high in steps)


def main() -> None:
    parser = argparse.ArgumentParser(description=__doc__, formatter_class=argparse.RawDescriptionHelpFormatter)
    parser.add_argument("program")
    parser.add_argument("--case", default="")
    parser.add_argument("--zones", action="store_true")
    for name, default in (("steps", 8640), ("sites", 1000), ("turns", 3), ("seed", 7)):
        parser.add_argument(f"--{name}", type=int, default=default)
    parser.add_argument("--python", default=sys.executable)
    given = parser.parse_args()
    try:
        text = Path(given.case).read_text() if given.case else made_case.text(given.sites, given.seed)
        case = tomllib.loads(text)
        zones = [zone["name"] for zone in case["zone"]] if given.zones else []
        unit = case["transformer"][len(case["transformer"]) // 2]["name"]
    except (OSError, ValueError, KeyError, IndexError) as error:
        sys.exit(f"day.py: {given.case}: {error}")
    steps = max(1, min(given.steps, MOST_STORM_ROWS // max(1, len(zones))))
    with tempfile.TemporaryDirectory() as folder:
        Path(folder, "case.toml").write_text(text)
        Path(folder, "storm.csv").write_text(storms.waves(steps, zones, given.seed))
        program = str(Path(given.program).resolve())
        study = [program, "study", "--case=case.toml", "--storm=storm.csv"]
        series = [program, "series", "--case=case.toml", "--storm=storm.csv", f"--transformer={unit}"]
        script = [given.python, str(paths.HERE / "storm_doubles.py"), "case.toml", "storm.csv"]
        runs = beside.least([study, script, series, [program, "list", "--case=case.toml"]], folder, given.turns)
    steps_and_zones = f"{steps} steps, {max(1, len(zones))} zones: "
    whole, doubles, one, listed = runs
    peak = tuple(int(word) for word in beside.items(whole.lines)[f"transformer {unit}"][:2])
    if peak != peak_of_series(one.lines):
        sys.exit(f"day.py: {unit}: the peak of `series` isn't that of `study`")
    ratios = f"÷ list {one.seconds / listed.seconds:.2f}, ÷ numpy {one.seconds / doubles.seconds:.3f}"
    print(f"{steps_and_zones}series {one.seconds:.3f} s, {ratios}")
    print(steps_and_zones + beside.told(["study", "numpy"], [whole, doubles], beside.difference(whole.lines, doubles.lines)))


if __name__ == "__main__":
    main()
