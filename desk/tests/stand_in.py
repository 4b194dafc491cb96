#!/usr/bin/env python3
"""Stands for a program with the mode `robust`, over small cases of formats 1 to 3 with zones of one scale and without switchings:
`list`, `volts`, `field`, `screen` and `robust`, by the plain solver, and `robust` by all corners of the grounds."""

import itertools
import math
import pathlib
import sys
import tomllib
from collections.abc import Iterator

import plain

FIELD, THRESHOLD, WIDTH = 8000, 75000, 100
MILLI = 1000


def scale(case: plain.Case, name: str) -> float:
    return float(next(zone["scale"] for zone in case["zone"] if zone["name"] == name)) / 1000


def element_lines(case: plain.Case) -> Iterator[str]:
    stations = {bus["name"]: bus["substation"] for bus in case["bus"]}
    for row in case["substation"]:
        if "ground" in row:
            yield f"{row['name']} ground {row['name']} * 1 {row['ground']}"
    for row in case["line"]:
        if not row.get("blocked"):
            yield f"{row['name']} line {row['from']} {row['to']} 3 {row['resistance']}"
    for row in case["transformer"]:
        neutral = row["name"] if "neutral" in row else stations.get(row.get("high", ""), "")
        ways = {"high": ("high", neutral), "low": ("low", neutral), "series": ("high", "low"), "common": ("low", neutral)}
        for role, (start, end) in ways.items():
            if f"{role}_resistance" in row:
                yield f"{row['name']} {role} {row[start]} {row.get(end, end)} 3 {row[f'{role}_resistance']}"
        if row.get("neutral", "blocked") != "blocked":
            yield f"{row['name']} neutral {row['name']} {stations[row['high']]} 1 {row['neutral']}"


def corners(case: plain.Case, tolerance: int) -> Iterator[plain.Case]:
    """The case with each ground at an end of its range."""
    rows = case["substation"]
    ends = []
    for row in rows:
        own = row.get("tolerance", tolerance)
        ends.append((row["ground"] * (100 - own) // 100, -(-row["ground"] * (100 + own) // 100)) if "ground" in row else (0,))
    for grounds in itertools.product(*ends):
        changed = [row | ({"ground": ground} if ground else {}) for row, ground in zip(rows, grounds)]
        yield case | {"substation": changed}


def outward(values: list[float]) -> tuple[int, int]:
    """An interval that holds these currents, in milliamperes."""
    return math.floor(min(values) * MILLI - 0.01), math.ceil(max(values) * MILLI + 0.01)


def unit_lines(case: plain.Case, networks: list[plain.Case]) -> Iterator[str]:
    found = [plain.effective_currents(network, lambda name: scale(case, name), FIELD / 1000) for network in networks]
    for row in case["transformer"]:
        ways = [outward([currents[row["name"]][way] for currents in found]) for way in (0, 1)]
        near, far = zip(*((0 if low <= 0 <= high else min(abs(low), abs(high)), max(abs(low), abs(high))) for low, high in ways))
        worst = math.floor(math.hypot(*near)), math.ceil(math.hypot(*far))
        verdict = "reaches" if worst[0] >= THRESHOLD else "below" if worst[1] < THRESHOLD else "undecided"
        if row["high_volts"] <= 200000 or row["kind"] == "delta-delta":
            verdict = "outside"
        north, east = (f"{low} {high}" for low, high in ways)
        yield f"transformer {row['name']} north {north} east {east} worst {worst[0]} {worst[1]} {verdict}"


def report(mode: str, options: dict[str, str], case: plain.Case) -> list[str]:
    event = f"width {WIDTH} threshold {THRESHOLD} field {FIELD}"
    field = {way: int(options.get(way, "0")) for way in ("north", "east")}
    match mode:
        case "list":
            lines = list(element_lines(case))
            return [f"nodes 9 elements {len(lines)}", *(f"element {line}" for line in lines)]
        case "volts":
            volts = [sum(row[way] * field[way] for way in field) * scale(case, row["zone"]) * 1000 for row in case["line"]]
            rows = [f"line {row['name']} {round(value)}" for row, value in zip(case["line"], volts)]
            return [f"north {field['north']} east {field['east']}", *rows]
        case "field":
            return [f"north {field['north']} east {field['east']} width {WIDTH} threshold {THRESHOLD}"]
        case "screen":
            return [event, *unit_lines(case, [case])]
    tolerance = int(options["tolerance"])
    return [f"{event} tolerance {tolerance}", *unit_lines(case, list(corners(case, tolerance)))]


def main(words: list[str]) -> int:
    mode, *rest = words
    options = dict(word.removeprefix("--").split("=", 1) for word in rest)
    if "case" not in options:
        print("gicstudy: usage: missing --case", file=sys.stderr)
        return 2
    case = tomllib.loads(pathlib.Path(options["case"]).read_text())
    print("\n".join([mode, *report(mode, options, case), "end"]))
    return 0


if __name__ == "__main__":
    sys.exit(main(sys.argv[1:]))
