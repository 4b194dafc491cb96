#!/usr/bin/env python3
"""Writes a case of format 3 that looks like a network, at its limits or at a share of them, or a storm for its zones.

    python3 generators/interconnection.py [--share=SHARE] [--seed=SEED] > case.toml
    python3 generators/interconnection.py --storm=STEPS [--seed=SEED] > storm.csv

SHARE is a number above 0 and up to 1, as 1 or 1/4; it is 1 where it is not given, and SEED is 7. At a share of 1 there
are 4096 substations, 12288 buses, 24576 lines and 8192 transformers, and at another one as many in proportion, at least
3 substations. Substations lie on a plane that gets smaller with the share, so that those next to one another are as far
apart at each share; 208 zones lie on it as a grid. Substations have buses of up to four voltages, and lines lead to near
ones of the same voltage, in a part for each zone that they cross. Transformers are of all seven kinds, some over neutral
devices. Each node is well earthed. The numbers belong to no real network; the same text comes of the same words.

STEPS is a number from 1 to 20000. The storm has at each of that number of times a row for all zones, and one for each of the
first zones, as many as 20000 rows allow.
"""

from __future__ import annotations

import argparse
import math
import random
import sys
from fractions import Fraction
from typing import NamedTuple

import paths  # noqa: F401 - it finds the modules below

from generators.case_text import Row, case_text
from referee.case import LIMITS_3, PARTS
from referee.storm import MOST_STORM_ROWS

STATIONS = LIMITS_3["substation"]
BUSES_EACH, LINES_EACH, UNITS_EACH = (LIMITS_3[name] // STATIONS for name in ("bus", "line", "transformer"))
LEAST_STATIONS, MOST_PARTS = 3, PARTS.most
WIDTH, HEIGHT = 1600000, 1300000  # of the plane at a share of 1, in metres
COLUMNS, ROWS = 16, 13  # of the grid of zones
MOST_STEPS, MOST_FIELD = MOST_STORM_ROWS, 3000  # each step has a row; mV/km


class Level(NamedTuple):
    """A voltage: how many of the substations have it, and the micro-ohm of a kilometre of its lines."""

    volts: int
    share: float
    ohms: int


LEVELS = [Level(765000, 0.1, 12000), Level(500000, 0.35, 20000), Level(230000, 0.75, 60000), Level(115000, 0.95, 120000)]
THIRD_VOLTS = 34500


class Place(NamedTuple):
    """A substation's number, and its place in metres."""

    station: int
    north: int
    east: int


def distance(one: Place, other: Place) -> float:
    return math.hypot(one.north - other.north, one.east - other.east)


class Plane:
    """The places of some substations, by the cells of a grid, to find near ones."""

    def __init__(self, size: float) -> None:
        self.size = size
        self.cells: dict[tuple[int, int], list[Place]] = {}

    def cell(self, place: Place) -> tuple[int, int]:
        return int(place.north / self.size), int(place.east / self.size)

    def add(self, place: Place) -> None:
        self.cells.setdefault(self.cell(place), []).append(place)

    def ring(self, place: Place, far: int) -> list[Place]:
        """The places in the cells that are this number of cells away."""
        row, column = self.cell(place)
        found = []
        for down in range(-far, far + 1):
            for across in range(-far, far + 1) if abs(down) == far else (-far, far):
                found += self.cells.get((row + down, column + across), [])
        return found

    def nearest(self, place: Place, count: int, most_rings: int) -> list[Place]:
        """The nearest places but this one, the nearest first."""
        found: list[Place] = []
        for far in range(most_rings + 1):
            # (what is found in a ring is nearer than all that lies two rings further out)
            if sum(distance(place, other) <= (far - 1) * self.size for other in found) >= count:
                break
            found += [other for other in self.ring(place, far) if other.station != place.station]
        return sorted(found, key=lambda other: (distance(place, other), other.station))[:count]


class Network:
    """The lists of a case, as they grow."""

    def __init__(self, share: Fraction, seed: int) -> None:
        self.draw = random.Random(seed)
        self.size = max(LEAST_STATIONS, int(STATIONS * share))
        scale = math.sqrt(self.size / STATIONS)
        self.height, self.width = int(HEIGHT * scale), int(WIDTH * scale)
        self.places = [
            Place(station, self.draw.randrange(self.height), self.draw.randrange(self.width))
            for station in range(self.size)
        ]
        self.lists: dict[str, list[Row]] = {name: [] for name in LIMITS_3}
        self.levels = [self.levels_of_station() for _ in self.places]

    def levels_of_station(self) -> list[int]:
        found = [level for level, row in enumerate(LEVELS) if self.draw.random() < row.share]
        return found or [len(LEVELS) - 1]

    # Zones, substations and buses.

    def add_zones(self) -> None:
        """The further to the north a zone lies the stronger is its field; the ground below it varies."""
        for row in range(ROWS):
            for column in range(COLUMNS):
                zone: Row = {"name": f"zone-{row}-{column}"}
                beta = self.draw.randint(40, 120)
                if self.draw.random() < 0.2:
                    zone |= {"latitude": 4000 + 2300 * row // ROWS, "beta": beta}
                else:
                    zone["scale"] = max(1, min(1500, beta * (100 + 900 * row // (ROWS - 1)) // 100))
                self.lists["zone"].append(zone)

    def add_stations(self) -> None:
        for station in range(self.size):
            row: Row = {"name": f"station-{station}"}
            if self.draw.random() < 0.98:
                row["ground"] = self.draw.randint(100000, 900000)
            self.lists["substation"].append(row)
            for level in self.levels[station]:
                self.add_bus(bus_name(station, level), station)

    def add_bus(self, name: str, station: int) -> str:
        self.lists["bus"].append({"name": name, "substation": f"station-{station}"})
        return name

    # Lines.

    def add_lines(self) -> None:
        """A tree over the substations of each voltage, then further lines to near ones, then second circuits."""
        others: list[tuple[float, int, Place, Place]] = []
        for level in range(len(LEVELS)):
            here = [place for place in self.places if level in self.levels[place.station]]
            if len(here) > 1:
                others += self.add_tree(level, here)
        most = LINES_EACH * self.size
        others.sort(key=lambda pair: (pair[0], pair[1], pair[2].station, pair[3].station))
        for _, level, start, end in others[: max(0, most - len(self.lists["line"]))]:
            self.add_line(level, start, end, self.draw.random() < 0.03)
        singles = list(self.lists["line"])
        while singles and len(self.lists["line"]) < most:
            self.lists["line"].append(self.draw.choice(singles) | {"name": f"line-{len(self.lists['line'])}"})

    def add_tree(self, level: int, here: list[Place]) -> list[tuple[float, int, Place, Place]]:
        """Joins each place with the nearest one of those nearer to the centre; it tells further near pairs."""
        centre = Place(-1, self.height // 2, self.width // 2)
        here = sorted(here, key=lambda place: (distance(centre, place), place.station))
        size = math.sqrt(self.height * self.width / len(here)) + 1
        rings = int(max(self.height, self.width) / size) + 2
        plane, joined = Plane(size), set()
        for place in here:
            for other in plane.nearest(place, 1, rings):
                self.add_line(level, other, place, False)
                joined.add((other.station, place.station))
            plane.add(place)
        pairs = {}
        for place in here:
            for other in plane.nearest(place, 5, rings):
                start, end = sorted((place, other), key=lambda one: (one.east, one.station))
                if (start.station, end.station) not in joined and (end.station, start.station) not in joined:
                    pairs[start.station, end.station] = (distance(start, end), level, start, end)
        return list(pairs.values())

    def add_line(self, level: int, start: Place, end: Place, is_blocked: bool) -> None:
        ohms = LEVELS[level].ohms * max(1000, int(distance(start, end))) // 1000
        row: Row = {
            "name": f"line-{len(self.lists['line'])}",
            "from": bus_name(start.station, level),
            "to": bus_name(end.station, level),
            "resistance": max(1000, ohms * self.draw.randint(90, 110) // 100),
        }
        parts = self.parts(start, end)
        row |= parts[0] if len(parts) == 1 else {"part": parts}
        self.lists["line"].append(row | ({"blocked": True} if is_blocked else {}))

    def parts(self, start: Place, end: Place) -> list[Row]:
        """The span of a line, cut where it leaves a zone."""
        north, east = end.north - start.north, end.east - start.east
        cuts = {0.0, 1.0}
        for begin, span, length, count in (
            (start.north, north, self.height, ROWS),
            (start.east, east, self.width, COLUMNS),
        ):
            borders = (length * border / count for border in range(1, count))
            cuts |= {(border - begin) / span for border in borders if span and 0 < (border - begin) / span < 1}
        edges = sorted(cuts)
        edges = edges[:MOST_PARTS] + edges[-1:] if len(edges) > MOST_PARTS + 1 else edges
        found = []
        for first, last in zip(edges, edges[1:]):
            middle = (first + last) / 2
            found.append(
                {
                    "zone": self.zone_at(start.north + middle * north, start.east + middle * east),
                    "north": round(last * north) - round(first * north),
                    "east": round(last * east) - round(first * east),
                }
            )
        return found

    def zone_at(self, north: float, east: float) -> str:
        row = min(ROWS - 1, int(north * ROWS / self.height))
        return f"zone-{row}-{min(COLUMNS - 1, int(east * COLUMNS / self.width))}"

    # Transformers.

    def add_units(self) -> None:
        """A unit between each two voltages of a substation that follow one another, some with a third winding; a unit at
        each substation that has one voltage; then others by chance."""
        pairs = [(station, *pair) for station, own in enumerate(self.levels) for pair in zip(own, own[1:])]
        room = BUSES_EACH * self.size - len(self.lists["bus"])
        thirds = set(self.draw.sample(range(len(pairs)), max(0, min(room, len(pairs)))))
        for place, (station, high, low) in enumerate(pairs):
            self.add_joint(station, high, low, place in thirds)
        for station in range(room - len(thirds)):
            self.add_bus(f"spare-{station}", station % self.size)
        for station, own in enumerate(self.levels):
            if len(own) == 1:
                self.add_single("delta-wye", station, own[0])
        while len(self.lists["transformer"]) < UNITS_EACH * self.size:
            station = self.draw.randrange(self.size)
            kind = self.draw.choices(["delta-wye", "reactor", "delta-delta"], [6, 3, 1])[0]
            self.add_single(kind, station, self.draw.choice(self.levels[station]))

    def winding(self) -> int:
        return self.draw.randint(40000, 400000)

    def add_joint(self, station: int, high: int, low: int, has_third: bool) -> None:
        kind = "auto" if self.draw.random() < 0.7 else "wye-wye"
        roles = ("series", "common") if kind == "auto" else ("high", "low")
        row: Row = {
            "kind": kind,
            "high_volts": LEVELS[high].volts,
            "high": bus_name(station, high),
            "low": bus_name(station, low),
            "low_volts": LEVELS[low].volts,
        }
        row |= {f"{role}_resistance": self.winding() for role in roles}
        if has_third:
            bus = self.add_bus(f"third-{station}-{high}", station)
            row |= {"kind": f"{kind}-wye", "third": bus, "third_volts": THIRD_VOLTS, "third_resistance": self.winding()}
        self.add_unit(row)

    def add_single(self, kind: str, station: int, level: int) -> None:
        row: Row = {"kind": kind, "high_volts": LEVELS[level].volts}
        if kind != "delta-delta":
            row |= {"high": bus_name(station, level), "high_resistance": self.winding()}
        self.add_unit(row)

    def add_unit(self, row: Row) -> None:
        name = {"name": f"unit-{len(self.lists['transformer'])}"}
        choice = self.draw.random()
        if row["kind"] == "delta-delta" or choice < 0.9:
            device: Row = {}
        else:
            device = {"neutral": "blocked" if choice > 0.98 else self.draw.randint(500000, 5000000)}
        self.lists["transformer"].append(name | row | device)


def bus_name(station: int, level: int) -> str:
    return f"bus-{station}-{LEVELS[level].volts // 1000}"


def network(share: Fraction, seed: int) -> dict[str, list[Row]]:
    """The lists of the case."""
    made = Network(share, seed)
    made.add_zones()
    made.add_stations()
    made.add_lines()
    made.add_units()
    return made.lists


def storm(steps: int, seed: int) -> str:
    """A storm with fields by chance for all zones, and for the first ones by themselves."""
    draw = random.Random(seed)
    zones = ["*", *(f"zone-{row}-{column}" for row in range(ROWS) for column in range(COLUMNS))][: MOST_STEPS // steps]
    rows = [f"{10 * step},{zone}" for step in range(steps) for zone in zones]
    fields = [f"{row},{draw.randint(-MOST_FIELD, MOST_FIELD)},{draw.randint(-MOST_FIELD, MOST_FIELD)}" for row in rows]
    return "\n".join(["time,zone,north,east", *fields, ""])


def share_of(word: str) -> Fraction:
    """The share that a word is."""
    try:
        share = Fraction(word)
    except ZeroDivisionError:
        raise ValueError(word) from None
    if not 0 < share <= 1:
        raise ValueError(word)
    return share


def steps_of(word: str) -> int:
    """The steps that a word is."""
    if not 1 <= int(word) <= MOST_STEPS:
        raise ValueError(word)
    return int(word)


def main() -> None:
    parser = argparse.ArgumentParser(description=__doc__, formatter_class=argparse.RawDescriptionHelpFormatter)
    parser.add_argument("--share", metavar="SHARE", type=share_of, default=Fraction(1))
    parser.add_argument("--seed", type=int, default=7)
    parser.add_argument("--storm", metavar="STEPS", type=steps_of)
    given = parser.parse_args()
    try:
        made = storm(given.storm, given.seed) if given.storm else case_text(3, network(given.share, given.seed))
        sys.stdout.write(made)
    except BrokenPipeError:
        sys.exit("interconnection.py: nobody reads what it writes")


if __name__ == "__main__":
    main()
