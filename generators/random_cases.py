#!/usr/bin/env python3
"""Writes folders of random networks, one network a folder, to be checked by a solver of another make.

    python3 generators/random_cases.py DIR [COUNT] [SEED] [NODES] [--mode=MODE] [--limits]

Each folder of DIR has the case `p`, often a list of switchings `s`, and the file `words` with the words of one run of
MODE (`field` where it is not given, or `screen`, or `outage`, or `review`, or `robust`, or `study` or `series` with a storm
`t` besides), one word a line.
COUNT networks are written (100), the same ones for the same SEED (1), each of at most NODES nodes (200).
Transformers are of all kinds, with and without neutral resistors and blocking devices; some lines are blocked, some
substations have no ground, and some networks are not earthed, or not well enough to be solved: then the answer is a
refusal. Three networks in four are made so that each bus has a way to earth before anything is switched. Half of the
networks are of format 3, with zones by their scale, tolerances of grounds, lines in parts, third windings and reactors.
With --limits all resistances are near one of the two ends of their range.
"""

from __future__ import annotations

import re
import sys
from collections.abc import Sequence
from pathlib import Path
from random import Random
from typing import NamedTuple

import paths  # noqa: F401 - it finds the modules below

from referee.case import OHM, PARTS
from referee.storm import FIELD
from referee.words import RANGES

# The ends of the latitudes, in hundredths of a degree, at which the alpha of the table is below that of the formula.
LOW_ALPHA_ENDS = (4960, 5000, 5563, 5600, 5697, 5700)
MODES = ("field", "screen", "outage", "study", "series", "review", "robust")
OVER_STORMS = ("study", "series")
TOLERANCE = RANGES["tolerance"]
KINDS = ("delta-wye", "wye-wye", "auto", "delta-delta")
THREE_SIDED = ("wye-wye-wye", "auto-wye")
MOST_SPAN = 300000
SEEDS_APART = 1000003
NO_SWITCHINGS = "time,item,action\n"
Files = dict[str, str]


class Network(NamedTuple):
    """A random network: the text of its case, and the names that switchings can have, of items, and of transformers with a
    resistor."""

    text: str
    items: list[str]
    resistors: list[str]

    def names(self, letter: str) -> list[str]:
        """The names in its text that begin with a letter, of zones or of transformers."""
        return sorted(set(re.findall(f'"({letter}[0-9]+)"', self.text)))


class Drawing:
    """A network as it is drawn: its tables, and what has been counted of it."""

    def __init__(self, draw: Random, at_limits: bool) -> None:
        self.draw, self.at_limits = draw, at_limits
        self.is_earthed = draw.random() < 0.75
        self.zones = [f"Z{place}" for place in range(draw.randint(1, 5))]
        self.is_third = draw.random() < 0.5
        self.tables = [f"format = {3 if self.is_third else 2}"]
        self.buses: list[tuple[str, str]] = []
        self.units: list[list[str]] = []
        self.stations = self.nodes = 0
        self.items: list[str] = []
        self.resistors: list[str] = []

    # Numbers.

    def resistance(self) -> int:
        """Spread over the powers of ten between the limits."""
        least, most = (len(str(end)) - 1 for end in OHM)
        return min(OHM.most, max(OHM.least, int(10 ** self.draw.uniform(least, most))))

    def usual(self, least: int, most: int) -> int:
        """Mostly in a usual range, and at times anywhere within the limits; or at both ends of the limits."""
        if self.at_limits:
            return self.draw.choice([1000, 1000, 1001, 2000, 999999999, 1000000000])
        return self.resistance() if self.draw.random() < 0.04 else self.draw.randint(least, most)

    # Zones, substations and buses.

    def add_zones(self) -> None:
        for zone in self.zones:
            self.tables.append("\n".join(["[[zone]]", f'name = "{zone}"', *self.zone_rows()]))

    def zone_rows(self) -> list[str]:
        """The rows of a zone but its name."""
        if self.is_third and self.draw.random() < 0.5:
            return [f"scale = {self.draw.choice([1, 1500, self.draw.randint(1, 1500), self.draw.randint(1, 1500)])}"]
        return [f"latitude = {self.latitude()}", f"beta = {self.draw.randint(1, 150)}"]

    def latitude(self) -> int:
        """Mostly anywhere, and at times at an end of those where the alpha of the table is low, or just beyond it."""
        if self.draw.random() < 0.1:
            return self.draw.choice(LOW_ALPHA_ENDS) + self.draw.randint(-1, 1)
        return self.draw.randint(0, 9000)

    def add_station(self) -> None:
        """A substation, with its buses and their transformers."""
        station = f"S{self.stations}"
        buses = [f"B{self.stations}-{level}" for level in range(self.draw.randint(1, 3))]
        self.stations += 1
        self.nodes += 1 + len(buses)
        is_grounded = self.is_earthed or self.draw.random() < 0.85
        ground = f"\nground = {self.usual(100000, 3000000)}" if is_grounded else ""
        has_tolerance = is_grounded and self.is_third and self.draw.random() < 0.3
        tolerance = f"\ntolerance = {self.draw.choice([0, 90, self.draw.randint(0, 90)])}" if has_tolerance else ""
        self.tables.append(f'[[substation]]\nname = "{station}"{ground}{tolerance}')
        self.items += [station] if is_grounded else []
        self.buses += [(bus, station) for bus in buses]
        for bus in buses if self.is_earthed else []:
            self.add_unit(self.plain_unit(bus))
        for _ in range(self.draw.randint(0, 2)):
            self.add_random_unit(buses)

    def add_buses(self) -> None:
        self.tables += [f'[[bus]]\nname = "{bus}"\nsubstation = "{station}"' for bus, station in self.buses]

    # Transformers.

    def unit_head(self, kind: str, high_volts: int) -> list[str]:
        return [f'name = "T{len(self.units)}"', f'kind = "{kind}"', f"high_volts = {high_volts}"]

    def add_unit(self, rows: list[str]) -> None:
        self.items.append(f"T{len(self.units)}")
        self.units.append(rows)

    def plain_unit(self, bus: str) -> list[str]:
        """A unit that earths the windings of a bus."""
        return [*self.unit_head("delta-wye", 345000), f'high = "{bus}"', f"high_resistance = {self.usual(50000, 1000000)}"]

    def kinds_at(self, buses: Sequence[str]) -> list[str]:
        """The kinds of a unit over these buses of one substation, in format 3 or before it."""
        kinds = [*KINDS] if len(buses) > 1 else ["delta-wye", "delta-wye", "delta-delta"]
        if not self.is_third:
            return kinds
        return [*kinds, "reactor", *(2 * THREE_SIDED if len(buses) > 2 else [])]

    def add_random_unit(self, buses: Sequence[str]) -> None:
        """A unit between two or three buses of one substation, or at one."""
        high_volts = self.draw.choice([115000, 138000, 200000, 200001, 230000, 345000, 500000, 765000])
        kind = self.draw.choice(self.kinds_at(buses))
        rows = self.unit_head(kind, high_volts)
        if kind == "delta-delta":
            self.add_unit(rows)
            return
        at = self.draw.sample(buses, 3 if kind in THREE_SIDED else 2) if len(buses) > 1 else [buses[0]]
        rows.append(f'high = "{at[0]}"')
        if kind in ("delta-wye", "reactor"):
            rows.append(f"high_resistance = {self.usual(50000, 1000000)}")
        else:
            rows += [f'low = "{at[1]}"', f"low_volts = {self.draw.randint(1000, high_volts)}"]
            first, second = ("series", "common") if kind.startswith("auto") else ("high", "low")
            rows += [f"{role}_resistance = {self.usual(20000, 500000)}" for role in (first, second)]
        if kind in THREE_SIDED:
            rows += [f'third = "{at[2]}"', f"third_volts = {self.draw.randint(1000, high_volts)}"]
            rows.append(f"third_resistance = {self.usual(20000, 500000)}")
        self.add_unit(rows + self.neutral())

    def neutral(self) -> list[str]:
        """The device in the neutral of the next unit, which may have none."""
        choice = self.draw.random()
        if choice < 0.6:
            return []
        self.nodes += 1
        if choice >= 0.85:
            return ['neutral = "blocked"']
        self.resistors.append(f"T{len(self.units)}")
        return [f"neutral = {self.usual(100000, 10000000)}"]

    # Lines.

    def add_lines(self) -> None:
        count = len(self.buses)
        for place in range(self.draw.randint(0, 2 * count) if count > 1 else 0):
            start = self.draw.randrange(count - 1)
            end = self.draw.randint(start + 1, min(count - 1, start + self.draw.choice([1, 2, 4, 200])))
            blocked = ["blocked = true"] if self.draw.random() < 0.06 else []
            ends = [f'from = "{self.buses[start][0]}"', f'to = "{self.buses[end][0]}"']
            rows = ["[[line]]", f'name = "L{place}"', *ends, *self.line_rows(), *blocked]
            self.tables.append("\n".join(rows))
            self.items.append(f"L{place}")

    def span(self, most: int) -> tuple[str, int, int]:
        """A zone, and how far the line goes there to the north and to the east."""
        return self.draw.choice(self.zones), self.draw.randint(-most, most), self.draw.randint(-most, most)

    def line_rows(self) -> list[str]:
        """The rows of a line but its name and its ends: it lies in one zone, or in parts."""
        count = self.draw.choice([1, 1, 2, 2, 3, PARTS.most]) if self.is_third else 1
        if count == 1:
            zone, resistance = self.draw.choice(self.zones), self.usual(500000, 20000000)
            spans = [f"{way} = {self.draw.randint(-MOST_SPAN, MOST_SPAN)}" for way in ("north", "east")]
            return [f'zone = "{zone}"', f"resistance = {resistance}", *spans]
        spans = [
            f'{{ zone = "{zone}", north = {north}, east = {east} }}'
            for zone, north, east in (self.span(MOST_SPAN // count) for _ in range(count))
        ]
        return [f"resistance = {self.usual(500000, 20000000)}", f"part = [{', '.join(spans)}]"]

    def made(self) -> Network:
        """The network, once all is drawn."""
        tables = self.tables + ["[[transformer]]\n" + "\n".join(rows) for rows in self.units]
        return Network("\n".join(tables) + "\n", self.items, self.resistors)


def network(draw: Random, nodes: int, at_limits: bool = False) -> Network:
    """A random network of about this number of nodes; with its resistances at both ends of their range."""
    drawing = Drawing(draw, at_limits)
    drawing.add_zones()
    while not drawing.stations or (drawing.nodes + 8 <= nodes and draw.random() < 0.98):
        drawing.add_station()
    drawing.add_buses()
    drawing.add_lines()
    return drawing.made()


def switchings(draw: Random, made: Network, latest: int = 60) -> str:
    """Switchings of a network that has items, each at most this number of seconds behind the one before."""
    lines, time = NO_SWITCHINGS, 0
    for _ in range(draw.randint(0, 6)):
        time += draw.randint(0, latest)
        if made.resistors and draw.random() < 0.3:
            lines += f"{time},{draw.choice(made.resistors)},{draw.choice(['block', 'unblock'])}\n"
        else:
            lines += f"{time},{draw.choice(made.items)},{draw.choice(['open', 'open', 'close'])}\n"
    return lines


class Storm(NamedTuple):
    """The text of a storm, and how many steps it has."""

    text: str
    steps: int


def storm(draw: Random, zones: Sequence[str]) -> Storm:
    """A storm of up to twelve steps, with one field for all zones or with fields by zone."""
    by_zone, time, steps = draw.random() < 0.6, 0, draw.randint(1, 12)
    lines = ["time,zone,north,east" if by_zone else "time,north,east"]
    for _ in range(steps):
        at = [f"{time},{zone}" for zone in draw.sample([*zones, "*"], draw.randint(1, len(zones) + 1))] if by_zone else [f"{time}"]
        lines += [f"{head},{draw.randint(*FIELD)},{draw.randint(*FIELD)}" for head in at]
        time += draw.randint(1, 60)
    return Storm("\n".join(lines) + "\n", steps)


def words_of(draw: Random, mode: str, steps: int, units: Sequence[str]) -> list[str]:
    """The words of a run, but for the switchings."""
    words = [mode, "--case=p"]
    if mode == "review":
        return words
    if mode == "field":
        words += [f"--north={draw.randint(*FIELD)}", f"--east={draw.randint(*FIELD)}"]
    if mode == "robust":
        words.append(f"--tolerance={draw.choice([*TOLERANCE, 20, 50, draw.randint(*TOLERANCE)])}")
    if mode in OVER_STORMS:
        words.append("--storm=t")
    if mode == "study" and draw.random() < 0.6:
        words.append(f"--detail={draw.randint(1, steps + 1)}")
    if mode == "series":
        # Some networks have no transformer, and now and then none has the name.
        words.append(f"--transformer={draw.choice(units) if units and draw.random() < 0.95 else 'none'}")
    if draw.random() < 0.5:
        words.append(f"--width={draw.choice([10, 11, 50, 1000, 10000])}")
    if mode != "series" and draw.random() < 0.3:
        words.append("--event=supplemental")
    return words


def run(draw: Random, mode: str, nodes: int, at_limits: bool = False) -> Files:
    """The files of one folder."""
    made = network(draw, draw.randint(2, nodes), at_limits)
    files, steps = {"p": made.text}, 0
    if mode in OVER_STORMS:
        files["t"], steps = storm(draw, made.names("Z"))
    words = words_of(draw, mode, steps, made.names("T"))
    if made.items and mode != "review" and draw.random() < (0.7 if mode in OVER_STORMS else 0.4):
        files["s"] = switchings(draw, made, 150 if mode in OVER_STORMS else 60)
        words.append("--switch=s")
    files["words"] = "\n".join(words) + "\n"
    return files


def write_folders(folder: Path, count: int, seed: int, nodes: int, mode: str, at_limits: bool = False) -> list[Path]:
    """Writes a number of folders below a folder; their paths in order."""
    written = []
    for place in range(count):
        where = folder / f"network_{place:04}"
        where.mkdir(parents=True, exist_ok=True)
        for name, content in run(Random(seed * SEEDS_APART + place), mode, nodes, at_limits).items():
            (where / name).write_text(content)
        written.append(where)
    return written


def main(words: list[str]) -> None:
    plain = [word for word in words if not word.startswith("--")]
    mode = next((word[7:] for word in words if word.startswith("--mode=")), "field")
    if mode not in MODES:
        sys.exit(f"random_cases.py: a mode is one of {', '.join(MODES)}")
    numbers = [int(word) for word in plain[1:]]
    count, seed, nodes = numbers + [100, 1, 200][len(numbers) :]
    write_folders(Path(plain[0]), count, seed, nodes, mode, "--limits" in words)


if __name__ == "__main__":
    main(sys.argv[1:])
