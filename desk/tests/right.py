"""Right networks at random, as tables of `gicdesk case`: the stations of a country with coordinates, lines by routes of their own, and
units as planners write them. The same seed brings the same network.

What is rare in a network and right here has a note, as a careful planner would write it: a blocking device, a neutral resistor, a
station at the end of one line, three equal units side by side.
"""

import csv
import io
import math
import random
from collections.abc import Iterable, Sequence

Cells = dict[str, str]
Tables = dict[str, list[Cells]]
HEADS = {
    "zones": "name geomagnetic_latitude beta earth_model note",
    "substations": "name latitude longitude ground_ohm note",
    "buses": "name substation kv note",
    "lines": "name from to zone ohm north_km east_km capacitor note",
    "transformers": "name kind high low high_kv low_kv high_ohm low_ohm series_ohm common_ohm neutral vector_group parallel note",
}
# By kilovolts: the ohm a kilometre of conductors, of which a line has one, and the spread of grounds about 1.
CONDUCTORS = {500: (0.0117, 0.0154), 345: (0.0293, 0.0399), 230: (0.0549, 0.0794), 138: (0.0792, 0.1195)}
GROUND = {500: 0.15, 345: 0.2, 230: 0.28, 138: 0.45}
SYLLABLES = "ar bel cor dun el fen gal hol in jor kes lar mor nor os pel quar ros sel tor ul ves wen yar".split()
POLE = 80.8, -72.7


def dipole_latitude(latitude: float, longitude: float) -> float:
    """The latitude as seen from the pole, by the angle between two unit vectors."""

    def vector(north: float, east: float) -> tuple[float, float, float]:
        north, east = math.radians(north), math.radians(east)
        return math.cos(north) * math.cos(east), math.cos(north) * math.sin(east), math.sin(north)

    product = sum(one * other for one, other in zip(vector(latitude, longitude), vector(*POLE)))
    return 90 - math.degrees(math.acos(product))


class Maker:
    """A network in the making: stations on a plane, lines to near ones, a way of naming things."""

    def __init__(self, seed: int, stations: int) -> None:
        self.random = random.Random(seed)
        self.many = stations
        self.naming = ("codes", "numbers", "names")[seed % 3]
        self.exact = seed % 4 == 0  # whether resistances of lines are made of the distance of their ends
        self.tables: Tables = {name: [] for name in HEADS}
        self.units: dict[str, int] = {}
        self.used: set[str] = set()
        self.codes: dict[str, str] = {}
        self.levels: dict[str, list[int]] = {}
        self.place: dict[str, tuple[float, float]] = {}
        self.zone_of: dict[str, str] = {}

    def make(self) -> Tables:
        middle = self.random.uniform(44, 58), self.random.uniform(-118, -68)
        self.stations(middle)
        self.zones()
        for kilovolts in CONDUCTORS:
            self.grid(kilovolts)
        self.all_units()
        self.remarks()
        return self.tables

    def add(self, table: str, **cells: object) -> Cells:
        row = dict.fromkeys(HEADS[table].split(), "") | {key: str(value) for key, value in cells.items()}
        self.tables[table].append(row)
        return row

    def fresh(self, parts: int) -> str:
        while True:
            name = "".join(self.random.choices(SYLLABLES, k=parts)).capitalize()
            code = (name[0] + name[2:4]).upper()
            if name not in self.used and code not in self.codes.values():
                self.used.add(name)
                self.codes[name] = code
                return name

    def stations(self, middle: tuple[float, float]) -> None:
        side = math.sqrt(self.many) * 0.45  # degrees to the north
        for place in range(self.many):
            name = self.fresh(3)
            latitude = middle[0] + self.random.uniform(-side, side) / 2
            longitude = middle[1] + self.random.uniform(-side, side) / 2 / math.cos(math.radians(middle[0]))
            highest = (500, 345, 345, 230, 138, 345, 230, 138)[place % 8]
            self.levels[name] = [highest]
            self.place[name] = (latitude, longitude)
            ground = GROUND[highest] * self.random.lognormvariate(0, 0.45)
            self.add("substations", name=name, latitude=f"{latitude:.4f}", longitude=f"{longitude:.4f}", ground_ohm=f"{ground:.3g}")
        for name, levels in self.levels.items():  # a lower level at some, for an autotransformer
            lower = [kilovolts for kilovolts in CONDUCTORS if kilovolts < levels[0]]
            if lower and self.random.random() < 0.7:
                levels.append(self.random.choice(lower[:2]))

    def zones(self) -> None:
        """Two zones, to the west and to the east of the middle."""
        ordered = sorted(self.place, key=lambda name: self.place[name][1])
        halves = {"west": ordered[: self.many // 2], "east": ordered[self.many // 2 :]}
        for zone, (beta, model) in zip(halves, ((0.81, ""), (0.33, "BASIN"))):
            self.zone_of |= dict.fromkeys(halves[zone], zone)
            seen = [dipole_latitude(*self.place[name]) for name in halves[zone]]
            latitude = sum(seen) / len(seen) + self.random.uniform(-1, 1)  # as another model of the field has it
            self.add("zones", name=zone, geomagnetic_latitude=f"{latitude:.1f}", beta=beta, earth_model=model)

    def bus(self, station: str, kilovolts: int) -> str:
        return f"{station}-{kilovolts}"

    def kilometres(self, one: str, other: str) -> float:
        (north, east), (there_north, there_east) = self.place[one], self.place[other]
        return math.hypot(111.2 * (there_north - north), 111.3 * math.cos(math.radians(north)) * (there_east - east))

    def grid(self, kilovolts: int) -> None:
        """The buses of a voltage, and lines from each to its two nearest earlier ones; a ring through the last."""
        at = [name for name, levels in self.levels.items() if kilovolts in levels]
        if len(at) == 1:
            self.levels[at[0]].remove(kilovolts)
            return
        for station in at:
            self.add("buses", name=self.bus(station, kilovolts), substation=station, kv=kilovolts)
        pairs: set[frozenset[str]] = set()
        for place, station in enumerate(at):
            near = sorted(at[:place], key=lambda other: self.kilometres(station, other))[:2]
            pairs |= {frozenset((station, other)) for other in near}
        pairs.add(frozenset((at[0], at[-1])))
        for pair in sorted(sorted(pair) for pair in pairs):
            self.line(pair, kilovolts)

    def line(self, ends: Sequence[str], kilovolts: int) -> None:
        circuits = 2 if self.random.random() < 0.15 or len(self.levels) < 4 else 1
        conductor = self.random.choices(CONDUCTORS[kilovolts], (3, 1))[0]
        detour = 1.0 if self.exact else 1 + self.random.expovariate(14)
        ohm = max(self.kilometres(*ends), 1.0) * conductor * detour
        for circuit in range(1, circuits + 1):
            name = f"{self.codes[ends[0]]}-{self.codes[ends[1]]}-{kilovolts}-{circuit}"
            if self.naming == "numbers":
                name = f"L{len(self.tables['lines']) + 1}"
            zone = self.zone_of[ends[0]]
            buses = [self.bus(end, kilovolts) for end in ends]
            self.add("lines", **{"name": name, "from": buses[0], "to": buses[1], "zone": zone, "ohm": f"{ohm:.4g}"})

    def unit_name(self, station: str, letter: str) -> str:
        number = self.units[station] = self.units.get(station, 0) + 1
        total = sum(self.units.values())
        return {"codes": f"{self.codes[station]}-{letter}{number}", "numbers": f"T{total}", "names": f"{station}.{letter}{number}"}[self.naming]

    def all_units(self) -> None:
        for place, (station, levels) in enumerate(self.levels.items()):
            if not levels:
                continue
            if len(levels) > 1:
                self.autos(station, levels)
            elif place % 8 == 0 and levels[0] >= 345:
                self.switching(station)
                continue
            elif place % 3 == 0:
                self.step_ups(station, levels[0])
            else:
                self.loads(station, levels[0])
            if levels[0] == 500 and place % 3 == 1:
                ohm = f"{self.random.uniform(1.6, 3.2):.3g}"
                self.add("transformers", name=self.unit_name(station, "R"), kind="reactor", high=self.bus(station, 500), high_ohm=ohm)

    def switching(self, station: str) -> None:
        """A switching station: without a ground in the table, or with one and a note."""
        row = next(row for row in self.tables["substations"] if row["name"] == station)
        if self.random.random() < 0.5:
            row["ground_ohm"] = ""
        else:
            row["note"] = "a switching station"

    def autos(self, station: str, levels: list[int]) -> None:
        high, low = levels
        for _ in range(self.random.choice((1, 2, 2))):
            series = 0.1 * self.random.uniform(0.7, 1.6) * (500 / high)
            share = 0.6 if high / low > 2 else 1.5
            self.add(
                "transformers", name=self.unit_name(station, "A"), kind="auto", high=self.bus(station, high), low=self.bus(station, low),
                high_kv=high, low_kv=low, series_ohm=f"{series:.3g}", common_ohm=f"{series * share:.3g}", vector_group="YNa0d1",
            )  # fmt: skip

    def step_ups(self, station: str, kilovolts: int) -> None:
        """Two step-up units, equal ones, or three side by side."""
        ohm, rated = f"{self.random.uniform(0.12, 0.3):.3g}", f"{1.05 * kilovolts:g}"
        three = self.random.random() < 0.2
        for _ in range(1 if three else 2):
            self.add(
                "transformers", name=self.unit_name(station, "G"), kind="delta-wye", high=self.bus(station, kilovolts), high_kv=rated,
                high_ohm=ohm, vector_group="YNd1", parallel=3 if three else "",
            )  # fmt: skip

    def loads(self, station: str, kilovolts: int) -> None:
        bus = self.bus(station, kilovolts)
        for place in range(self.random.choice((1, 2))):
            name, ohm = self.unit_name(station, "T"), f"{self.random.uniform(0.35, 0.9):.3g}"
            if kilovolts <= 138 and place:
                self.add("transformers", name=name, kind="delta-delta", high=bus, high_kv=kilovolts, vector_group="Dyn11")
            else:
                self.add("transformers", name=name, kind="delta-wye", high=bus, high_kv=kilovolts, high_ohm=ohm, vector_group="YNd11")

    def remarks(self) -> None:
        """A few devices in neutrals, and stations at the end of one line, each with a note."""
        wyes = [row for row in self.tables["transformers"] if row["kind"] == "delta-wye" and not row["parallel"]]
        for row, neutral, note in zip(self.random.sample(wyes, min(3, len(wyes))), ("blocked", "2.5", "0.5"), NOTES):
            row["neutral"], row["note"] = neutral, note
        ends = [row[end] for row in self.tables["lines"] for end in ("from", "to")]
        for bus in self.tables["buses"]:
            if ends.count(bus["name"]) < 2 and int(bus["kv"]) >= 345:
                bus["note"] = "at the end of the line"


NOTES = ("a blocking device since 2019", "a resistor against these currents", "a resistor")


def right_tables(seed: int, stations: int) -> Tables:
    return Maker(seed, stations).make()


def text_of(heads: Iterable[str], rows: Iterable[Cells]) -> str:
    text = io.StringIO()
    writer = csv.DictWriter(text, list(heads), lineterminator="\n")
    writer.writeheader()
    writer.writerows(rows)
    return text.getvalue()


def texts_of(tables: Tables) -> dict[str, str]:
    """The tables as files, by their names without the ending."""
    return {name: text_of(HEADS[name].split(), rows) for name, rows in tables.items()}
