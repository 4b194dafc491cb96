"""A network as the questions of the desk look at it: the rows of a case, with what is known beside them.

Of tables and of a power flow the kilovolts of buses, the places of stations and the numbers of zones are known as they were
given. Of a case alone the kilovolts are those of the units at a bus, and of the lines that lead on from there.
"""

import dataclasses
import functools
import math
import re
from collections.abc import Mapping, Sequence

from .cases import Case, Row
from .places import Place, span_metres

ANY_ANSWER = "checked"  # a note with this word answers every question of its row


@dataclasses.dataclass(frozen=True)
class SeenZone:
    """A zone as it was given, with the places of the stations that its lines join."""

    name: str
    latitude: float  # geomagnetic, in degrees
    beta: float
    model: str  # the name of its earth model, where there is one
    places: Sequence[Place]


@dataclasses.dataclass(frozen=True)
class Seen:
    case: Case
    kilovolts: Mapping[str, float]  # of buses
    places: Mapping[str, Place] = dataclasses.field(default_factory=dict)  # of stations
    zones: Sequence[SeenZone] = ()
    notes: Mapping[str, str] = dataclasses.field(default_factory=dict)  # of rows by their names, as the writer made them
    is_made: bool = True  # whether the case is made by the desk, which has looked at each resistance by itself
    at_station: Mapping[str, str] = dataclasses.field(default_factory=dict)  # of units whose rows have no bus

    def rows(self, name: str) -> list[Row]:
        return self.case.lists[name]

    @functools.cached_property
    def station_of_bus(self) -> dict[str, str]:
        return {row.name: str(row.value("substation")) for row in self.rows("bus")}

    def station_of(self, unit: Row) -> str | None:
        """The station of a unit; None where it isn't known."""
        high = unit.value("high")
        return self.at_station.get(unit.name) if high is None else self.station_of_bus.get(str(high))

    def bus_kilovolts(self, bus: object) -> float:
        return self.kilovolts.get(str(bus), 0.0)

    def highest(self, station: str) -> float:
        """The highest voltage at a station, in kV; 0 where it isn't known."""
        return max((self.bus_kilovolts(bus) for bus, here in self.station_of_bus.items() if here == station), default=0.0)

    def kilometres(self, line: Row) -> float:
        """How far the ends of a line lie apart: by the places of its stations, or else by its span."""
        ends = [self.places.get(self.station_of_bus.get(str(line.value(end)), "")) for end in ("from", "to")]
        if ends[0] is not None and ends[1] is not None:
            return math.hypot(*span_metres(ends[0], ends[1])) / 1000
        parts = line.value("part")
        pieces = [(part.north, part.east) for part in parts] if isinstance(parts, tuple) else []
        pieces = pieces or [(number_of(line, "north"), number_of(line, "east"))]
        return math.hypot(*(sum(way) for way in zip(*pieces))) / 1000

    def is_answered(self, name: str, *words: str) -> bool:
        """Whether the note of a row says one of these words, so that nobody need ask."""
        note = self.notes.get(name, "").lower()
        return any(re.search(rf"\b{word}", note) for word in (ANY_ANSWER, *words))


def number_of(row: Row, key: str) -> int:
    """The number of a key; 0 where the row has none."""
    value = row.value(key)
    return value if isinstance(value, int) else 0


def buses_of(unit: Row) -> list[tuple[str, int]]:
    """The buses of a unit's windings, each with its rated voltage."""
    sides = [(unit.value(side), number_of(unit, f"{side}_volts")) for side in ("high", "low", "third")]
    return [(bus, volts) for bus, volts in sides if isinstance(bus, str)]


def joined_buses(case: Case) -> list[set[str]]:
    """The buses that lines join, each set with all that hang together."""
    neighbours: dict[str, set[str]] = {row.name: set() for row in case.lists["bus"]}
    for line in case.lists["line"]:
        start, end = str(line.value("from")), str(line.value("to"))
        neighbours[start].add(end)
        neighbours[end].add(start)
    sets = []
    left = dict.fromkeys(neighbours)
    while left:
        waiting, found = [next(iter(left))], set[str]()
        while waiting:
            bus = waiting.pop()
            if bus not in found:
                found.add(bus)
                left.pop(bus, None)
                waiting += neighbours[bus]
        sets.append(found)
    return sets


def kilovolts_of(case: Case) -> dict[str, float]:
    """The kilovolts of buses, of which a case says nothing: of all that lines join the least rated voltage of a unit there, since
    that of a step-up unit is above its bus."""
    rated: dict[str, float] = {}
    for unit in case.lists["transformer"]:
        for bus, volts in buses_of(unit):
            rated[bus] = min(rated.get(bus, math.inf), volts / 1000)
    found: dict[str, float] = {}
    for buses in joined_buses(case):
        known = [rated[bus] for bus in buses if bus in rated]
        if known:
            found |= dict.fromkeys(buses, min(known))
    return found


HEAD = re.compile(r"^\s*\[\[[a-z]+\]\]\s*(?:#\s*(?P<remark>.*\S))?\s*$")
NAME = re.compile(r"""^\s*(?P<open>\{\s*)?name\s*=\s*["'](?P<name>[A-Za-z0-9_.-]+)["'](?P<rest>.*)$""")


def remarks_of(data: bytes) -> dict[str, str]:
    """The remarks of a case by the names of rows: behind the head of a row or behind its name, or at the end of its line where all of
    it is in one. What TOML takes for a remark otherwise is none here."""
    remarks: dict[str, str] = {}
    head = ""
    for line in data.decode("utf-8-sig", "replace").splitlines():
        found = HEAD.match(line)
        if found is not None:
            head = found["remark"] or ""
            continue
        named = NAME.match(line)
        if named is not None:
            own = named["rest"].partition("#")[2].strip()
            remarks[named["name"]] = " ".join(filter(None, (head, own)))
            head = ""
    return remarks
