"""What a case says that its writer may not have meant (docs/FORMATS.md, *The report of `review`*)."""

from __future__ import annotations

from collections.abc import Callable, Iterable, Iterator
from typing import NamedTuple, Optional, Union

from referee.case import ASSESSED_ABOVE, SIDES, Case, Line, Transformer, Zone
from referee.graph import split_into_parts

# The words of a line of a report.
Words = tuple[Union[str, int], ...]


class Usual(NamedTuple):
    """The least and the greatest number that isn't told, or None where there is no such end."""

    least: Optional[int]
    most: Optional[int]

    def has(self, number: int) -> bool:
        return (self.least is None or number >= self.least) and (self.most is None or number <= self.most)


# The usual range of each value.
USUAL = {
    "latitude": Usual(2000, 7500),
    "beta": Usual(10, None),
    "ground": Usual(10000, 10000000),
    "resistance": Usual(50000, 50000000),
    "span": Usual(100, None),
    "perkm": Usual(2000, 1000000),
    "high_volts": Usual(10000, None),
    "winding": Usual(10000, 5000000),
    "neutral": Usual(None, 100000000),
}
# The latitudes, in hundredths of a degree, at which the alpha of the table is below that of the formula.
LOW_ALPHA = (range(4960, 5001), range(5563, 5601), range(5697, 5701))
KILOMETRE = 1000
GAP, SPAN_FOR_A_METRE = 2000, 20


class Place(NamedTuple):
    """Where a substation lies in its group, in metres."""

    group: int
    north: int
    east: int

    def moved(self, group: int, north: int, east: int) -> Place:
        return Place(group, self.north + north, self.east + east)


class Span(NamedTuple):
    """How far a line runs, its parts together."""

    north: int
    east: int

    @property
    def length(self) -> int:
        return abs(self.north) + abs(self.east)


class Measured(NamedTuple):
    """A number that is looked at: the field of the finding, its usual range, and the number."""

    field: str
    usual: Usual
    number: int


def span_of(line: Line) -> Span:
    return Span(sum(part.north for part in line.parts), sum(part.east for part in line.parts))


def ungrounded(case: Case) -> Iterator[Words]:
    """The substations without a ground at whose node a winding or a neutral resistor ends."""
    ends = {end for one in case.elements if one.kind in ("transformer", "neutral") for end in (one.start, one.end)}
    for node, row in enumerate(case.substations):
        if row.ground is None and node in ends:
            yield "ungrounded", row.name


def parts(case: Case) -> list[Words]:
    """The parts of the network, where there are two or more; earthings join nothing."""
    split = split_into_parts(len(case.nodes), case.elements, case.all_stand())
    found: list[Words] = [("part", len(nodes), case.nodes[nodes[0]]) for nodes in split if len(nodes) > 1]
    return found if len(found) > 1 else []


def closures(case: Case) -> Iterator[Words]:
    """The lines that close a loop of spans with a gap that is too wide."""
    places = [Place(number, 0, 0) for number in range(len(case.substations))]
    for line in case.lines:
        start, end = (places[case.buses[bus].substation] for bus in (line.start, line.end))
        span = span_of(line)
        north, east = start.north + span.north - end.north, start.east + span.east - end.east
        if start.group != end.group:
            places = [one.moved(start.group, north, east) if one.group == end.group else one for one in places]
        elif max(abs(north), abs(east)) > GAP + span.length // SPAN_FOR_A_METRE:
            yield "closure", line.name, north, east


def of_zone(zone: Zone) -> Iterator[Measured]:
    for field, number in (("latitude", zone.latitude), ("beta", zone.beta)):
        if number is not None:
            yield Measured(field, USUAL[field], number)


def of_line(line: Line) -> Iterator[Measured]:
    length = span_of(line).length
    yield Measured("resistance", USUAL["resistance"], line.resistance)
    if not line.is_blocked:
        yield Measured("span", USUAL["span"], length)
    if length >= KILOMETRE:
        yield Measured("perkm", USUAL["perkm"], line.resistance * KILOMETRE // length)


def of_transformer(unit: Transformer) -> Iterator[Measured]:
    if unit.kind != "reactor":
        yield Measured("high_volts", USUAL["high_volts"], unit.high_volts)
    for role, resistance in unit.resistances.items():
        yield Measured(role + "_resistance", USUAL["winding"], resistance)
    if unit.neutral is not None:
        yield Measured("neutral", USUAL["neutral"], unit.neutral)


def measured(case: Case) -> Iterator[tuple[str, str, Iterable[Measured]]]:
    """Of each row its list, its name, and the numbers that are looked at."""
    for zone in case.zones:
        yield "zone", zone.name, of_zone(zone)
    for row in case.substations:
        yield "substation", row.name, [] if row.ground is None else [Measured("ground", USUAL["ground"], row.ground)]
    for line in case.lines:
        yield "line", line.name, of_line(line)
    for unit in case.transformers:
        yield "transformer", unit.name, of_transformer(unit)


def values(case: Case) -> Iterator[Words]:
    """The values that are usual hardly anywhere."""
    for kind, name, numbers in measured(case):
        for field, usual, number in numbers:
            if not usual.has(number):
                yield "value", kind, name, field, number


def low_alphas(case: Case) -> Iterator[Words]:
    """The zones at whose latitude the alpha of the table is low."""
    for zone in case.zones:
        if zone.latitude is not None and any(zone.latitude in latitudes for latitudes in LOW_ALPHA):
            yield "alpha", zone.name, zone.latitude


def volts(case: Case) -> Iterator[Words]:
    """The rated voltages that don't fit that of the first side at their bus."""
    measures: dict[int, int] = {}
    for unit in case.transformers:
        for side in SIDES:
            if side in unit.buses:
                rated = unit.volts[side]
                measure = measures.setdefault(unit.buses[side], rated)
                if rated * 10 < 9 * measure or rated * 9 > 10 * measure:
                    yield "volts", unit.name, side + "_volts", rated, measure


def outside(case: Case) -> Iterator[Words]:
    """The delta-delta units above 200 kV."""
    for unit in case.transformers:
        if unit.kind == "delta-delta" and unit.high_volts > ASSESSED_ABOVE:
            yield "outside", unit.name


RULES: tuple[Callable[[Case], Iterable[Words]], ...] = (ungrounded, parts, closures, values, low_alphas, volts, outside)


def findings(case: Case) -> list[Words]:
    """All findings in the order of the rules, each as its words."""
    return [found for rule in RULES for found in rule(case)]


def lines_of(case: Case) -> list[Words]:
    """The lines of the report, each as its words."""
    found = findings(case)
    return [("review",), *found, ("findings", len(found)), ("end",)]
