"""The zones of a case, and which of them a line is in, from tables."""

import dataclasses
import decimal
from collections.abc import Mapping
from fractions import Fraction

from .alpha import NO_SCALE, Scale
from .borders import Borders
from .earths import read_models
from .findings import Finding, shown
from .forms import NAME
from .polygons import read_polygons
from .quantities import Number
from .records import Record, read_table
from .zone_scales import Zone, zone_of_row

ZONES = ["name", "geomagnetic_latitude", "beta"]
SUBSTATIONS = ["substation", "zone"]
LINES = ["bus_i", "bus_j", "circuit", "zone", "north_km", "east_km"]


@dataclasses.dataclass(frozen=True)
class Override:
    """What a table says of one line: its zone, and its span in metres from the first bus to the second, each where it
    is given."""

    buses: tuple[int, int]
    zone: str
    span: tuple[int, int] | None
    record: Record


@dataclasses.dataclass(frozen=True)
class ZoneFiles:
    """The names of the tables; only the first must be there."""

    zones: str
    substations: str | None = None
    polygons: str | None = None
    lines: str | None = None
    models: str | None = None


@dataclasses.dataclass(frozen=True)
class Zones:
    """The zones, and where they are: of a substation the table of substations decides, and then the polygons."""

    zones: list[Zone]
    of_substations: dict[int, Record]  # each with its zone
    borders: Borders | None
    of_lines: dict[tuple[frozenset[int], str], Override]

    def scale(self, name: str) -> Scale:
        """What the case has for alpha times beta of a zone."""
        return next((zone.scale for zone in self.zones if zone.row.name == name), NO_SCALE)

    def factor(self, name: str) -> Fraction:
        """The factor of the spans in a zone."""
        return next((zone.scale.factor for zone in self.zones if zone.row.name == name), Fraction(1))


def whole_in(at: Record, column: str, scale: int, least: str, most: str, unit: str) -> int:
    """The number of a column in the whole units of the case, of which it is in the range."""
    number = at.number(column)
    if not decimal.Decimal(least) <= number <= decimal.Decimal(most):
        at.wrong(column, f"it is {at.text(column)}, and not {least} to {most} {unit}")
    elif number * scale != int(number * scale):
        at.wrong(column, f"it is {at.text(column)}, which has more digits than a case tells: times {scale} it is whole")
    return int(number * scale)


def read_zones(
    file: str, alpha: str, models: Mapping[str, Number], findings: list[Finding], notes: list[Finding]
) -> list[Zone]:
    """The zones of a table, each once. What the table of alpha makes too small is told."""

    def tell(name: str, at: Record, column: str, words: str, ways: str) -> None:
        notes.append(at.finding(f"{words}; {ways}", column))

    names: set[str] = set()
    zones: list[Zone] = []
    for at in read_table(file, ZONES, findings, ("alpha", "earth_model", "note")):
        name = at.text("name")
        if not NAME.fullmatch(name):
            at.wrong("name", f"{shown(name)} is no name of a case; allowed are 1 to 32 letters, digits and _ - .")
        elif name in names:
            at.wrong("name", f"{name} stands in the table already; leave one of the two")
        names.add(name)
        made = zone_of_row(at, alpha, tell, models)
        zones += [] if made is None else [made]
    if not names:
        findings.append(Finding(file, "it has no zone; write a row for each", 1))
    return zones


def zone_in(at: Record, names: set[str]) -> str:
    zone = at.text("zone")
    if zone not in names:
        at.wrong("zone", f"{shown(zone)} is none of {', '.join(sorted(names))}; write one of these")
    return zone


def read_of_substations(file: str, names: set[str], findings: list[Finding]) -> dict[int, Record]:
    zones: dict[int, Record] = {}
    for at in read_table(file, SUBSTATIONS, findings):
        number = at.whole("substation")
        if number in zones:
            at.wrong("substation", f"{number} stands in the table already; leave one of the two")
        zone_in(at, names)  # (a finding where it is none of them)
        zones[number] = at
    return zones


def read_override(at: Record, names: set[str]) -> Override:
    span = None
    if at.text("north_km") or at.text("east_km"):
        span = (
            whole_in(at, "north_km", 1000, "-1000", "1000", "km"),
            whole_in(at, "east_km", 1000, "-1000", "1000", "km"),
        )
    zone = zone_in(at, names) if at.text("zone") else ""
    return Override((at.bus("bus_i"), at.bus("bus_j")), zone, span, at)


def read_of_lines(file: str, names: set[str], findings: list[Finding]) -> dict[tuple[frozenset[int], str], Override]:
    overrides: dict[tuple[frozenset[int], str], Override] = {}
    for at in read_table(file, LINES, findings):
        override = read_override(at, names)
        key = (frozenset(override.buses), at.text("circuit") or "1")
        if key in overrides:
            at.wrong("bus_i", f"this line stands in line {overrides[key].record.line} already; leave one of the two")
        overrides[key] = override
    return overrides


def read_all(files: ZoneFiles, alpha: str, findings: list[Finding], notes: list[Finding]) -> Zones:
    models = {} if files.models is None else read_models(files.models, findings)
    zones = read_zones(files.zones, alpha, models, findings, notes)
    names = {zone.row.name for zone in zones}
    return Zones(
        zones,
        {} if files.substations is None else read_of_substations(files.substations, names, findings),
        None if files.polygons is None else Borders(read_polygons(files.polygons, names, findings)),
        {} if files.lines is None else read_of_lines(files.lines, names, findings),
    )
