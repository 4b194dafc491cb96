"""Where the numbers of a case come from: a table beside it, which `gicdesk case` and `gicdesk psse` write and `study` reads.

It has a row for each row of the case that says something: of a zone the geomagnetic latitude, alpha, beta and the earth model as they
were given, which a case has in another form; of a ground, a line or a unit whether its resistance was measured, estimated or is a
default.
"""

import dataclasses
from collections.abc import Iterable, Mapping, Sequence
from fractions import Fraction

from .findings import Finding, shown
from .quantities import bare
from .records import Record, read_table
from .tables import Table
from .zone_scales import Zone

MEASURED, ESTIMATED, DEFAULT = "measured", "estimated", "default"
SOURCES = (MEASURED, ESTIMATED, DEFAULT)
ASSUMED = (ESTIMATED, DEFAULT)
HEADS = ["list", "name", "source", "geomagnetic_latitude", "alpha", "alpha_made", "beta", "earth_model"]
LISTS = ("zone", "substation", "line", "transformer")
COLUMN = "source"  # of the tables of `gicdesk case`


@dataclasses.dataclass(frozen=True)
class ZoneInputs:
    """A zone as it was given: texts, since they are shown as they were written."""

    latitude: str
    alpha: str
    alpha_made: str  # how alpha was made
    beta: str
    model: str


@dataclasses.dataclass(frozen=True)
class Sources:
    zones: Mapping[str, ZoneInputs]
    of_rows: Mapping[str, str]  # of substations, lines and units by their names

    def of(self, name: str) -> str:
        """The source of a row; empty where none is said."""
        return self.of_rows.get(name, "")

    def is_assumed(self, name: str) -> bool:
        return self.of(name) in ASSUMED


def decimal_text(number: Fraction) -> str:
    """A factor with six decimals, and no 0 at its end."""
    return f"{float(number):.6f}".rstrip("0").rstrip(".")


def zone_inputs(zone: Zone) -> ZoneInputs:
    """The inputs of a zone that is made of a row of a table."""
    latitude, beta = (f"{zone.at.number(column):f}" for column in ("geomagnetic_latitude", "beta"))
    return ZoneInputs(latitude, decimal_text(zone.alpha), zone.alpha_made, beta, zone.at.text("earth_model"))


def read_source(at: Record) -> str:
    """The source of a row of a table; another word than the three is a finding."""
    word = at.text(COLUMN)
    if word and word not in SOURCES:
        at.wrong(COLUMN, f"{shown(word)} is none of {', '.join(SOURCES)}; write one of these, or nothing")
    return word


def sources_table(sources: Sources, lists: Mapping[str, Sequence[str]]) -> Table:
    """The table of a case that has rows of these names in its lists."""
    rows = []
    for name in lists["zone"]:
        zone = sources.zones.get(name)
        if zone is not None:
            rows.append(["zone", name, "", zone.latitude, zone.alpha, zone.alpha_made, zone.beta, zone.model])
    for list_name in LISTS[1:]:
        rows += [[list_name, name, sources.of(name), *[""] * 5] for name in lists[list_name] if sources.of(name)]
    return Table(HEADS, rows)


def read_sources(file: str, names: Iterable[str], findings: list[Finding], data: bytes) -> Sources:
    """The table of a file for a case with rows of these names; what is wrong with it becomes findings."""
    known = set(names)
    zones: dict[str, ZoneInputs] = {}
    of_rows: dict[str, str] = {}
    for at in read_table(file, HEADS, findings, given=data):
        name, list_name = at.text("name"), at.text("list")
        if list_name not in LISTS:
            at.wrong("list", f"{shown(list_name)} is none of {', '.join(LISTS)}; take the table as it was written")
        elif name not in known:
            at.wrong("name", f"the case has no row {bare(name)}; is it the table of another case?")
        elif list_name == "zone":
            columns = ("geomagnetic_latitude", "alpha", "alpha_made", "beta", "earth_model")
            numbers = [at.number_or_none(column) for column in ("geomagnetic_latitude", "alpha", "beta")]
            if None not in numbers:
                zones[name] = ZoneInputs(*map(at.text, columns))
        else:
            of_rows[name] = read_source(at)
    return Sources(zones, of_rows)
