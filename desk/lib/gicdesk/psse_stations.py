"""Substations as files `.raw` have them from version 35 on: places, grounds, and the buses at their nodes.

Behind the record of a substation stand its nodes, each with its bus. Where lines `@!` name the columns of nodes, these say
what is one. Else a node is told from a substation by the bus and the status in its third and fourth field, a number of a bus
that is there and 0 or 1; and a substation at whole degrees that read so by its ground in the fifth field, which is its last.
"""

import dataclasses
import decimal
import re
from collections.abc import Container, Sequence

from .findings import Finding
from .places import Place
from .psse_text import SectionLine
from .records import WHOLE, Record

SECTION = "SUBSTATION"
STATION = "IS NAME LATITUDE LONGITUDE SRG".split()
NODE = "NI NAME I STATUS".split()
NOTHING = re.compile(r"[+-]?(0+\.?0*|\.0+)?")  # an empty field, or 0


@dataclasses.dataclass(frozen=True)
class Station:
    number: int
    name: str
    place: Place | None
    ground: decimal.Decimal | None  # SRG, None where it is empty
    record: Record


@dataclasses.dataclass
class Stations:
    """The substations by their numbers, and in which of them each bus is."""

    stations: dict[int, Station] = dataclasses.field(default_factory=dict)
    station_of: dict[int, int] = dataclasses.field(default_factory=dict)


def read_place(at: Record) -> Place | None:
    """The latitude and the longitude of a substation. It has no place where both are empty or 0, as files leave what isn't
    known."""
    columns = ("LATITUDE", "LONGITUDE")
    if all(NOTHING.fullmatch(at.text(column)) for column in columns):
        return None
    latitude, longitude = (at.number(column) for column in columns)
    return latitude, longitude


def is_node(fields: Sequence[str], buses: Container[int]) -> bool:
    """Whether a line without names of columns is a node: behind its name stand a bus of the file and a status, which is 0 or 1,
    and then nothing or its voltage in two fields."""
    if len(fields) < len(NODE) or fields[3] not in ("0", "1") or (len(fields) == len(STATION) and fields[-1]):
        return False
    return WHOLE.fullmatch(fields[2]) is not None and int(fields[2]) in buses


def read_stations(
    file: str, lines: Sequence[SectionLine], buses: Container[int], findings: list[Finding]
) -> Stations:
    found, last = Stations(), 0
    are_named = any(NODE[0] in line.named for line in lines)
    for line in lines:
        if last and (NODE[0] in line.named if are_named else is_node(line.fields, buses)):
            found.station_of[Record(file, line.number, line.fields, NODE, findings).bus("I")] = last
            continue
        at = Record(file, line.number, line.fields, STATION, findings)
        last = at.whole("IS")
        if last in found.stations:
            at.wrong("IS", f"the substation {last} stands in line {found.stations[last].record.line} already")
        ground = at.number("SRG") if at.text("SRG") else None
        found.stations[last] = Station(last, at.text("NAME"), read_place(at), ground, at)
    return found
