"""What of a network stands in a file `.gic` beside a power flow: places, grounds, and resistances of windings."""

import dataclasses
import decimal
import functools
from collections.abc import Mapping

from .files import read_text
from .findings import Finding, refuse
from .places import Place
from .psse_raw import Key, circuit_of, look_for_twins
from .psse_stations import Station, Stations, read_place
from .psse_text import Layout, by_number, read_sections, records_of, told_skipped
from .records import Record

LAYOUT = Layout(
    ["SUBSTATION", "BUS", "TRANSFORMER", "FIXED SHUNT", "BRANCH", "EARTH MODEL"],
    {
        "SUBSTATION": "I NAME UNIT LATITUDE LONGITUDE RG EARTHMODEL",
        "BUS": "BUS SUBSTATION",
        "TRANSFORMER": "I J K CKT WRI WRJ WRK GICBDI GICBDJ GICBDK VECGRP CORE KFACTOR GRDRI GRDRJ GRDRK TMODEL",
        "FIXED SHUNT": "BUS ID R RG",
        "BRANCH": "I J CKT RBRN INDVP INDVQ RLNSHI RLNSHJ",
    },
    {
        "SUBSTATION": "I LATITUDE LONGITUDE RG",
        "BUS": "BUS SUBSTATION",
        "TRANSFORMER": "I J CKT WRI WRJ VECGRP",
        "FIXED SHUNT": "BUS ID R",
        "BRANCH": "I J CKT RBRN",
    },
    {
        **{"BUS SUBSTATION": "BUS", "SUBSTATION BUS": "BUS", "BUS SUBSTATIONS": "BUS", "LINE": "BRANCH"},
        **{"BUS FIXED SHUNT": "FIXED SHUNT", "FIXED BUS SHUNT": "FIXED SHUNT", "USER EARTH MODEL": "EARTH MODEL"},
    },
)
SIDES = ("I", "J", "K")
APART = decimal.Decimal("0.01")  # degrees between two places of one substation that are told
NO_PLACE = "it has no coordinates (both are empty or 0): each of its lines needs its span in the table of --lines"
PASSED = ("EARTH MODEL",)  # what is skipped without a word


@dataclasses.dataclass(frozen=True)
class Substation:
    number: int
    name: str
    place: Place | None
    ground: decimal.Decimal | None
    record: Record


@dataclasses.dataclass(frozen=True)
class Side:
    """What stands of one winding: its resistance, and what lies between its neutral and the ground grid."""

    ohm: decimal.Decimal
    blocked: bool
    neutral_ohm: decimal.Decimal


@dataclasses.dataclass(frozen=True)
class Windings:
    sides: dict[int, Side]  # by the numbers of their buses
    vector: str
    record: Record
    core: int = 0
    factor: decimal.Decimal = decimal.Decimal(0)  # KFACTOR, in Mvar an ampere; 0 where none is given


@dataclasses.dataclass(frozen=True)
class Reactor:
    bus: int
    circuit: str
    ohm: decimal.Decimal
    neutral_ohm: decimal.Decimal
    record: Record


@dataclasses.dataclass(frozen=True)
class LineData:
    ohm: decimal.Decimal  # 0 where it is that of the power flow
    shunts: dict[int, decimal.Decimal]  # resistances to earth of reactors at its ends, by their buses
    record: Record


@dataclasses.dataclass(frozen=True)
class Gic:
    file: str
    substations: dict[int, Substation]
    substation_of: dict[int, int]
    windings: dict[Key, Windings]
    reactors: list[Reactor]
    lines: dict[Key, LineData]


def read_substation(at: Record, stations: Mapping[int, Station], notes: list[Finding]) -> Substation:
    """A substation; what is empty of its place and its ground is that of the power flow, where it has any."""
    station, place = stations.get(at.whole("I")), read_place(at)
    if station is not None and place is None:
        name = at.text("NAME") or station.name
        ground = at.number("RG") if at.text("RG") else station.ground
        words = f"it has no place here: that of the power flow is taken{'' if at.text('RG') else ', and its SRG'}"
        notes.append(at.finding(words))
        return Substation(station.number, name, station.place, ground, at)
    unit = at.whole("UNIT", 0)
    if unit != 0:
        at.wrong("UNIT", f"it is {unit}; degrees are read, which is 0")
    ground = at.number("RG") if at.text("RG") else None
    for column, number, most in zip(("LATITUDE", "LONGITUDE"), place or (), (90, 180)):
        if abs(number) > most:
            at.wrong(column, f"it is {at.text(column)}, and not {-most} to {most} degrees")
    if place is None:
        notes.append(at.finding(NO_PLACE))
    elif station is not None and station.place is not None:
        tell_apart(at, place, station.place, notes)
    return Substation(at.whole("I"), at.text("NAME"), place, ground, at)


def tell_apart(at: Record, place: Place, other: Place, notes: list[Finding]) -> None:
    """Tells of two places of one substation."""
    if any(abs(one - two) > APART for one, two in zip(place, other)):
        words = f"it lies at {place[0]:f}, {place[1]:f}, and in the power flow at"
        notes.append(at.finding(f"{words} {other[0]:f}, {other[1]:f}; look at both"))


def with_stations(
    substations: dict[int, Substation], substation_of: dict[int, int], stations: Stations, notes: list[Finding]
) -> None:
    """Adds what only the power flow has: all substations where the file has none, and the substations of buses."""
    if not substations and stations.stations:
        for station in stations.stations.values():
            substations[station.number] = Substation(
                station.number, station.name, station.place, station.ground, station.record
            )
            if station.place is None:
                notes.append(station.record.finding(NO_PLACE))
        file = next(iter(stations.stations.values())).record.file
        notes.append(Finding(file, "substations, their places and SRG as their grounds are taken from here"))
    for bus, number in stations.station_of.items():
        if number in substations:
            substation_of.setdefault(bus, number)


def read_windings(at: Record) -> tuple[Key, Windings]:
    sides = {}
    for side in SIDES:
        bus = at.bus(side, 0)
        if bus:
            blocked = at.whole(f"GICBD{side}", 0)
            if blocked not in (0, 1):
                at.wrong(f"GICBD{side}", f"it is {blocked}; allowed are 0, and 1 for a blocking device")
            sides[bus] = Side(at.number(f"WR{side}", "0"), blocked == 1, at.number(f"GRDR{side}", "0"))
    windings = Windings(sides, at.text("VECGRP"), at, at.whole("CORE", 0), at.number("KFACTOR", "0"))
    return (frozenset(sides), circuit_of(at)), windings


def read_line_data(at: Record) -> tuple[Key, LineData]:
    ends = (at.bus("I"), at.bus("J"))
    for column in ("INDVP", "INDVQ"):
        if at.number(column, "0") != 0:
            at.wrong(column, f"it is {at.text(column)}; a voltage of its own can't be written in a case. Make it 0")
    shunts = {end: at.number(f"RLNSH{side}", "0") for end, side in zip(ends, SIDES)}
    return (frozenset(ends), circuit_of(at)), LineData(at.number("RBRN", "0"), shunts, at)


def read_gic(file: str, stations: Stations, findings: list[Finding], notes: list[Finding]) -> Gic:
    """The data of a file, with the substations of a power flow beside it. What is wrong with its fields becomes findings,
    and what is skipped is told."""
    lines = read_text(file, "latin-1").split("\n")
    first = 0
    while first + 1 < len(lines) and (not lines[first].strip() or lines[first].lstrip().startswith(("@!", "/"))):
        first += 1
    if not lines[first].replace(" ", "").upper().startswith("GICFILEVRSN="):
        raise refuse(file, "the first line isn't GICFILEVRSN=..; is it another file?", first + 1)
    sections = read_sections(file, lines, first + 2, LAYOUT, findings, notes)
    told_skipped(file, sections, LAYOUT, PASSED, notes)
    records = functools.partial(records_of, file, sections, LAYOUT, findings)
    read = (read_substation(at, stations.stations, notes) for at in records("SUBSTATION"))
    substations = by_number("substation", read)
    substation_of: dict[int, int] = {}
    for at in records("BUS"):
        bus, number = at.bus("BUS"), at.whole("SUBSTATION")
        if substation_of.get(bus, number) != number:
            at.wrong("BUS", f"the bus {bus} is in the substation {substation_of[bus]} already; leave one of the two")
        elif number not in substations:
            at.wrong("SUBSTATION", f"there is no substation {number} in this file; write its record")
        substation_of[bus] = number
    with_stations(substations, substation_of, stations, notes)
    reactors = [
        Reactor(at.bus("BUS"), circuit_of(at, "ID"), at.number("R", "0"), at.number("RG", "0"), at)
        for at in records("FIXED SHUNT")
    ]
    windings = [read_windings(at) for at in records("TRANSFORMER")]
    lines_data = [read_line_data(at) for at in records("BRANCH")]
    look_for_twins([(key, datum.record) for key, datum in windings])
    look_for_twins([(key, datum.record) for key, datum in lines_data])
    look_for_twins([((frozenset([reactor.bus]), reactor.circuit), reactor.record) for reactor in reactors])
    return Gic(file, substations, substation_of, dict(windings), reactors, dict(lines_data))
