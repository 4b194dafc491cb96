"""What of a network stands in a file `.raw` of a power flow: buses, branches, transformers, fixed shunts."""

import dataclasses
import decimal
import functools
from collections.abc import Sequence

from .files import read_text
from .findings import Finding, refuse, shown
from .psse_stations import SECTION as STATIONS
from .psse_stations import Stations, read_stations
from .psse_text import Layout, SectionLine, by_number, fields_of, read_sections, record, records_of, told_skipped
from .records import WHOLE, Record

DUMMIES = " ".join(f"DUM{number}" for number in range(1, 10))
RATES = " ".join(f"RATE{number}" for number in range(1, 13))
COLUMNS = {
    "BUS": "I NAME BASKV IDE AREA ZONE OWNER VM VA",
    "FIXED SHUNT": "I ID ST GL BL",
    "BRANCH": "I J CKT R X B RATEA RATEB RATEC GI BI GJ BJ ST MET LEN",
    "TRANSFORMER": "I J K CKT CW CZ CM MAG1 MAG2 NMETR NAME ST O1 F1 O2 F2 O3 F3 O4 F4 VECGRP",
    "MULTI-SECTION LINE": f"I J ID MET {DUMMIES}",
}
NEEDED = {
    "BUS": "I BASKV",
    "FIXED SHUNT": "I ID",
    "BRANCH": "I J CKT R X ST",
    "SYSTEM SWITCHING DEVICE": "I J CKT ST",
    "TRANSFORMER": "I J K CKT ST",
    "MULTI-SECTION LINE": "I J ID DUM1",
}
OTHER_SECTIONS = {"FIXED BUS SHUNT": "FIXED SHUNT", "NONTRANSFORMER BRANCH": "BRANCH", "LINE": "BRANCH"}
OTHER_SECTIONS |= {"SUBSTATION NODE": STATIONS, "SUBSTATION BLOCK": STATIONS}
OTHER_SECTIONS |= {"MULTI-SECTION LINE GROUPING": "MULTI-SECTION LINE", "MULTI SECTION LINE": "MULTI-SECTION LINE"}
# Sections that say nothing of direct currents.
PASSED = ["SYSTEM-WIDE", "LOAD", "GENERATOR", "AREA", "ZONE", "OWNER"]
PASSED += ["INTER-AREA TRANSFER", "IMPEDANCE CORRECTION"]
TO_TRANSFORMERS = ["BUS", "LOAD", "FIXED SHUNT", "GENERATOR", "BRANCH", "TRANSFORMER", "AREA"]
KNOWN = (*PASSED, STATIONS)
TO_33 = Layout(TO_TRANSFORMERS, COLUMNS, NEEDED, OTHER_SECTIONS, KNOWN)
FROM_34 = Layout(
    ["SYSTEM-WIDE", *TO_TRANSFORMERS[:5], "SYSTEM SWITCHING DEVICE", *TO_TRANSFORMERS[5:]],
    COLUMNS
    | {
        "BRANCH": f"I J CKT R X B NAME {RATES} GI BI GJ BJ ST MET LEN",
        "SYSTEM SWITCHING DEVICE": f"I J CKT X {RATES} ST NSTAT MET STYPE NAME",
    },
    NEEDED,
    OTHER_SECTIONS,
    KNOWN,
)
VERSIONS = {30: TO_33, 31: TO_33, 32: TO_33, 33: TO_33, 34: FROM_34, 35: FROM_34, 36: FROM_34}
Key = tuple[frozenset[int], str]  # the buses and the circuit
ISOLATED = 4  # the IDE of a bus that stands alone


@dataclasses.dataclass(frozen=True)
class Bus:
    number: int
    name: str
    kilovolts: decimal.Decimal
    isolated: bool
    record: Record


@dataclasses.dataclass(frozen=True)
class Branch:
    """A line, a series capacitor or a tie. The resistance and the reactance are per unit. Of a line of several sections
    these are its branches, and the reactance is negative where that of one of them is."""

    ends: tuple[int, int]
    circuit: str
    resistance: decimal.Decimal
    reactance: decimal.Decimal
    in_service: bool
    name: str
    record: Record
    sections: tuple["Branch", ...] = ()


@dataclasses.dataclass(frozen=True)
class Grouping:
    """A line of several sections: its ends, and the buses between its sections in their order."""

    ends: tuple[int, int]
    circuit: str
    between: tuple[int, ...]
    record: Record


@dataclasses.dataclass(frozen=True)
class Switch:
    """A switching device between two buses, which has no resistance."""

    ends: tuple[int, int]
    circuit: str
    closed: bool
    record: Record


OUT = {2: 1, 3: 2, 4: 0}  # the place of the winding that is out, by the status of a unit


@dataclasses.dataclass(frozen=True)
class Transformer:
    """A unit of two or three buses. Rated kilovolts are 0 where they are those of the bus. The status is 0 for a unit
    that is out, 1 for one that is in, and 2, 3 and 4 for one whose second, third or first winding is out."""

    buses: tuple[int, ...]
    rated: tuple[decimal.Decimal, ...]
    circuit: str
    status: int
    name: str
    vector: str
    record: Record
    impedance: Record  # its second line

    @property
    def out(self) -> int | None:
        """The place of the winding that is out, where one is."""
        return OUT.get(self.status)

    @property
    def live_buses(self) -> tuple[int, ...]:
        """The buses of the windings that are in."""
        return tuple(bus for place, bus in enumerate(self.buses) if place != self.out)


@dataclasses.dataclass(frozen=True)
class Shunt:
    """A fixed shunt; one that takes reactive power is a reactor."""

    bus: int
    circuit: str
    in_service: bool
    reactor: bool
    record: Record


@dataclasses.dataclass(frozen=True)
class Raw:
    file: str
    base_mva: decimal.Decimal
    buses: dict[int, Bus]
    branches: list[Branch]
    switches: list[Switch]
    transformers: list[Transformer]
    shunts: dict[tuple[int, str], Shunt]
    groupings: list[Grouping]
    stations: Stations


def title(buses: Sequence[int], circuit: str) -> str:
    return "-".join(map(str, buses)) + f" '{circuit}'"


def look_for_twins(found: list[tuple[Key, Record]]) -> None:
    """A finding at each record whose buses and circuit an earlier one has."""
    earlier: dict[Key, Record] = {}
    for key, at in found:
        if key in earlier:
            line = earlier[key].line
            at.wrong(None, f"these buses and this circuit stand in line {line} already; leave one of the two")
        earlier.setdefault(key, at)


def circuit_of(at: Record, column: str = "CKT") -> str:
    return at.text(column) or "1"


def read_head(file: str, lines: list[str]) -> tuple[int, decimal.Decimal, Layout]:
    """The number of the first line behind the head of three lines, the base of per unit, and the version's layout."""
    place = 0
    while place < len(lines) and lines[place].lstrip().startswith("@!"):
        place += 1
    head = fields_of(lines[place]) if place < len(lines) else None
    if head is None or len(head) < 3 or not WHOLE.fullmatch(head[2]):
        words = "the first line isn't IC, SBASE, REV, ..; is it another file, or a binary one? Save it as .raw"
        raise refuse(file, words, place + 1)
    version = int(head[2])
    if version not in VERSIONS:
        allowed = f"{min(VERSIONS)} to {max(VERSIONS)}"
        raise refuse(file, f"the version is {version}; {allowed} are read. Save it as one of these", place + 1, "REV")
    findings: list[Finding] = []
    base = Record(file, place + 1, head, ["IC", "SBASE", "REV"], findings).number("SBASE")
    if findings or base <= 0:
        raise refuse(file, f"{shown(head[1])} is no base; write the MVA of per unit, as 100.0", place + 1, "SBASE")
    return place + 4, base, VERSIONS[version]


def read_bus(at: Record) -> Bus:
    return Bus(at.bus("I"), at.text("NAME"), at.number("BASKV", "0"), at.whole("IDE", 1) == ISOLATED, at)


def read_branch(at: Record) -> Branch:
    return Branch(
        (at.bus("I"), at.bus("J")),
        circuit_of(at),
        at.number("R", "0"),
        at.number("X"),
        at.whole("ST", 1) != 0,
        at.text("NAME"),
        at,
    )


def read_shunt(at: Record) -> Shunt:
    return Shunt(at.bus("I"), circuit_of(at, "ID"), at.whole("ST", 1) != 0, at.number("BL", "0") < 0, at)


def read_switch(at: Record) -> Switch:
    return Switch((at.bus("I"), at.bus("J")), circuit_of(at), at.whole("ST", 1) != 0, at)


def read_grouping(at: Record) -> Grouping:
    between = tuple(bus for column in DUMMIES.split(" ") if (bus := at.bus(column, 0)))
    if not between:
        at.wrong("DUM1", "it is empty; a line of several sections has a bus between each two of them")
    return Grouping((at.bus("I"), at.bus("J")), at.text("ID") or "&1", between, at)


def read_transformers(
    file: str, lines: list[SectionLine], layout: Layout, findings: list[Finding]
) -> list[Transformer]:
    """The units of a section, each four lines, or five with a third bus."""
    units = []
    place = 0
    while place < len(lines):
        at = record(file, lines[place], "TRANSFORMER", layout, findings)
        buses = (at.bus("I"), at.bus("J"), *([third] if (third := at.bus("K", 0)) else []))
        windings = lines[place + 2 : place + 2 + len(buses)]
        if len(windings) < len(buses):
            at.wrong(None, f"the unit has fewer lines than {2 + len(buses)}, as one of {len(buses)} buses has")
            break
        sides = [Record(file, line.number, line.fields, ["WINDV", "NOMV"], findings) for line in windings]
        rated = tuple(side.number("NOMV", "0") for side in sides)
        status = at.whole("ST", 1)
        if status not in (0, 1, *(OUT if len(buses) == 3 else ())):
            at.wrong("ST", f"it is {status}, and not 0 or 1, nor for a unit of three buses 2, 3 or 4")
        second = Record(file, lines[place + 1].number, lines[place + 1].fields, ["R1-2", "X1-2", "SBASE1-2"], findings)
        units.append(Transformer(buses, rated, circuit_of(at), status, at.text("NAME"), at.text("VECGRP"), at, second))
        place += 2 + len(buses)
    return units


def read_raw(file: str, findings: list[Finding], notes: list[Finding]) -> Raw:
    """The network of a file. What is wrong with its fields becomes findings, and what is skipped is told."""
    lines = read_text(file, "latin-1").split("\n")
    first, base, layout = read_head(file, lines)
    sections = read_sections(file, lines, first, layout, findings, notes)
    told_skipped(file, sections, layout, KNOWN, notes)
    records = functools.partial(records_of, file, sections, layout, findings)
    buses = by_number("bus", map(read_bus, records("BUS")))
    branches = [read_branch(at) for at in records("BRANCH")]
    switches = [read_switch(at) for at in records("SYSTEM SWITCHING DEVICE")]
    units = read_transformers(file, sections["TRANSFORMER"], layout, findings)
    shunts = [read_shunt(at) for at in records("FIXED SHUNT")]
    look_for_twins([((frozenset(branch.ends), branch.circuit), branch.record) for branch in branches])
    look_for_twins([((frozenset(unit.buses), unit.circuit), unit.record) for unit in units])
    look_for_twins([((frozenset([shunt.bus]), shunt.circuit), shunt.record) for shunt in shunts])
    by_bus = {(shunt.bus, shunt.circuit): shunt for shunt in shunts}
    groupings = [read_grouping(at) for at in records("MULTI-SECTION LINE")]
    stations = read_stations(file, sections.get(STATIONS, []), buses, findings)
    return Raw(file, base, buses, branches, switches, units, by_bus, groupings, stations)
