"""A case from the two files of a power-flow program, `.raw` and `.gic`."""

import dataclasses
import decimal
import math
from collections.abc import Sequence

from . import psse_doubts, psse_factors
from .autos import Auto, turned_words
from .beyond import reactor_row
from .cases import Case, Field, Names, Row, short_enough
from .findings import Finding, Refused, collected
from .parts import Piece, fields_of, too_long
from .places import MOST_KM, SHORT_M
from .psse_gic import Gic, LineData, Reactor, Substation, Windings, read_gic
from .psse_grounds import Grounds
from .psse_half import Shares
from .psse_raw import Branch, Key, Raw, Switch, Transformer, read_raw, title
from .psse_sections import whole_lines
from .psse_shifters import Shifter, shifter_of
from .psse_stations import Stations
from .psse_units import Beyond, Unit, micro_ohm, neutral_field, volts, windings_of
from .psse_ways import Ways
from .quantities import Number
from .records import Record
from .rounding import Rounding, meant, written
from .seen import Seen
from .tables import Table
from .usual import GROUNDS, REACTORS, unusual, unusual_line, usual_at
from .zone_scales import FORMULA, read_alpha
from .zones import ZoneFiles, Zones, read_all

MOST_OF_TIE = decimal.Decimal("0.1")  # ohm of a phase; bus ties and breakers have less
MOST_OF_JUMPER = decimal.Decimal("0.0001")  # reactance per unit; to power flows such a branch has no impedance
BLOCKED_MICRO_OHM = 1000000  # of a series capacitor without a resistance: it carries nothing
NAME_HEADS = ("list", "name", "theirs", "numbers", "circuit", "latitude", "longitude")


@dataclasses.dataclass(frozen=True)
class Choices:
    """What the user says once: how what programs mean differently is taken, and what becomes of what has no key."""

    beyond: str | None  # what becomes of what format 2 has no key for
    vector: str | None  # in which order the letters of vector groups stand
    alpha: str = FORMULA
    windings: str | None = None  # what a resistance of 0 is met by
    grounds: Grounds = Grounds()
    factors: bool = False  # whether a table of factors is made
    shifter: str | None = None  # how a unit between two buses of one voltage is taken
    cores: psse_factors.Cores = dataclasses.field(default_factory=psse_factors.published)


@dataclasses.dataclass
class Groups:
    """Buses that are one, by what ties them together. The first of a group stands for it."""

    first: dict[int, int] = dataclasses.field(default_factory=dict)

    def of(self, bus: int) -> int:
        while self.first.get(bus, bus) != bus:
            bus = self.first[bus]
        return bus

    def join(self, one: int, other: int) -> None:
        first, second = sorted((self.of(one), self.of(other)))
        self.first[second] = first


class Making:
    """A case in the making, list by list, with what is wrong and what is told."""

    def __init__(self, raw: Raw, gic: Gic, zones: Zones, choices: Choices, notes: list[Finding]) -> None:
        self.raw, self.gic, self.zones, self.choices, self.notes = raw, gic, zones, choices, notes
        self.ways = Ways(gic, zones, notes)
        self.beyond = Beyond(choices.beyond, self.notes)
        self.case, self.names, self.groups = Case(), Names(), Groups()
        self.theirs: list[tuple[str, ...]] = []
        self.rounding = Rounding()
        self.substation_names: dict[int, str] = {}
        self.bus_names: dict[int, str] = {}
        self.factors = psse_factors.Factors(choices.cores)
        self.without: set[int] = set()  # buses that were told to be in no substation
        self.unit_at: dict[str, str] = {}  # the substation of each unit
        self.blank: set[str] = set()  # substations whose ground stands blank, and has that of --blank-ground

    def tell(self, at: Record, words: str, column: str | None = None) -> None:
        self.notes.append(at.finding(words, column))

    def add(
        self,
        list_name: str,
        row: Row,
        theirs: str,
        numbers: Sequence[int],
        circuit: str = "",
        place: tuple[str, str] = ("", ""),
    ) -> None:
        self.case.lists[list_name].append(row)
        self.theirs.append((list_name, row.name, theirs, " ".join(map(str, numbers)), circuit, *place))

    def make(self) -> None:
        for zone in self.zones.zones:
            self.names.taken.add(zone.row.name)
            self.case.lists["zone"].append(zone.row)
        for substation in self.gic.substations.values():
            self.substation(substation)
        for switch in self.raw.switches:
            self.switch(switch)
        lines = whole_lines(
            self.raw.groupings, self.raw.branches, self.raw.buses, self.gic.substation_of, self.notes
        )
        branches = [(branch, self.tie(branch)) for branch in lines if self.in_service(branch)]
        for branch, is_tie in branches:
            name = branch_name(branch) if is_tie else self.line(branch)
            for section in branch.sections or (branch,):
                self.line_reactors(section, name)
        for unit in self.raw.transformers:
            self.transformer(unit)
        for reactor in self.gic.reactors:
            self.reactor(reactor)
        self.records_used()
        self.ways.latitudes()
        self.tell_of_autos()
        self.buses()

    def substation(self, substation: Substation) -> None:
        name = self.names.give(substation.name, f"S{substation.number}")
        self.substation_names[substation.number] = name
        fields = []
        ohm = self.choices.grounds.of(substation, name, self.notes)
        if ohm is not None:
            micro = micro_ohm(substation.record, "RG", ohm, "write ohm, or nothing where it has no ground")
            kilovolts = self.highest(substation.number)
            usual, what = usual_at(GROUNDS, kilovolts), f"grounds at {kilovolts:f} kV"
            self.tell_unusual(substation.record, "RG", unusual(ohm, usual, what, kilovolts))
            fields.append(Field("ground", micro, f"{ohm:f} ohm to remote earth"))
            self.blank |= {name} if substation.ground is None else set()
        latitude, longitude = ("", "") if substation.place is None else (f"{degrees:f}" for degrees in substation.place)
        self.add("substation", Row(name, fields), substation.name, [substation.number], "", (latitude, longitude))

    def highest(self, substation: int) -> decimal.Decimal:
        """The highest voltage in a substation, in kV."""
        buses = (bus for bus, here in self.gic.substation_of.items() if here == substation and bus in self.raw.buses)
        return max((self.raw.buses[bus].kilovolts for bus in buses), default=decimal.Decimal(0))

    def tell_unusual(self, at: Record, column: str, found: tuple[str, str] | None) -> None:
        if found is not None:
            self.tell(at, "".join(found), column)

    def known(self, at: Record, buses: Sequence[int]) -> bool:
        """Whether each bus stands in both files; what is missing is told once."""
        for bus in buses:
            if bus not in self.raw.buses and bus not in self.without:
                at.wrong(None, f"there is no bus {bus} in {self.raw.file}; write its record")
                self.without.add(bus)
            elif bus not in self.gic.substation_of and bus not in self.without:
                at.wrong(None, f"the bus {bus} is in no substation of {self.gic.file}; write its record there")
                self.without.add(bus)
        return not self.without.intersection(buses)

    def substations(self, buses: Sequence[int]) -> set[int]:
        return {self.gic.substation_of[bus] for bus in buses}

    def isolated(self, buses: Sequence[int]) -> bool:
        return any(bus in self.raw.buses and self.raw.buses[bus].isolated for bus in buses)

    def in_service(self, branch: Branch) -> bool:
        if branch.in_service and not self.isolated(branch.ends):
            return self.known(branch.record, branch.ends)
        self.tell(branch.record, f"the branch {title(branch.ends, branch.circuit)} is out of service: it is left out")
        return False

    def switch(self, switch: Switch) -> None:
        """A closed switching device makes one bus of two."""
        what = f"the switching device {title(switch.ends, switch.circuit)}"
        if not switch.closed or self.isolated(switch.ends):
            self.tell(switch.record, f"{what} is open: it is left out")
        elif self.known(switch.record, switch.ends):
            if len(self.substations(switch.ends)) > 1:
                switch.record.wrong(None, f"{what} joins two substations; make one of them in {self.gic.file}")
            self.join(switch.record, what, switch.ends)

    def join(self, at: Record, what: str, ends: tuple[int, int]) -> None:
        self.groups.join(*ends)
        self.tell(at, f"{what} ties two buses of one substation: they are one bus, {self.groups.of(ends[0])}")

    def is_within(self, branch: Branch) -> bool:
        """Whether both ends are in one substation."""
        return len(self.substations(branch.ends)) == 1

    def line_data(self, branch: Branch) -> LineData | None:
        return self.gic.lines.get((frozenset(branch.ends), branch.circuit))

    def ohm(self, branch: Branch) -> decimal.Decimal:
        """The resistance of a phase: that of the resistances' file, or else that of the power flow; of sections their
        sum."""
        if branch.sections:
            return sum((self.ohm(section) for section in branch.sections), decimal.Decimal(0))
        data = self.line_data(branch)
        if data is not None and data.ohm != 0:
            return data.ohm
        kilovolts = self.raw.buses[branch.ends[0]].kilovolts
        return branch.resistance * kilovolts**2 / self.raw.base_mva

    def tie(self, branch: Branch) -> bool:
        """Whether a branch within one substation is a tie, which makes one bus of two, or a capacitor, which is left out;
        one with more of a resistance than a tie has is a line."""
        if not self.is_within(branch):
            return False
        what = f"the branch {title(branch.ends, branch.circuit)}"
        if branch.reactance < 0:
            self.tell(branch.record, f"{what} is a series capacitor within a substation: it is left out")
            return True
        kilovolts = [self.raw.buses[bus].kilovolts for bus in branch.ends]
        ohm = self.ohm(branch)
        if ohm > MOST_OF_TIE:
            words = f"{what} of {ohm:f} ohm lies within one substation: it is kept as a line, which has no span"
            self.tell(branch.record, f"{words}; if it leads to another one, mend the substation of a bus in {self.gic.file}")
            return False
        if kilovolts[0] != kilovolts[1]:
            words = f"{what} ties a bus of {kilovolts[0]:f} kV to one of {kilovolts[1]:f} kV; look at BASKV of both"
            branch.record.wrong(None, words)
        self.join(branch.record, f"{what} of {ohm:f} ohm", branch.ends)
        return True

    def line(self, branch: Branch) -> str:
        """Writes a line, and answers its name."""
        name = self.names.give(branch.name, branch_name(branch))
        start, end = (self.raw.buses[bus] for bus in branch.ends)
        if start.kilovolts != end.kilovolts:
            words = f"it joins a bus of {start.kilovolts:f} kV to one of {end.kilovolts:f} kV; look at BASKV of both"
            branch.record.wrong(None, words)
        override = self.zones.of_lines.get((frozenset(branch.ends), branch.circuit))
        north, east = self.ways.span(branch, override)
        if branch.reactance >= 0 and abs(north) + abs(east) < SHORT_M and not self.is_within(branch):
            self.tell(branch.record, f"{name} has a span of less than {SHORT_M} m: look at the coordinates of its ends")
        fields = [Field("from", self.bus(branch.ends[0])), Field("to", self.bus(branch.ends[1]))]
        pieces = self.ways.pieces(branch, override, (north, east))
        if not pieces:
            return name
        resistance = self.line_resistance(branch)
        if branch.reactance >= 0 and abs(north) + abs(east) >= SHORT_M and self.ohm(branch) != 0:
            data = self.line_data(branch)
            at, column = (branch.record, "R") if data is None or data.ohm == 0 else (data.record, "RBRN")
            found = unusual_line(self.ohm(branch), math.hypot(north, east), start.kilovolts)
            self.tell_unusual(at, column, found)
        fault = too_long(pieces, (north, east), self.zones.factor, MOST_KM)
        if fault is not None:
            branch.record.wrong(None, fault)
        fields += fields_of(pieces, resistance, (north, east), self.zones.factor)
        if branch.reactance < 0:
            fields.append(Field("blocked", True, "a series capacitor passes no direct current"))
            what = "a negative X: it is a series capacitor, and"
            if branch.sections:
                what = "a section of a negative X, which is a series capacitor: it is"
            self.tell(branch.record, f"{name} has {what} blocked")
        row = Row(name, fields)
        if branch.reactance >= 0:
            exact = meant(pieces, self.ways.exact_span(branch, override, (north, east)), self.zones.scale)
            self.rounding.add(name, exact, written(row, self.zones.scale))
        self.add("line", row, branch.name, branch.ends, branch.circuit)
        return name

    def line_reactors(self, branch: Branch, name: str) -> None:
        """The reactors at the ends of a branch of this name."""
        data = self.line_data(branch)
        for bus, ohm in ({} if data is None else data.shunts).items():
            if ohm != 0 and data is not None:
                column = f"RLNSH{'I' if bus == data.record.bus('I') else 'J'}"
                if bus not in self.gic.substation_of:
                    data.record.wrong(column, f"the bus {bus} is between two sections, in no substation; give it one")
                    continue
                what = f"the reactor of {name} at the bus {bus}"
                self.say_reactor(data.record, what, bus, f"{name}_{bus}", ohm, column)

    def line_resistance(self, branch: Branch) -> Field:
        ohm = self.ohm(branch)
        data = self.line_data(branch)
        from_data = data is not None and data.ohm != 0
        comment = f"{ohm.normalize():f} ohm per phase" + ("" if from_data else ", from per unit")
        if branch.sections:
            comment = f"{ohm.normalize():f} ohm per phase, the sum of {len(branch.sections)} sections"
        if branch.reactance < 0 and ohm * 1000 < 1:
            comment = "no resistance of 0.001 ohm or more was given: it carries nothing while it is blocked"
            return Field("resistance", BLOCKED_MICRO_OHM, comment)
        at, column = (data.record, "RBRN") if data is not None and from_data else (branch.record, "R")
        if ohm == 0 and branch.reactance <= MOST_OF_JUMPER:
            words = "has no resistance, and next to no reactance: it is taken as a jumper, of 0.001 ohm"
            self.tell(branch.record, f"the branch {title(branch.ends, branch.circuit)} {words}")
            return Field("resistance", 1000, "0.001 ohm per phase, the least of a case: a jumper without a resistance")
        return Field("resistance", micro_ohm(at, column, ohm), comment)

    def transformer(self, unit: Transformer) -> None:
        what = f"the transformer {title(unit.buses, unit.circuit)}"
        if unit.status == 0 or self.isolated(unit.live_buses):
            self.tell(unit.record, f"{what} is out of service: it is left out")
            return
        if not self.known(unit.record, unit.buses):
            return
        data = self.gic.windings.get((frozenset(unit.buses), unit.circuit))
        if data is None:
            unit.record.wrong(None, f"{what} has no record in {self.gic.file}; write it there")
            return
        if len(self.substations(unit.buses)) > 1:
            unit.record.wrong(None, f"{what} has buses in different substations; a station is one of {self.gic.file}")
            return
        numbers = "-".join(map(str, unit.buses))
        kilovolts = {bus: self.raw.buses[bus].kilovolts for bus in unit.buses}
        windings = windings_of(unit, data, kilovolts, self.choices.vector, self.notes)
        if not windings:
            return
        name = self.names.give(unit.name, f"T{numbers}-{unit.circuit}")
        shares = Shares(self.choices.windings, self.raw.base_mva, self.notes)
        shifter = shifter_of(name, unit, windings, data, self.choices.shifter)
        if shifter is not None:
            self.tell(unit.record, shifter.told)
        if shifter is not None and shifter.is_line:
            self.shifter(shifter, data, shares)
            return
        making = Unit(unit.record, data.record, name, windings, self.bus, self.beyond, unit, shares)
        for row in making.rows():
            used = [row.value(end) for end in ("high", "low", "third") if row.value(end) is not None]
            if len(set(used)) < len(used):
                unit.record.wrong(None, f"{what} has two buses that ties make one; open the tie between them")
            self.add("transformer", row, unit.name, unit.buses, unit.circuit)
            self.unit_at[row.name] = self.substation_names[self.gic.substation_of[unit.buses[0]]]
            self.note_factor(row, data)

    def shifter(self, shifter: Shifter, data: Windings, shares: Shares) -> None:
        """A phase shifter as a line without a span."""
        unit, (start, end) = shifter.unit, shifter.ends
        resistance, told = shifter.resistance(data, shares)
        self.tell(unit.record, f"{shifter.name} is a line {told}")
        for bus in shifter.left_out:
            self.tell(unit.record, f"the grounded winding of {shifter.name} at the bus {bus} is left out, since a line has none")
        zone = self.ways.zone_within(self.gic.substation_of[start])
        fields = [Field("from", self.bus(start)), Field("to", self.bus(end))]
        if fields[0].value == fields[1].value:
            unit.record.wrong(None, f"{shifter.name} has two buses that ties make one; open the tie between them")
        if zone:
            fields += fields_of([Piece(zone)], resistance, (0, 0), self.zones.factor)
            self.add("line", Row(shifter.name, fields, "a phase shifter"), unit.name, unit.buses, unit.circuit)

    def note_factor(self, row: Row, data: Windings) -> None:
        """Keeps the factor for losses of a unit with a winding in the network."""
        high_volts = row.value("high_volts")
        if row.value("high") is not None and isinstance(high_volts, int):
            self.factors.add(row.name, high_volts, data)

    def reactor(self, reactor: Reactor) -> None:
        what = f"the reactor {title((reactor.bus,), reactor.circuit)}"
        shunt = self.raw.shunts.get((reactor.bus, reactor.circuit))
        if shunt is None:
            reactor.record.wrong(None, f"there is no fixed shunt of this bus and id in {self.raw.file}; write it there")
        elif not shunt.in_service or self.isolated([reactor.bus]):
            self.tell(reactor.record, f"{what} is out of service: it is left out")
        elif self.known(reactor.record, [reactor.bus]):
            name = f"R{reactor.bus}-{reactor.circuit}"
            self.say_reactor(reactor.record, what, reactor.bus, name, reactor.ohm, "R", reactor.neutral_ohm)

    def say_reactor(
        self,
        at: Record,
        what: str,
        bus: int,
        name: str,
        ohm: decimal.Decimal,
        column: str,
        neutral_ohm: decimal.Decimal = decimal.Decimal(0),
    ) -> None:
        given = self.names.give_like(name) if self.beyond.choice == "model" else name
        if self.beyond.takes(at, what, f"{given}, a reactor"):
            resistance = Field("high_resistance", micro_ohm(at, column, ohm), f"{ohm:f} ohm per phase")
            kilovolts = self.raw.buses[bus].kilovolts
            self.tell_unusual(at, column, unusual(ohm, usual_at(REACTORS, kilovolts), "reactors", kilovolts))
            neutral = [neutral_field(at, "RG", neutral_ohm)] if neutral_ohm != 0 else []
            row = reactor_row(given, volts(at, kilovolts), self.bus(bus), resistance, neutral)
            self.add("transformer", row, "", [bus])

    def tell_of_autos(self) -> None:
        autos = []
        for row in self.case.lists["transformer"]:
            numbers = [row.value(key) for key in ("high_volts", "low_volts", "series_resistance", "common_resistance")]
            high, low, series, common = (Number(value) if isinstance(value, int) else Number(0) for value in numbers)
            autos += [Auto(row.name, high, low, series, common)] if series and common else []
        words = turned_words(autos)
        if words is not None:
            self.notes.append(Finding(self.gic.file, f"{words}; look at WRI and WRJ, and at the order of the buses"))

    def records_used(self) -> None:
        """A row of the table of lines that is of no branch is a finding, since it was meant for one. A row of the table
        of substations that is of none is told, since the table may be of a larger network; so is a record of
        resistances that is of nothing, and a reactor without one. One that is of a line of several sections is a finding."""
        branches: set[Key] = {(frozenset(branch.ends), branch.circuit) for branch in self.raw.branches}
        single = set(branches)
        branches |= {(frozenset(grouping.ends), grouping.circuit) for grouping in self.raw.groupings}
        units: set[Key] = {(frozenset(unit.buses), unit.circuit) for unit in self.raw.transformers}
        for key, override in self.zones.of_lines.items():
            if key not in branches:
                override.record.wrong("bus_i", f"there is no branch of these buses and this circuit in {self.raw.file}")
        for number, row in self.zones.of_substations.items():
            if number not in self.gic.substations:
                self.tell(row, f"there is no substation {number} in {self.gic.file}: this row is of none")
        for key, data in self.gic.lines.items():
            if key not in branches:
                self.tell_of_none(data.record, "branch")
            elif key not in single and (data.ohm != 0 or any(data.shunts.values())):
                words = "this record is of a line of several sections, and isn't used; write one for each section"
                data.record.wrong(None, words)
        for key, windings in self.gic.windings.items():
            if key not in units:
                self.tell_of_none(windings.record, "transformer")
        grounded = {(reactor.bus, reactor.circuit) for reactor in self.gic.reactors}
        for name, shunt in self.raw.shunts.items():
            if shunt.reactor and shunt.in_service and name not in grounded:
                what = f"the reactor {title((shunt.bus,), shunt.circuit)}"
                self.tell(shunt.record, f"{what} has no record in {self.gic.file}: it is taken as not grounded")

    def tell_of_none(self, at: Record, what: str) -> None:
        self.tell(at, f"there is no {what} of these buses and this circuit in {self.raw.file}")

    def bus(self, number: int) -> str:
        """The name of the bus that this one is, which is in the case from here on."""
        first = self.groups.of(number)
        if first not in self.bus_names:
            name = f"{first}_{self.raw.buses[first].name}"
            self.bus_names[first] = self.names.give(name, f"B{first}")
        return self.bus_names[first]

    def seen(self) -> Seen:
        """The network as the desk's questions look at it."""
        kilovolts = {name: float(self.raw.buses[number].kilovolts) for number, name in self.bus_names.items()}
        places = {self.substation_names[number]: place for number, place in self.ways.places_of(self.substation_names).items()}
        of_zones = {zone: list(self.ways.places_of(sorted(stations)).values()) for zone, stations in self.ways.stations_of.items()}
        zones = list(psse_doubts.seen_zones(self.zones.zones, of_zones))
        notes = {row.name: row.note for row in self.case.lists["transformer"]}
        return Seen(self.case, kilovolts, places, zones, notes, at_station=self.unit_at)

    def buses(self) -> None:
        """The buses that a line or a winding is at; the others carry no direct current, and are told as one number."""
        members: dict[int, list[int]] = {}
        for number in self.raw.buses:
            members.setdefault(self.groups.of(number), []).append(number)
        for first, numbers in members.items():
            if first in self.bus_names:
                bus = self.raw.buses[first]
                station = self.substation_names.get(self.gic.substation_of[first], "")
                fields = [Field("substation", station, f"{bus.kilovolts:f} kV")]
                self.add("bus", Row(self.bus_names[first], fields), bus.name, numbers)
        others = sum(len(numbers) for first, numbers in members.items() if first not in self.bus_names)
        if others:
            words = f"{others} of {len(self.raw.buses)} buses have no line and no grounded winding: they are left out"
            self.notes.append(Finding(self.raw.file, words))


def branch_name(branch: Branch) -> str:
    """The name of a branch by its numbers."""
    return f"{'M' if branch.sections else 'L'}{'-'.join(map(str, branch.ends))}-{branch.circuit.lstrip('&')}"


@dataclasses.dataclass(frozen=True)
class Made:
    case: str
    names: str
    sources: str
    factors: str  # empty where none were asked for
    notes: list[Finding]
    rounding: str


def make_case(raw_file: str, gic_file: str, zone_files: ZoneFiles, choices: Choices) -> Made:
    """The case of the two files and the tables of zones; all that is wrong with any of them is told at once."""
    read_alpha(choices.alpha)
    findings: list[Finding] = []
    notes: list[Finding] = []
    raw = gic = zones = None
    with collected(findings):
        raw = read_raw(raw_file, findings, notes)
    with collected(findings):
        gic = read_gic(gic_file, Stations() if raw is None else raw.stations, findings, notes)
    with collected(findings):
        zones = read_all(zone_files, choices.alpha, findings, notes)
    if findings or raw is None or gic is None or zones is None:
        raise Refused(findings)
    making = Making(raw, gic, zones, choices, notes)
    making.make()
    files = {"zone": zone_files.zones, "substation": gic_file}
    findings += [Finding(files.get(name, raw_file), words) for name, words in making.case.too_many().items()]
    if findings:
        raise Refused(findings)
    notes += psse_doubts.questions(raw, gic, making.seen(), zone_files.zones)
    origin = f"Made by gicdesk psse of {raw_file} and {gic_file}: change these, and make it again."
    text = short_enough(making.case.text(origin), raw_file, notes)
    factors = making.factors.text(gic_file, choices.factors, notes)
    sources = psse_doubts.sources_text(making.case, zones.zones, making.blank)
    return Made(text, Table(NAME_HEADS, making.theirs).csv(), sources, factors, making.notes, making.rounding.text)
