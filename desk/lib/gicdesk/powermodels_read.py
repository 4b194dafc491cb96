"""A case from GMD data of PowerModels: of two files, with the voltages of lines in 1 V/km to the north and to the east.

Alpha and beta are in the voltages already. So a line has a zone with a scale that divides both, and a span that times this
scale is what the files have. Buses that a unit joins are in the substation at which it is earthed; one that no unit joins to
an earthed place has a substation of its own without a ground.
"""

import dataclasses
import json
import math
from collections.abc import Mapping

from .cases import Case, Field, Names, Row, short_enough
from .files import read_text
from .findings import Finding, Refused, refuse
from .powermodels_checks import Extras, notes_of, read_extras, strength_of
from .powermodels_form import CONFIGS, FIELD, WINDINGS, WINDINGS_OF
from .powermodels_reading import OHM, PHASE, LineFacts, Reading, strength_fault
from .powermodels_spans import exchange_fault
from .rounding import Rounding

STATUS = {"gmd_bus": "status", "gmd_branch": "br_status", "branch_gmd": "br_status"}  # of the tables that are read
KINDS = {config: kind for kind, config in CONFIGS.items()}
# What both files have alike of each table; the status of each row is looked at by itself.
SAME = {
    "gmd_bus": ("name", "g_gnd"),
    "gmd_branch": ("name", "f_bus", "t_bus", "br_r"),
    "branch_gmd": ("name", "config", "hi_kv", "lo_kv", *WINDINGS.values()),
}
MOST_SCALE, MOST_METRES, MICRO = 1500, 1_000_000, 1_000_000


@dataclasses.dataclass(frozen=True)
class Entry:
    """A row of a table; what is wrong with it becomes a finding."""

    file: str
    table: str
    index: str
    values: Mapping[str, object]
    findings: list[Finding]

    def wrong(self, words: str) -> None:
        self.findings.append(Finding(self.file, f"{self.table} {self.index}: {words}"))

    def number(self, key: str, default: float | None = None) -> float:
        value = self.values.get(key, default)
        if isinstance(value, bool) or not isinstance(value, (int, float)) or not abs(value) <= 1e15:
            self.wrong(f"{key} is no number; write one")
            return 1.0
        return float(value)

    def index_in(self, key: str, table: Mapping[str, "Entry"]) -> str:
        """The index of a row of another table; empty where it is of none."""
        found = str(self.values.get(key, -1))
        return found if found in table else ""

    @property
    def name(self) -> str:
        value = self.values.get("name", "")
        return value if isinstance(value, str) else ""


Table = dict[str, Entry]


@dataclasses.dataclass(frozen=True)
class Data:
    """The tables of a file by the indices of their rows, and what it has beside them."""

    tables: dict[str, Table]
    beside: Mapping[str, object]


def read_data(file: str, findings: list[Finding]) -> Data:
    """The data of a file."""
    try:
        data = json.loads(read_text(file))
    except (ValueError, RecursionError) as error:  # (a number of more than 4300 digits is a ValueError alone)
        raise refuse(file, f"it is no JSON ({error}); write the data as JSON") from None
    tables: dict[str, Table] = {}
    for name in STATUS:
        rows = data.get(name) if isinstance(data, dict) else None
        if not isinstance(rows, dict) or not all(isinstance(row, dict) for row in rows.values()):
            raise refuse(file, f"it has no table {name} of rows by their indices; write one")
        tables[name] = {index: Entry(file, name, index, row, findings) for index, row in rows.items()}
        for entry in tables[name].values():
            if entry.number(STATUS[name], 1.0) != 1:
                entry.wrong(f"{STATUS[name]} is not 1: it is out of service, which a case has no key for; leave it out of the data")
    return Data(tables, data)


def scale_of(north: int, east: int) -> int:
    """The greatest scale in thousandths that divides both products of metres and scale; where with none the span is one of a
    case, the greatest of all, by which it is rounded."""
    common, greatest = math.gcd(north, east), max(abs(north), abs(east))
    fitting = (scale for scale in range(MOST_SCALE, 0, -1) if common % scale == 0 and greatest <= MOST_METRES * scale)
    return next(fitting, MOST_SCALE)


@dataclasses.dataclass(frozen=True)
class Unit:
    """A unit on its way into a case: its windings by the indices of their branches, its buses, and where it is earthed."""

    at: Entry
    kind: str
    windings: dict[str, str]
    buses: list[str]
    earthed: str


class Making:
    """A case in the making, of the tables of the field to the north and the branches of that to the east."""

    def __init__(self, tables: dict[str, Table], east: Table, extras: Extras, reading: Reading, strength: float) -> None:
        self.nodes, self.branches, units = (tables[name] for name in STATUS)
        self.east, self.extras, self.reading, self.strength = east, extras, reading, strength
        self.case, self.names = Case(), Names()
        self.facts: list[LineFacts] = []
        self.by_buses: list[str] = []  # units whose voltages are those of their buses
        self.rounding = Rounding()
        self.siemens = {node: self.ground(at) for node, at in self.nodes.items()}
        self.lines = dict(self.branches)  # those that are no winding and no resistor of a neutral
        self.units = [unit for at in units.values() if (unit := self.read_unit(at)) is not None]
        self.first: dict[str, str] = {}  # of nodes of one substation, one that stands for them
        self.stations: dict[str, str] = {}  # the names of substations by the nodes of their grounds
        self.neutrals: dict[str, list[Field]] = {}  # by the nodes of neutrals

    def ground(self, at: Entry) -> float:
        """What leads from a node to the earth, in siemens."""
        siemens = at.number("g_gnd", 0.0)
        if self.reading.grounds == OHM and siemens != 0:
            siemens = 1 / siemens if 0.001 <= siemens <= 1000 else 1e9
        if siemens != 0 and not 0.001 <= siemens <= 1000:
            way = "its ohm" if self.reading.grounds == OHM else "1 over its ohm"
            words = f"g_gnd is {at.number('g_gnd'):g}, and a ground of a case has 0.001 to 1000 ohm"
            at.wrong(f"{words}; write {way}, or 0 where there is none")
        return siemens

    def ends(self, at: Entry) -> tuple[str, str]:
        start, end = at.index_in("f_bus", self.nodes), at.index_in("t_bus", self.nodes)
        if not start or not end:
            at.wrong("f_bus or t_bus is no row of gmd_bus; write the index of one")
        return start, end

    def read_unit(self, at: Entry) -> Unit | None:
        config = str(at.values.get("config", ""))
        if config == "none":
            return None  # (a line)
        if config not in KINDS:
            at.wrong(f"its config is none of {', '.join(KINDS)}; write one of these")
            return None
        kind = KINDS[config]
        windings = {winding: at.index_in(WINDINGS[winding], self.branches) for winding in WINDINGS_OF[kind]}
        if not all(windings.values()):
            at.wrong(f"a winding has no row of gmd_branch; write {' and '.join(WINDINGS[winding] for winding in windings)}")
            return None
        pairs = [self.ends(self.branches[index]) for index in windings.values()]
        for index in windings.values():
            self.lines.pop(index, None)
            self.look_for_volts(index)
        if kind == "wye-wye" and pairs[0][1] != pairs[1][1]:
            at.wrong("its windings end at two nodes; both end (t_bus) at its neutral, or at the ground of its substation")
        if kind == "auto" and pairs[0][1] != pairs[1][0]:
            at.wrong("its series winding ends (t_bus) at another bus than its common one begins (f_bus); make them one")
        buses = [start for start, _ in pairs]
        return Unit(at, kind, windings, buses, pairs[-1][1] if pairs else "")

    def look_for_volts(self, index: str) -> None:
        """A finding at a branch that is no line and has a voltage, in either file."""
        for at in (self.branches[index], self.east[index]):
            if at.number("br_v", 0.0) != 0:
                at.wrong("br_v isn't 0, and in a case lines alone have a voltage; make it 0, as it is of windings")

    def of(self, node: str) -> str:
        while self.first.get(node, node) != node:
            node = self.first[node]
        return node

    def find_stations(self) -> None:
        """Which nodes are grounds of substations, and what of a neutral lies between it and its ground."""
        for unit in self.units:
            node, station = unit.earthed, unit.earthed
            if node and self.siemens[node] == 0 and self.nodes[node].name == unit.at.name:
                station = self.find_neutral(node)
            if station:
                self.stations.setdefault(station, "")
            for bus in (*unit.buses, *([station] if station else [])):
                self.first[self.of(bus)] = self.of(unit.buses[0])
        for node, at in self.nodes.items():
            if node in self.stations or self.siemens[node] > 0:
                self.stations[node] = self.names.give(at.name, f"S{node}")

    def find_neutral(self, node: str) -> str:
        """The ground that a neutral leads to over a resistor; none where it is blocked."""
        self.neutrals[node] = [Field("neutral", "blocked", "its neutral leads nowhere")]
        for index, at in list(self.lines.items()):
            ends = self.ends(at)
            if node in ends:
                del self.lines[index]
                self.look_for_volts(index)
                self.neutrals[node] = [self.resistance(at, "neutral", "br_r: ohm to the ground grid", 1)]
                return ends[1] if ends[0] == node else ends[0]
        return ""

    def make(self) -> None:
        self.find_stations()
        units = [(unit, self.names.give(unit.at.name, f"T{unit.at.index}")) for unit in self.units]
        in_station = {self.of(node): name for node, name in self.stations.items()}
        for node, name in self.stations.items():
            siemens = self.siemens[node]
            ground = [Field("ground", round(MICRO / siemens), "1 over g_gnd")] if siemens > 0 else []
            self.case.lists["substation"].append(Row(name, ground))
        buses: dict[str, str] = {}
        for node, at in self.nodes.items():
            if node not in self.stations and node not in self.neutrals:
                buses[node] = self.names.give(at.name, f"B{node}")
                station = in_station.get(self.of(node)) or self.names.give(f"S_{at.name}", f"S{node}")
                if self.of(node) not in in_station:
                    in_station[self.of(node)] = station
                    self.case.lists["substation"].append(Row(station, []))
                self.case.lists["bus"].append(Row(buses[node], [Field("substation", station)]))
        self.facts = self.line_facts()
        scales: dict[int, str] = {}
        for index, at in self.lines.items():
            self.line(index, at, buses, scales)
        for unit, name in units:
            self.case.lists["transformer"].append(self.unit_row(unit, name, buses))

    def resistance(self, at: Entry, key: str, note: str = "3 times br_r: ohm per phase", phases: int = 3) -> Field:
        """A resistance of the case: of a phase, or of a neutral as it is."""
        if self.reading.resistances == PHASE and phases == 3:
            note, phases = "br_r: ohm per phase", 1
        ohm = phases * at.number("br_r")
        if not 0.001 <= ohm <= 1000:
            what = "a neutral resistor" if key == "neutral" else "a phase"
            whole = f"br_r is a third of {ohm:g} ohm, and a phase" if phases == 3 else f"br_r is {ohm:g} ohm, and {what}"
            at.wrong(f"{whole} of a case has 0.001 to 1000")
        return Field(key, round(ohm * MICRO), note)

    def line(self, index: str, at: Entry, buses: Mapping[str, str], scales: dict[int, str]) -> None:
        start, end = (buses.get(node, "") for node in self.ends(at))
        other = self.east.get(index)
        if not start or not end or other is None:
            at.wrong("it is no winding of a unit, and no line between two buses of both files; write its unit")
            return
        exact = at.number("br_v") / self.strength, other.number("br_v") / self.strength
        north, east = (round(volts * MICRO) for volts in exact)
        scale = scale_of(north, east)
        if scale not in scales:
            scales[scale] = self.names.give(f"scale-{scale}", f"Z{scale}")
            self.case.lists["zone"].append(Row(scales[scale], [Field("scale", scale, "thousandths, by which voltages divide")]))
        fields = [Field("from", start), Field("to", end), Field("zone", scales[scale]), self.resistance(at, "resistance")]
        spans = [Field(key, round(volts / scale), "br_v over the scale") for key, volts in (("north", north), ("east", east))]
        name = self.names.give(at.name.removesuffix(" line"), f"L{index}")
        self.case.lists["line"].append(Row(name, [*fields, *spans]))
        self.rounding.add(name, exact, (round(north / scale) * scale / MICRO, round(east / scale) * scale / MICRO))

    def line_facts(self) -> list[LineFacts]:
        """What the data say of each line."""
        kilovolts: dict[str, float] = {}
        for unit in self.units:
            for side, node in zip(("hi", "lo"), unit.buses):
                value = unit.at.values.get(f"{side}_kv", self.extras.kilovolts_of(unit.at.values.get(f"{side}_bus")))
                if isinstance(value, (int, float)):
                    kilovolts.setdefault(node, float(value))
        facts = []
        for index, at in self.lines.items():
            (start, end), other = self.ends(at), self.east.get(index)
            if start and end and other is not None:
                volts = at.number("br_v") / self.strength, other.number("br_v") / self.strength
                ohm = at.number("br_r") * (1 if self.reading.resistances == PHASE else 3)
                known = kilovolts.get(start) or kilovolts.get(end) or self.extras.kilovolts_at(self.nodes[start].values)
                mapped = self.extras.mapped(self.nodes[start].values, self.nodes[end].values)
                length = self.extras.length_of(at.values)
                name = at.name.removesuffix(" line") or index
                facts.append(LineFacts(index, name, self.of(start), self.of(end), volts, ohm, known, mapped, length))
        return facts

    def volts(self, unit: Unit, side: str) -> Field:
        """The rated voltage of a side of a unit: what stands there, or else that of its bus in the power flow."""
        key, bus = f"{side[:2]}_kv", f"{side[:2]}_bus"
        if key in unit.at.values:
            return Field(f"{side}_volts", round(1000 * unit.at.number(key)), key)
        kilovolts = self.extras.kilovolts_of(unit.at.values.get(bus))
        if kilovolts is None:
            unit.at.wrong(f"{key} is no number; write one, or base_kv of its {bus} in a table bus")
            return Field(f"{side}_volts", 1000)
        if unit.at.name not in self.by_buses:
            self.by_buses.append(unit.at.name)
        return Field(f"{side}_volts", round(1000 * kilovolts), f"base_kv of {bus}")

    def unit_row(self, unit: Unit, name: str, buses: Mapping[str, str]) -> Row:
        fields = [Field("kind", unit.kind), self.volts(unit, "high")]
        for side, node in zip(("high", "low"), unit.buses):
            fields += [self.volts(unit, "low")] if side == "low" else []
            fields.append(Field(side, buses.get(node, "")))
        fields += [self.resistance(self.branches[index], f"{winding}_resistance") for winding, index in unit.windings.items()]
        return Row(name, [*fields, *self.neutrals.get(unit.earthed, [])])


def differing(table: str, north: Table, east: Table) -> list[str]:
    """The indices of the rows that aren't alike in both files."""
    one, other = ({index: [row.values.get(key) for key in SAME[table]] for index, row in rows.items()} for rows in (north, east))
    return [index for index in {**one, **other} if one.get(index) != other.get(index)]


def look_for_equal(north: Table, east: Table, files: tuple[str, str]) -> None:
    """Refuses files of which all voltages are alike, as of one that is given twice."""
    one, other = ({index: row.values.get("br_v", 0.0) for index, row in table.items()} for table in (north, east))
    if one == other:
        words = f"all its voltages are those of {files[0]}; is one file given twice? Write one in 1 V/km to the north, and one to the east"
        raise refuse(files[1], words)


@dataclasses.dataclass(frozen=True)
class Made:
    case: str
    notes: list[Finding]
    rounding: str


def make_case(north_file: str, east_file: str, reading: Reading = Reading()) -> Made:
    """The case of two files; all that is wrong with any of them is told at once."""
    findings: list[Finding] = []
    north, east = read_data(north_file, findings), read_data(east_file, findings)
    for table in SAME:
        odd = differing(table, north.tables[table], east.tables[table])
        if odd:
            raise refuse(east_file, f"its {table} isn't that of {north_file}, as row {odd[0]}; write both of one network")
    look_for_equal(north.tables["gmd_branch"], east.tables["gmd_branch"], (north_file, east_file))
    fields = tuple(data.beside.get(FIELD) for data in (north, east))
    strength = strength_of((north_file, east_file), fields, reading)
    making = Making(north.tables, east.tables["gmd_branch"], read_extras(north.beside), reading, strength)
    if not findings:
        making.make()
    findings += [Finding(north_file, words) for words in making.case.too_many().values()]
    facts = making.facts
    faults = () if findings else (strength_fault(facts), exchange_fault(facts))
    findings += [Finding(north_file, words) for words in faults if words is not None]
    if findings:
        raise Refused(findings)
    notes = [Finding(north_file, words) for words in notes_of(facts, list(making.siemens.values()), making.by_buses, reading, strength)]
    origin = f"Made by gicdesk from-powermodels of {north_file} and {east_file}: change these, and make it again."
    return Made(short_enough(making.case.text(origin), north_file, notes), notes, making.rounding.text)
