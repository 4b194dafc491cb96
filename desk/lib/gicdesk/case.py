"""A case from tables of ohm, kilovolts, kilometres and degrees."""

import dataclasses

from .autos import Auto, turned_words
from .case_tables import (
    BUSES,
    COLUMNS,
    LINES,
    PARALLEL,
    SUBSTATIONS,
    TRANSFORMERS,
    ZONES,
    Questions,
    Tables,
    check_accepted,
    read_tables,
)
from .case_lines import Line, Network
from .case_units import Unit
from .cases import LISTS, Case, Field, Names, Row, short_enough
from .doubts import Doubt, doubts_of
from .findings import Finding, Refused, shown
from .forms import NAME
from .latitudes import latitude_words
from .quantities import GROUND_OHM, KILOVOLT, LATITUDE, LONGITUDE, OHM, TOLERANCE, Number, bare, number_in, whole
from .records import Record
from .rounding import Rounding
from .seen import Seen, SeenZone
from .sources import LISTS as WITH_SOURCE
from .sources import Sources, ZoneInputs, read_source, sources_table, zone_inputs
from .usual import GROUNDS, short, unusual, usual_at
from .vectors import letters_of
from .zone_scales import read_alpha, zone_of_row

AUTO_COLUMNS = ("high_kv", "low_kv", "series_ohm", "common_ohm")


@dataclasses.dataclass(frozen=True)
class Choices:
    """What the user says once: alpha of all zones without one of their own, and the findings that are accepted."""

    alpha: str
    accepted: tuple[str, ...]


class Making:
    """A case in the making, list by list, with what is wrong and what is told."""

    def __init__(self, tables: Tables, choices: Choices) -> None:
        self.tables, self.findings, self.notes = tables, tables.findings, list[Finding]()
        self.questions = Questions(choices.accepted, self.findings, self.notes)
        self.alpha = choices.alpha
        self.case, self.names = Case(), Names({name for rows in tables.rows.values() for name in rows})
        self.network = Network()
        self.rounding = Rounding()
        self.row_of: dict[str, Record] = {}  # of transformers, by their names in the case
        self.zone_inputs: dict[str, ZoneInputs] = {}
        self.sources: dict[str, str] = {}  # of substations, lines and transformers

    def make(self) -> None:
        for table, make in (
            (ZONES, self.zone),
            (SUBSTATIONS, self.place),
            (BUSES, self.bus),
            (LINES, self.line),
            (TRANSFORMERS, self.transformer),
            (ZONES, self.latitude),
            (SUBSTATIONS, self.substation),
            (BUSES, self.unused),
        ):
            for at in self.tables.rows[table].values():
                make(at)
        self.autos()
        files = {list_name: table for table, list_name in zip(COLUMNS, LISTS)}
        for list_name, words in self.case.too_many().items():
            file = next(iter(self.tables.rows[files[list_name]].values())).file
            self.findings.append(Finding(file, words))

    def add(self, list_name: str, name: str, fields: list[Field], at: Record) -> None:
        self.case.lists[list_name].append(Row(name, fields, at.text("note")))

    # Zones

    def zone(self, at: Record) -> None:
        made = zone_of_row(at, self.alpha, self.questions.ask, self.tables.models)
        if made is not None:
            self.network.scales[made.row.name] = made.scale
            self.case.lists["zone"].append(made.row)
            self.zone_inputs[made.row.name] = zone_inputs(made)

    def latitude(self, at: Record) -> None:
        """Asks where the latitude of a zone isn't the geomagnetic one of the stations that its lines join."""
        latitude = at.number_or_none("geomagnetic_latitude") if at.text("name") in self.network.scales else None
        stations = self.network.stations_of.get(at.text("name"), set())
        places = [self.network.places[name] for name in sorted(stations) if name in self.network.places]
        if latitude is None:
            return
        words = latitude_words(float(latitude), places)
        if words is not None:
            ways = "look up the geomagnetic one of the year"
            self.questions.ask(f"latitude:{at.text('name')}", at, "geomagnetic_latitude", words, ways)

    def autos(self) -> None:
        """Asks where the resistances of all autotransformers are as if changed over."""
        rows = [at for at in self.tables.rows[TRANSFORMERS].values() if at.text("kind") == "auto"]
        autos = []
        for at in rows:
            if all(at.text(column) for column in AUTO_COLUMNS):
                high, low, series, common = (at.number_or_none(column) for column in AUTO_COLUMNS)
                if high is not None and low is not None and series is not None and common is not None:
                    autos.append(Auto(at.text("name"), high, low, series, common))
        words = turned_words(autos)
        if words is not None:
            self.questions.ask("turned:autos", rows[0], "series_ohm", words, "change series_ohm and common_ohm over")

    # Substations and buses

    def place(self, at: Record) -> None:
        if not (at.text("latitude") or at.text("longitude")):
            self.network.unplaced.add(at.text("name"))
            self.notes.append(at.finding(f"{at.text('name')} has no coordinates: the spans of its lines are those of the table"))
            return
        latitude, longitude = number_in(at, "latitude", LATITUDE), number_in(at, "longitude", LONGITUDE)
        if latitude is not None and longitude is not None:
            self.network.places[at.text("name")] = (latitude, longitude)

    def substation(self, at: Record) -> None:
        """A substation; it comes behind the windings, which decide whether it has to have a ground."""
        name, fields = at.text("name"), list[Field]()
        highest = self.network.highest.get(name, Number(0))
        if at.text("ground_ohm"):
            ohm = number_in(at, "ground_ohm", GROUND_OHM)
            if ohm is not None:
                found = unusual(ohm, usual_at(GROUNDS, highest), f"grounds at {short(highest)} kV", highest)
                self.questions.ask_unusual(f"ground:{name}", at, "ground_ohm", found)
                fields.append(Field("ground", whole(ohm, OHM), f"{bare(at.text('ground_ohm'))} ohm to remote earth"))
        elif name in self.network.earthing:
            words = "it is empty, and a winding is earthed here, so that no current can flow in it to the earth"
            self.questions.ask(f"ground:{name}", at, "ground_ohm", words, "write its resistance")
        fields += self.tolerance(at)
        self.sources[name] = read_source(at)
        if name not in self.network.used:
            words, ways = "no bus is in it", "look at the column substation of the buses, or leave the row out"
            self.questions.ask(f"unused:{name}", at, None, words, ways)
        self.add("substation", name, fields, at)

    def tolerance(self, at: Record) -> list[Field]:
        """How far the ground may be off, where the table says it."""
        if not at.text("tolerance"):
            return []
        percent = number_in(at, "tolerance", TOLERANCE)
        if not at.text("ground_ohm"):
            at.wrong("tolerance", f"it is {bare(at.text('tolerance'))}, and there is no ground; leave one of the two out")
        elif percent is not None and percent % 1:
            ways = TOLERANCE.guess if percent < 1 else "round it up"
            at.wrong("tolerance", f"it is {bare(at.text('tolerance'))}, and a case has whole per cent; {ways}")
        return [] if percent is None else [Field("tolerance", int(percent), "per cent that the ground may be off")]

    def bus(self, at: Record) -> None:
        station = self.tables.refer(at, "substation", SUBSTATIONS)
        kilovolts = number_in(at, "kv", KILOVOLT)
        if kilovolts is not None:
            self.network.kilovolts[at.text("name")] = kilovolts
        if station is not None:
            name = station.text("name")
            self.network.used.add(name)
            self.network.highest[name] = max(self.network.highest.get(name, Number(0)), kilovolts or Number(0))
        fields = [Field("substation", at.text("substation"), f"{bare(at.text('kv'))} kV")]
        self.add("bus", at.text("name"), fields, at)

    def unused(self, at: Record) -> None:
        if at.text("name") not in self.network.used:
            words, ways = "no line and no transformer is at it", "look at their buses, or leave the row out"
            self.questions.ask(f"unused:{at.text('name')}", at, None, words, ways)

    # Lines and transformers

    def copies(self, at: Record) -> list[str]:
        """The names of the rows in the case for a row of a table: as many as it has equal ones side by side."""
        name, text = at.text("name"), at.text("parallel")
        if not text:
            return [name]
        if text not in PARALLEL:
            words = f"it is {bare(text)}, and not a whole number from 1 to {PARALLEL[-1]}"
            at.wrong("parallel", f"{words}; write how many equal ones the row stands for")
        if text not in PARALLEL[1:]:
            return [name]
        names = [f"{name}-{place}" for place in range(1, int(text) + 1)]
        odd = [made for made in names if made in self.names.taken or not NAME.fullmatch(made)]
        if odd:
            at.wrong("parallel", f"{shown(odd[0])} is taken, or longer than 32 letters; give the row another name")
        self.names.taken.update(names)
        return names

    def line(self, at: Record) -> None:
        names = self.copies(at)
        line = Line(at, names, self.tables, self.network, self.questions, rounding=self.rounding)
        self.sources |= dict.fromkeys(names, read_source(at))
        self.case.lists["line"] += line.rows()
        self.network.used.update(line.buses)
        for zone in line.zones:
            self.network.stations_of.setdefault(zone, set()).update(line.stations)

    def transformer(self, at: Record) -> None:
        names = self.copies(at)
        self.sources |= dict.fromkeys(names, read_source(at))
        for name in names:
            unit = Unit(at, name, self.tables, self.network.kilovolts, self.questions)
            rows = [with_remarks(row, remarks_of_unit(at, len(names))) for row in unit.rows()]
            self.case.lists["transformer"] += rows
            self.row_of |= {row.name: at for row in rows}
            self.network.used.update(unit.buses)
            self.network.earthing.update(unit.earthed)

    def sources_text(self) -> str:
        """The table of sources beside the case."""
        lists = {name: [row.name for row in self.case.lists[name]] for name in WITH_SOURCE}
        return sources_table(Sources(self.zone_inputs, self.sources), lists).csv()

    # Questions

    def seen_zone(self, at: Record) -> SeenZone:
        stations = sorted(self.network.stations_of.get(at.text("name"), set()))
        places = [self.network.places[name] for name in stations if name in self.network.places]
        numbers = [float(at.number(column)) for column in ("geomagnetic_latitude", "beta")]
        return SeenZone(at.text("name"), numbers[0], numbers[1], at.text("earth_model"), places)

    def doubts(self) -> list[Finding]:
        """What is asked about the network; none of it keeps the case from being made."""
        rows = self.tables.rows
        notes = {name: at.text("note") for table in rows.values() for name, at in table.items()}
        notes |= {row.name: row.note for row in self.case.lists["transformer"]}
        stations: dict[str, str] = {}
        for name, at in self.row_of.items():
            bus = rows[BUSES].get(at.text("high"))
            stations |= {} if bus is None else {name: bus.text("substation")}
        kilovolts = {name: float(number) for name, number in self.network.kilovolts.items()}
        zones = [self.seen_zone(at) for at in rows[ZONES].values()]
        seen = Seen(self.case, kilovolts, self.network.places, zones, notes, at_station=stations)
        return [self.asked(doubt) for doubt in doubts_of(seen)]

    def asked(self, doubt: Doubt) -> Finding:
        """A question as it is told: with its line where it is about one row."""
        table = {list_name: table for table, list_name in zip(COLUMNS, LISTS)}[doubt.list]
        named = [self.row_of.get(name) or self.tables.rows[table].get(name) for name in doubt.names]
        places = list(dict.fromkeys((at.file, at.line) for at in named if at is not None))
        return Finding(places[0][0], doubt.text, places[0][1] if len(places) == 1 else None)


def remarks_of_unit(at: Record, many: int) -> list[str]:
    """What else is said of a unit in the case, and answers a question: that it is one of several, and that its neutral isn't one."""
    letters = letters_of(at.text("vector_group")) or []
    remarks = [f"one of {many} equal ones side by side"] if many > 1 else []
    return [*remarks, *(["its neutral is not earthed"] if letters[:1] == ["Y"] and "A" in letters else [])]


def with_remarks(row: Row, remarks: list[str]) -> Row:
    return dataclasses.replace(row, note="; ".join(filter(None, (row.note, *remarks))))


@dataclasses.dataclass(frozen=True)
class Made:
    case: str
    sources: str
    notes: list[Finding]
    rounding: str


def in_order(tables: Tables, findings: list[Finding]) -> list[Finding]:
    """The findings in the order of the tables, and in each of its lines, each once."""
    files: dict[str, int] = {}
    for rows in tables.rows.values():
        for at in rows.values():
            files.setdefault(at.file, len(files))
    once = list(dict.fromkeys(findings))
    return sorted(once, key=lambda finding: (files.get(finding.file, len(files)), finding.line or 0))


def make_case(folder: str, choices: Choices) -> Made:
    """The case of the tables of a folder; all that is wrong with any of them is told at once."""
    check_accepted(choices.accepted)
    read_alpha(choices.alpha)
    tables = read_tables(folder)
    making = Making(tables, choices)
    making.make()
    if tables.findings:
        raise Refused(in_order(tables, tables.findings))
    notes = in_order(tables, [*making.notes, *making.doubts()])
    left = "it takes nothing away; leave it out"
    notes += [Finding(f"--accept={name}", left) for name in making.questions.left()]
    origin = "Made by gicdesk case: change the tables, and make it again."
    accepted = sorted(making.questions.taken)
    if accepted:
        origin += f" Accepted: {', '.join(accepted)}."
    text = short_enough(making.case.text(origin), folder, notes)
    return Made(text, making.sources_text(), notes, making.rounding.text)
