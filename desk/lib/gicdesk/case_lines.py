"""A row of the table of lines: what it is in a case."""

import dataclasses
import math
from collections.abc import Sequence
from fractions import Fraction

from .alpha import NO_SCALE, Scale
from .borders import Stretch
from .case_tables import BUSES, ZONES, Questions, Tables
from .cases import Field, Row
from .decimals import MICRO, MILLI, shifted
from .findings import shown
from .parts import Piece, Span, crossed_zones, fields_of, pieces_of, pieces_text, too_long, way_fault
from .places import MOST_KM, SHORT_M, SPAN_FROM_MAP_M, Place, exact_metres, span_metres
from .quantities import KILOMETRE, OHM, PER_UNIT, Number, bare, number_in, whole
from .records import Record
from .rounding import Rounding, meant, written
from .usual import BASE_MVA, short, unusual_line

CAPACITOR = "yes"


@dataclasses.dataclass
class Network:
    """What is known of the tables' rows by their names."""

    scales: dict[str, Scale] = dataclasses.field(default_factory=dict)  # of zones
    places: dict[str, Place] = dataclasses.field(default_factory=dict)  # of substations
    unplaced: set[str] = dataclasses.field(default_factory=set)  # substations without coordinates
    kilovolts: dict[str, Number] = dataclasses.field(default_factory=dict)  # of buses
    highest: dict[str, Number] = dataclasses.field(default_factory=dict)  # of substations, the kilovolts of their buses
    stations_of: dict[str, set[str]] = dataclasses.field(default_factory=dict)  # of zones, those that its lines join
    used: set[str] = dataclasses.field(default_factory=set)  # buses with a line or a unit, and substations with a bus
    earthing: set[str] = dataclasses.field(default_factory=set)  # substations where a winding is earthed


@dataclasses.dataclass
class Line:
    """A line on its way into a case, under one name or several; what is wrong with its row becomes a finding."""

    at: Record
    names: Sequence[str]
    tables: Tables
    network: Network
    questions: Questions
    exact: tuple[float, float] = (0.0, 0.0)  # the span in metres without rounding
    rounding: Rounding = dataclasses.field(default_factory=Rounding)
    buses: set[str] = dataclasses.field(default_factory=set)
    zones: set[str] = dataclasses.field(default_factory=set)
    stations: set[str] = dataclasses.field(default_factory=set)

    def rows(self) -> list[Row]:
        """Its rows in the case, one for each name."""
        ends = [self.tables.refer(self.at, column, BUSES) for column in ("from", "to")]
        self.buses.update(end.text("name") for end in ends if end is not None)
        kilovolts = self.same_kilovolts()
        ohm = self.ohm(kilovolts)
        capacitor = self.at.text("capacitor")
        if capacitor not in ("", CAPACITOR):
            self.at.wrong("capacitor", f"{shown(capacitor)} is neither yes nor empty; write one of these")
        stations = [end.text("substation") for end in ends if end is not None]
        places = [self.network.places[station] for station in stations if station in self.network.places]
        unplaced = [station for station in stations if station in self.network.unplaced]
        if len(places) + len(unplaced) < 2:
            self.zone_cell()
            return []
        if unplaced:
            places = []
        span = self.span(places)
        pieces = self.pieces(places, span)
        if len(pieces) == 1:  # (one over a border says nothing of the latitude of a zone)
            self.zones.add(pieces[0].zone)
            self.stations.update(stations)
        if span is None or ohm is None or not pieces:
            return []
        if kilovolts is not None and stations[0] != stations[1]:
            self.ask_usual(ohm, kilovolts, span)
        rows = [Row(name, self.fields(pieces, ohm, span), self.at.text("note")) for name in self.names]
        if not self.at.text("capacitor"):
            for row in rows:
                self.rounding.add(row.name, meant(pieces, self.exact, self.scale), written(row, self.scale))
        return rows

    def ohm(self, kilovolts: Number | None) -> Number | None:
        """The resistance of a phase, written in ohm or per unit; None where it isn't one, which is a finding."""
        text = self.at.text("per_unit")
        if not text:
            return number_in(self.at, "ohm", OHM)
        if self.at.text("ohm"):
            words = f"it is {bare(text)}, and ohm is {bare(self.at.text('ohm'))}; leave one of the two empty"
            self.at.wrong("per_unit", words)
            return None
        per_unit = number_in(self.at, "per_unit", PER_UNIT)
        if per_unit is None or kilovolts is None:
            return None
        ohm = per_unit * kilovolts**2 / BASE_MVA
        if not Number(OHM.least) <= ohm <= Number(OHM.most):
            base = f"on {BASE_MVA} MVA at {short(kilovolts)} kV"
            words = f"it is {bare(text)}, which {base} is {short(ohm)} ohm, and not {OHM.least} to {OHM.most}"
            self.at.wrong("per_unit", f"{words}; is it in ohm, or on another base?")
            return None
        return ohm

    def same_kilovolts(self) -> Number | None:
        """The voltage of both buses in kV; None where it isn't one, which is a finding, or isn't known."""
        start, end = self.at.text("from"), self.at.text("to")
        if start == end and start:
            self.at.wrong("to", f"it is {shown(end)}, as from is; write the bus at the other end")
            return None
        first, second = self.network.kilovolts.get(start), self.network.kilovolts.get(end)
        if first is None or second is None:
            return None
        if first != second:
            joined = f"a bus of {short(first)} kV to one of {short(second)} kV"
            self.at.wrong("to", f"the line joins {joined}; write another bus, or mend kv in {BUSES}.csv")
            return None
        return first

    def span(self, places: Sequence[Place]) -> Span | None:
        """The span of a line: what the table gives, or else that of the coordinates of its ends, where both have some."""
        mapped = span_metres(places[0], places[1]) if places else None
        given = [column for column in ("north_km", "east_km") if self.at.text(column)]
        if not given and mapped is None:
            words = "it is empty, and an end of the line lies at a substation without coordinates"
            self.at.wrong("north_km", f"{words}; write the span, or the coordinates")
            return None
        if not given:
            self.exact = exact_metres(places[0], places[1]) if places else self.exact
            return None if mapped is None else self.span_of_map(mapped)
        if len(given) == 1:
            column = "east_km" if given == ["north_km"] else "north_km"
            self.at.wrong(column, "it is empty, and the other part of the span is given; write both or neither")
            return None
        north, east = (number_in(self.at, column, KILOMETRE) for column in given)
        if north is None or east is None:
            return None
        span = whole(north, KILOMETRE), whole(east, KILOMETRE)
        self.exact = 1000 * float(north), 1000 * float(east)
        for column, here, there in zip(("north_km", "east_km"), span, mapped or span):
            if abs(here - there) > SPAN_FROM_MAP_M:
                words = f"it is {here / 1000:g}, and by the coordinates {there / 1000:g}"
                self.questions.ask_of_row("span", self.at, column, words, "look at its sign, and at from and to")
        return span

    def span_of_map(self, mapped: Span) -> Span | None:
        for direction, metres in zip(("north", "east"), mapped):
            if abs(metres) > MOST_KM * 1000:
                words = f"its ends lie {shifted(abs(metres), MILLI)} km apart to the {direction}, and not up to {MOST_KM}"
                self.at.wrong(None, f"{words}; look at the signs and the coordinates of both substations")
                return None
        return mapped

    def ask_usual(self, ohm: Number, kilovolts: Number, span: Span) -> None:
        """Asks about ends at one place, and about ohm per km."""
        if abs(span[0]) + abs(span[1]) < SHORT_M:
            ways = "look at the coordinates of both substations"
            self.questions.ask_of_row("span", self.at, None, f"its ends lie less than {SHORT_M} m apart", ways)
            return
        found = unusual_line(ohm, math.hypot(*span), kilovolts)
        column = "per_unit" if self.at.text("per_unit") else "ohm"
        if found is not None and column == "per_unit":
            found = found[0], f", or change it to {BASE_MVA} MVA"
        self.questions.ask_unusual(f"line:{self.at.text('name')}", self.at, column, found)

    def zone_cell(self) -> str:
        """The zone that the row names; empty where it names none of the table."""
        if not self.at.text("zone"):
            return ""
        row = self.tables.refer(self.at, "zone", ZONES)
        return "" if row is None else row.text("name")

    def pieces(self, places: Sequence[Place], span: Span | None) -> list[Piece]:
        """The line as it is in the case: whole in the zone that is written, or in the only one, or in the one that
        its way lies in; and else in parts, by the borders of the zones."""
        zones = list(self.tables.rows[ZONES])
        borders = self.tables.borders
        way = [] if borders is None or not places else borders.stretches(places[0], places[1])
        if self.at.text("zone"):
            return self.written(way, span)
        if len(zones) == 1:
            return [Piece(zones[0])]
        if not way:
            allowed = f"write one of {', '.join(zones[:9])}" + ("" if borders is not None else ", or add a table polygons.csv")
            self.at.wrong("zone", f"it is empty; {allowed}")
            return []
        way = way[:1] if self.at.text("capacitor") else way
        fault = way_fault(way)
        if fault is not None:
            self.at.wrong("zone", f"it is empty, and {fault}; mend the polygons, or write its zone")
            return []
        if len(way) == 1:
            return [Piece(way[0].zones[0])]
        return self.in_parts(way, span)

    def written(self, way: Sequence[Stretch], span: Span | None) -> list[Piece]:
        """The line in the zone of its cell, through which its way goes where there are polygons."""
        zone = self.zone_cell()
        crossed = crossed_zones(way)
        if zone and crossed and zone not in crossed:
            words = f"it is {zone}, and by the polygons the line lies in {' and '.join(sorted(crossed))}"
            self.questions.ask_of_row("zone", self.at, "zone", words, "write its zone, or leave the cell empty")
        elif zone and len(crossed) > 1 and not self.at.text("capacitor"):
            parts = pieces_text(pieces_of([stretch for stretch in way if stretch.zones]), span)
            words = f"it is {zone}, and by the polygons the line crosses borders: {parts}; all of it is in {zone} here"
            self.questions.notes.append(self.at.finding(f"{words}: leave the cell empty for parts", "zone"))
        return [Piece(zone)] if zone else []

    def in_parts(self, way: Sequence[Stretch], span: Span | None) -> list[Piece]:
        pieces = pieces_of(way)
        parts = pieces_text(pieces, span)
        words = f"it is empty, and the line crosses borders: {parts}; it has {len(pieces)} parts"
        self.questions.notes.append(self.at.finding(words, "zone"))
        return pieces

    def fields(self, pieces: Sequence[Piece], ohm: Number, span: Span) -> list[Field]:
        """What it says in the case. A span is shared out by length among parts, and adds up."""
        micro_ohm = whole(ohm, OHM)
        resistance = f"{bare(self.at.text('ohm'))} ohm per phase"
        if self.at.text("per_unit"):
            resistance = f"{shifted(micro_ohm, MICRO)} ohm per phase, from {bare(self.at.text('per_unit'))} per unit"
        fields = [Field("from", self.at.text("from")), Field("to", self.at.text("to"))]
        fault = too_long(pieces, span, self.factor, MOST_KM)
        if fault is not None:
            self.at.wrong(None, fault)
        fields += fields_of(pieces, Field("resistance", micro_ohm, resistance), span, self.factor)
        if self.at.text("capacitor"):
            fields.append(Field("blocked", True, "a series capacitor passes no direct current"))
        return fields

    def scale(self, zone: str) -> Scale:
        return self.network.scales.get(zone, NO_SCALE)

    def factor(self, zone: str) -> Fraction:
        return self.scale(zone).factor
