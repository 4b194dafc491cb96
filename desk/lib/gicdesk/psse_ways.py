"""Where the branches of a power flow lie: their spans, and their zones by tables and polygons."""

from collections.abc import Iterable, Sequence

from .borders import Stretch
from .decimals import MILLI, shifted
from .findings import Finding
from .latitudes import latitude_words
from .parts import Piece, Span, crossed_zones, pieces_of, pieces_text, way_fault
from .places import MOST_KM, SPAN_FROM_MAP_M, Place, exact_metres, span_metres
from .polygons import zone_of
from .psse_gic import Gic
from .psse_raw import Branch, title
from .records import Record
from .zones import Override, Zones


class Ways:
    """The places of substations and the zones, with what is told of both."""

    def __init__(self, gic: Gic, zones: Zones, notes: list[Finding]) -> None:
        self.gic, self.zones, self.notes = gic, zones, notes
        self.substation_zones: dict[int, str] = {}
        self.stations_of: dict[str, set[int]] = {}  # of zones, those that its whole lines join

    def tell(self, at: Record, words: str, column: str | None = None) -> None:
        self.notes.append(at.finding(words, column))

    def stations(self, branch: Branch) -> list[int]:
        return [self.gic.substation_of[bus] for bus in branch.ends]

    def mapped(self, branch: Branch) -> tuple[int, int] | None:
        """The span of a branch by the coordinates of its substations; None where one of them has none."""
        ends = [self.gic.substations[number] for number in self.stations(branch)]
        if ends[0] is ends[1]:
            return 0, 0
        if ends[0].place is None or ends[1].place is None:
            return None
        mapped = span_metres(ends[0].place, ends[1].place)
        for direction, metres in zip(("north", "east"), mapped):
            if abs(metres) > MOST_KM * 1000:
                apart = shifted(abs(metres), MILLI)
                words = f"its ends lie {apart} km apart to the {direction}, and not up to {MOST_KM}"
                branch.record.wrong(None, f"{words}; look at the coordinates of {ends[0].name} and {ends[1].name}")
        return mapped

    def span(self, branch: Branch, override: Override | None) -> tuple[int, int]:
        """The span of a line: what the table of lines gives, or else that of the coordinates of its substations."""
        mapped = self.mapped(branch)
        if override is None or override.span is None:
            if mapped is None:
                ends = [self.gic.substations[number] for number in self.stations(branch)]
                name = next(end.name or str(end.number) for end in ends if end.place is None)
                ways = "write these, or its span into the table of --lines"
                branch.record.wrong(None, f"it has no span, since the substation {name} has no coordinates; {ways}")
            return mapped or (0, 0)
        sign = 1 if override.buses == branch.ends else -1
        given = (sign * override.span[0], sign * override.span[1])
        for column, here, there in zip(("north_km", "east_km"), given, mapped or given):
            if abs(here - there) > SPAN_FROM_MAP_M:
                words = f"it is {sign * here / 1000:g}, by the coordinates {sign * there / 1000:g}; is its sign turned?"
                override.record.wrong(column, words)
        return given

    def exact_span(self, branch: Branch, override: Override | None, span: Span) -> tuple[float, float]:
        """A span of coordinates in metres without the rounding to whole ones; one of the table of lines is as it stands there."""
        ends = [self.gic.substations[number].place for number in self.stations(branch)]
        if (override is not None and override.span is not None) or ends[0] is None or ends[1] is None:
            return span
        return exact_metres(ends[0], ends[1])

    def way(self, branch: Branch) -> list[Stretch]:
        """The straight way between the ends of a branch, by the polygons; nothing where there are none, or no places."""
        places = [self.gic.substations[number].place for number in self.stations(branch)]
        if self.zones.borders is None or places[0] is None or places[1] is None:
            return []
        return self.zones.borders.stretches(places[0], places[1])

    def pieces(self, branch: Branch, override: Override | None, span: Span) -> list[Piece]:
        """The pieces of a line; the stations of one that is whole are kept with its zone."""
        pieces = self.pieces_by_zones(branch, override, span)
        if len(pieces) == 1:  # (one over a border says nothing of the latitude of a zone)
            self.stations_of.setdefault(pieces[0].zone, set()).update(self.stations(branch))
        return pieces

    def pieces_by_zones(self, branch: Branch, override: Override | None, span: Span) -> list[Piece]:
        """A line as it is in the case: whole in the zone of the table of lines, or in the only one, or in that of both its
        substations; and in parts, where by the polygons it crosses borders. None where that isn't known, a finding."""
        way = [] if branch.reactance < 0 else self.way(branch)
        if override is not None and override.zone:
            self.tell_of_borders(override, way, span)
            return [Piece(override.zone)]
        if len(self.zones.zones) == 1:
            return [Piece(self.zones.zones[0].row.name)]
        zones = [self.zone_of_substation(self.gic.substation_of[bus]) for bus in branch.ends]
        if not all(zones):
            return []
        crosses = len(crossed_zones(way)) > 1 or way_fault(way) is not None
        if crosses and len(way[0].zones) + len(way[-1].zones) > 2:
            return []  # (it is a finding at the station that lies in several)
        if crosses and zones[0] in way[0].zones and zones[1] in way[-1].zones:
            return self.in_parts(branch, way, span)
        if zones[0] != zones[1] and (branch.reactance >= 0 or self.zones.borders is None):
            words = f"its ends are in {zones[0]} and in {zones[1]}; give --polygons, which cut it at the border"
            branch.record.wrong(None, f"{words}, or write its zone into the table of --lines")
            return []
        if crosses:
            crossed = " and ".join(sorted(crossed_zones(way)))
            words = f"it is in {zones[0]} by the table of --substations, and by the polygons in {crossed}"
            self.tell(branch.record, f"{words}; look at both")
        return [Piece(zones[0])]

    def tell_of_borders(self, override: Override, way: Sequence[Stretch], span: Span) -> None:
        """Tells of a line that the table of lines has in one zone, and that by the polygons lies in others too."""
        zone, crossed = override.zone, crossed_zones(way)
        words = f"it is {zone}, and by the polygons the line lies in"
        if crossed and zone not in crossed:
            self.tell(override.record, f"{words} {' and '.join(sorted(crossed))}; leave the cell empty", "zone")
        elif len(crossed) > 1:
            parts = pieces_text(pieces_of([stretch for stretch in way if stretch.zones]), span)
            self.tell(override.record, f"{words} several: {parts}; leave the cell empty for parts", "zone")

    def in_parts(self, branch: Branch, way: Sequence[Stretch], span: Span) -> list[Piece]:
        fault = way_fault(way)
        if fault is not None:
            branch.record.wrong(None, f"{fault}; mend the polygons, or write its zone into the table of --lines")
            return []
        pieces = pieces_of(way)
        words = f"the branch {title(branch.ends, branch.circuit)} crosses borders: {pieces_text(pieces, span)}"
        self.tell(branch.record, f"{words}; it has {len(pieces)} parts")
        return pieces

    def zone_of_substation(self, number: int) -> str:
        """The zone of a substation: that of the table, or that of the polygons; empty where it has none, told once."""
        if number not in self.substation_zones:
            substation = self.gic.substations[number]
            row = self.zones.of_substations.get(number)
            zone = "" if row is None else row.text("zone")
            if row is None and self.zones.borders is not None and substation.place is not None:
                zone = zone_of(substation.record, substation.place, self.zones.borders.polygons)
            elif row is None:
                words = f"the substation {number} has no zone; write it into the table of --substations"
                ways = "or give --polygons" if self.zones.borders is None else "or its coordinates"
                substation.record.wrong(None, f"{words}, {ways}")
            self.substation_zones[number] = zone
        return self.substation_zones[number]

    def zone_within(self, substation: int) -> str:
        """The zone of a line within one substation; empty where it isn't known, a finding."""
        if len(self.zones.zones) == 1:
            return self.zones.zones[0].row.name
        return self.zone_of_substation(substation)

    def latitudes(self) -> None:
        """Tells of a zone whose latitude isn't the geomagnetic one of the stations that its lines join."""
        for zone in self.zones.zones:
            at = zone.at
            stations = [self.gic.substations[number] for number in sorted(self.stations_of.get(zone.row.name, set()))]
            places = [station.place for station in stations if station.place is not None]
            words = latitude_words(float(at.number("geomagnetic_latitude")), places)
            if words is not None:
                self.tell(at, f"{words}; look up the geomagnetic one of the year", "geomagnetic_latitude")

    def places_of(self, substations: Iterable[int]) -> dict[int, Place]:
        """The places of these substations, as far as they have any."""
        found = {number: self.gic.substations[number].place for number in substations}
        return {number: place for number, place in found.items() if place is not None}
