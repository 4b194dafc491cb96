"""The network of a study as the questions of the desk look at it."""

from collections.abc import Iterator, Mapping

from .case_rows import case_of
from .cases import Case
from .inputs import Input
from .network import Degrees
from .places import Place
from .quantities import Number
from .seen import Seen, SeenZone, kilovolts_of, remarks_of
from .sources import Sources


def places_of(degrees: Mapping[str, Degrees]) -> dict[str, Place]:
    return {name: (Number(str(place[0])), Number(str(place[1]))) for name, place in degrees.items()}


def seen_zones(case: Case, places: Mapping[str, Place], sources: Sources) -> Iterator[SeenZone]:
    """The zones by the table of sources: a case has another latitude and another beta where alpha isn't the program's own."""
    station_of = {row.name: str(row.value("substation")) for row in case.lists["bus"]}
    for name, zone in sources.zones.items():
        lines = [row for row in case.lists["line"] if row.value("zone") == name]
        stations = {station_of[str(row.value(end))] for row in lines for end in ("from", "to")}
        there = [places[station] for station in sorted(stations) if station in places]
        yield SeenZone(name, float(zone.latitude), float(zone.beta), zone.model, there)


def seen_case(given: Input, degrees: Mapping[str, Degrees], sources: Sources | None) -> Seen:
    """The network of a case that the program has taken."""
    case, places = case_of(given.name, given.data), places_of(degrees)
    zones = [] if sources is None else list(seen_zones(case, places, sources))
    return Seen(case, kilovolts_of(case), places, zones, remarks_of(given.data), is_made=False)
