"""The map of a study's page."""

from . import pictures
from .counts import plural
from .decimals import MILLI, shifted
from .markup import Markup, tag
from .study import MUST, Study, UnitFacts
from .study_words import amperes, made, section, station_of

MOST_NAMED = 60  # stations of the map, where there are no more
MOST_NAMED_OF_MANY = 30

KEY = {
    "background:#b3261e": "a unit reaches the threshold",
    "background:#e08a00": "one may, as far as its interval tells",
    "border:2px solid #b3261e": "one does or may with something out",
    "background:#2e6b3f": "all that are judged are below",
    "background:#aab3be": "no unit that is judged",
}


def station_class(here: list[UnitFacts]) -> str:
    """How a station is drawn, by the worst of what its units have."""
    verdicts = [unit.benchmark.verdict for unit in here]
    for word in MUST:
        if word in verdicts:
            return word
    if any(unit.is_assessed for unit in here):
        return "outage"
    return "below" if "below" in verdicts else "none"


def map_stations(study: Study) -> list[pictures.Station]:
    units: dict[str, list[UnitFacts]] = {}
    for unit in study.units:
        units.setdefault(station_of(study, unit.name), []).append(unit)
    stations = []
    for name in study.places:
        here = units.get(name, [])
        judged = [unit.benchmark.worst.high for unit in here if unit.benchmark.verdict != "outside"]
        told = "; ".join(f"{unit.name} {amperes(unit.benchmark.worst)} A {unit.benchmark.verdict}" for unit in here)
        title = f"{name}: {told or 'no unit'}"
        stations.append(pictures.Station(name, station_class(here), max(judged, default=0), title))
    return stations


def map_flows(study: Study) -> dict[str, pictures.Flow]:
    """How much each line carries, by the middles of the intervals."""
    network, flows = study.network, study.flows
    if network is None or flows is None:
        return {}
    lines = flows.lines
    greatest = max((abs(value.middle) for value in lines.values()), default=0.0) or 1.0
    drawn = {}
    for link in network.links:
        value = lines.get(link.name)
        if value is not None:
            start, end = (link.start, link.end) if value.middle >= 0 else (link.end, link.start)
            words = f"{link.name}: {amperes(value).removeprefix('-')} A from {start} to {end}"
            drawn[link.name] = pictures.Flow(value.middle / greatest, words)
    return drawn


def flows_text(study: Study) -> str:
    """What the lines of the map show."""
    if study.flows is None:
        return ""
    field = study.flows.field
    greatest = max(study.flows.lines.items(), key=lambda line: abs(line[1].middle), default=None)
    most = "" if greatest is None else f" The greatest is {amperes(greatest[1]).removeprefix('-')} A, in {greatest[0]}."
    return (
        f" A line is as wide as its current goes in a field of {shifted(study.screen.field, MILLI)} V/km at "
        f"{study.flows.bearing}°, the first direction in which most units are at the threshold, and an arrow says which way, in a "
        f"field the other way the other one: of the three phases together, by the middles of field --north={field.north} "
        f"--east={field.east}, the report flows.{most}"
    )


def places_text(study: Study) -> str:
    """Where the places of the map come from."""
    laid = len(study.places) - study.placed
    if study.placed:
        words = f"{study.placed} places are those of the table"
        words += f", and {laid} come from the spans of the lines that lead to them." if laid else "."
    else:
        words = (
            "Places come from the spans of the lines: from the first substation on, each line leads to the next place. "
            "Where spans were scaled the map is out of scale as they are."
        )
    if study.parts:
        words += f" {plural(study.parts, 'part')} that no line joins with the others stand to the east of them."
    return words


def map_section(study: Study) -> Markup:
    network = study.network
    if network is None:
        words = "The case is in TOML 1.1, which the desk doesn't read: there is no map. No report depends on it."
        return section("map", tag("p", words))
    if not study.places:
        return section("map", tag("p", "No line leads from one substation to another: there is nothing to draw."))
    stations = map_stations(study)
    named = MOST_NAMED if len(stations) <= MOST_NAMED else MOST_NAMED_OF_MANY
    words = places_text(study)
    missing = len(network.stations) - len(study.places)
    if missing:
        words += f" {plural(missing, 'substation')} without a line to another aren't drawn."
    words += " The area of a disc goes with the greatest worst current of its units that are judged."
    if len(stations) > named:
        words += f" Of {len(stations)} stations the {named} with the greatest have their names, as far as there is room."
    words += flows_text(study)
    key = [tag("li", tag("i", style=style), meaning) for style, meaning in KEY.items()]
    drawn = pictures.network_map(study.places, network.links, stations, named, map_flows(study))
    return section("map", tag("ul", *key, class_="key"), tag("div", drawn, class_="scroll map"), made(words))
