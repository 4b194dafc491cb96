"""The inputs of the assessment on a study's page: the zones, where the resistances come from, and which verdicts rest on assumed
ones."""

import dataclasses
from collections import Counter
from collections.abc import Iterable, Iterator, Mapping

from .alpha import by_table
from .case_rows import case_of
from .cases import Case, Row
from .counts import plural
from .decimals import MILLI, shifted
from .markup import Markup, joined, table, tag
from .seen import buses_of, number_of
from .sources import ASSUMED, DEFAULT, ESTIMATED, MEASURED, Sources, decimal_text
from .study import MUST, Study, UnitFacts
from .study_words import ABSENT, amperes, made, names_whole, section, verdict

ZONE_HEADS = ("zone", "geomagnetic latitude", "alpha", "how alpha was made", "beta", "alpha times beta", "earth model")
COUNT_HEADS = ("resistances", MEASURED, ESTIMATED, DEFAULT, "not said")
REST_HEADS = ("unit", "verdict", "worst, A", "its windings", "ground of its station", "lines there", "grounds at their other ends")
WHATS = {"substation": "grounds", "line": "lines", "transformer": "windings of units"}
NOTE_GIVEN = (
    "Latitude, alpha, beta and earth model are those of the table of sources, as they were given; their product is what the case has "
    "in another form, with a factor on spans."
)
NOTE_CASE = (
    "No table of sources was given, so latitude and beta are those of the case, and alpha is that of the program's table at this "
    "latitude. A case that the desk has made with an alpha by the formula has another latitude and another beta: give its table by "
    "--sources. A scale is alpha times beta."
)
NOTE_REST = (
    "A verdict rests on the windings of its unit, the ground of its station, the lines that end there, and the grounds at their other "
    "ends; what lies further away moves it less. Estimated and default count as assumed. The counts are made of the table of sources "
    "and of the case."
)


@dataclasses.dataclass(frozen=True)
class Rest:
    """What a unit's verdict rests on: the sources of its windings and of the ground of its station, and how many of the lines there
    and of the grounds at their other ends are assumed."""

    windings: str
    ground: str
    lines: tuple[int, int]  # assumed, and all
    grounds: tuple[int, int]

    @property
    def is_assumed(self) -> bool:
        return self.windings in ASSUMED or self.ground in ASSUMED or self.lines[0] > 0 or self.grounds[0] > 0


@dataclasses.dataclass(frozen=True)
class Ends:
    """The stations of a case, with the lines that end at each and the stations at their other ends."""

    case: Case

    @property
    def station_of(self) -> dict[str, str]:
        return {row.name: str(row.value("substation")) for row in self.case.lists["bus"]}

    def lines_at(self) -> dict[str, list[tuple[str, str]]]:
        """Of each station its lines, each with the station at the other end."""
        station_of, found = self.station_of, dict[str, list[tuple[str, str]]]()
        for line in self.case.lists["line"]:
            start, end = (station_of[str(line.value(key))] for key in ("from", "to"))
            if start != end and line.value("blocked") is not True:
                found.setdefault(start, []).append((line.name, end))
                found.setdefault(end, []).append((line.name, start))
        return found


def assumed_of(sources: Sources, names: Iterable[str]) -> tuple[int, int]:
    every = list(names)
    return sum(map(sources.is_assumed, every)), len(every)


def rests_of(case: Case, sources: Sources) -> Iterator[tuple[str, Rest]]:
    """What the verdict of each unit with a bus rests on."""
    ends = Ends(case)
    station_of, lines_at = ends.station_of, ends.lines_at()
    grounded = {row.name for row in case.lists["substation"] if number_of(row, "ground")}
    for unit in case.lists["transformer"]:
        buses = buses_of(unit)
        if buses:
            station = station_of[buses[0][0]]
            lines = lines_at.get(station, [])
            others = dict.fromkeys(other for _, other in lines if other in grounded)
            ground = sources.of(station) if station in grounded else ""
            yield unit.name, Rest(
                sources.of(unit.name), ground, assumed_of(sources, [name for name, _ in lines]), assumed_of(sources, others)
            )


def study_case(study: Study) -> Case | None:
    """The rows of the case; None where Python doesn't read it."""
    given = next((one for one in study.inputs if one.role == "case"), None)
    return None if study.network is None or given is None else case_of(given.name, given.data)


def rests_in(study: Study) -> dict[str, Rest]:
    case = study_case(study)
    return {} if case is None or study.sources is None else dict(rests_of(case, study.sources))


def zone_cells(zone: Row) -> list[str]:
    """A zone as the case has it."""
    scale = number_of(zone, "scale")
    if scale:
        return [zone.name, ABSENT, ABSENT, "one scale in the case", ABSENT, shifted(scale, MILLI), ABSENT]
    latitude, beta = number_of(zone, "latitude"), number_of(zone, "beta")
    alpha = by_table(latitude)
    product = decimal_text(alpha * beta / 100)
    return [zone.name, f"{latitude / 100:.2f}°", decimal_text(alpha), "by the program's table", f"{beta / 100:.2f}", product, ABSENT]


def given_cells(name: str, sources: Sources) -> list[str]:
    """A zone as the table of sources has it."""
    zone = sources.zones[name]
    product = f"{float(zone.alpha) * float(zone.beta):.6f}".rstrip("0").rstrip(".")
    return [name, f"{zone.latitude}°", zone.alpha, zone.alpha_made, zone.beta, product, zone.model or ABSENT]


def zones_table(case: Case, sources: Sources | None) -> Markup:
    rows = [
        zone_cells(zone) if sources is None or zone.name not in sources.zones else given_cells(zone.name, sources)
        for zone in case.lists["zone"]
    ]
    return table(ZONE_HEADS, rows, ("name", "n", "n", "one", "n", "n", "one"))


def counted_rows(case: Case, list_name: str) -> list[str]:
    """The rows of a list whose resistances have a source."""
    rows = case.lists[list_name]
    if list_name == "substation":
        return [row.name for row in rows if number_of(row, "ground")]
    if list_name == "line":
        return [row.name for row in rows if row.value("blocked") is not True]
    return [row.name for row in rows if buses_of(row)]


def counts_table(case: Case, sources: Sources) -> Markup:
    rows = []
    for list_name, what in WHATS.items():
        many = Counter(sources.of(name) for name in counted_rows(case, list_name))
        rows.append((what, *(str(many[word]) for word in (MEASURED, ESTIMATED, DEFAULT, ""))))
    return table(COUNT_HEADS, rows, ("name", *["n"] * 4))


def rest_words(study: Study, rests: Mapping[str, Rest]) -> Markup:
    """How many verdicts rest on assumed numbers."""
    judged = [unit for unit in study.applicable if unit.name in rests]
    assumed = [unit for unit in judged if rests[unit.name].is_assumed]
    at = [unit for unit in assumed if unit.benchmark.verdict in MUST]
    below = [unit.name for unit in assumed if unit.benchmark.verdict not in MUST]
    words = f"The verdicts of {len(assumed)} of {plural(len(judged), 'applicable unit')} rest on assumed resistances"
    words += f": {len(at)} at the threshold or perhaps, and {len(below)} below"
    return joined((words, *((" (", names_whole(below), ")") if below else ()), "."))


def part_text(part: tuple[int, int]) -> str:
    if not part[1]:
        return ABSENT
    return f"{part[0]} of {part[1]} assumed" if part[0] else f"{part[1]}, none assumed"


def rest_cells(unit: UnitFacts, rest: Rest) -> list[str]:
    cells = [unit.name, verdict(unit.benchmark.verdict), amperes(unit.benchmark.worst)]
    return [*cells, rest.windings or "not said", rest.ground or "not said", part_text(rest.lines), part_text(rest.grounds)]


def source_pieces(study: Study, case: Case, sources: Sources) -> list[Markup]:
    """The counts of sources, and the verdicts that rest on assumed ones."""
    if not sources.of_rows:
        return [tag("p", "The table of sources says of no resistance whether it was measured or assumed.")]
    rests = rests_in(study)
    rows = [rest_cells(unit, rests[unit.name]) for unit in study.applicable if unit.name in rests and rests[unit.name].is_assumed]
    pieces = [tag("h3", "Where the resistances come from"), counts_table(case, sources), tag("p", rest_words(study, rests))]
    if rows:
        pieces.append(table(REST_HEADS, rows, ("name", "", "n", "one", "one", "one", "one"), class_="keeps"))
    return [*pieces, made(NOTE_REST)]


def inputs_section(study: Study) -> Markup:
    case, sources = study_case(study), study.sources
    if case is None:
        return section("inputs", tag("p", "The case is in TOML 1.1, which Python doesn't read, so none of its inputs is shown."))
    note = made(NOTE_CASE if sources is None else NOTE_GIVEN)
    pieces = [tag("h3", "Zones"), zones_table(case, sources), note]
    if sources is None:
        pieces.append(tag("p", "No table of sources was given, so which resistances were measured or assumed isn't known."))
        return section("inputs", *pieces)
    return section("inputs", *pieces, *source_pieces(study, case, sources))
