"""The units of a study's page: their table, and their currents by the direction of the field."""

from collections import Counter
from collections.abc import Sequence

from . import pictures, study_marks
from .decimals import MILLI, shifted
from .directions import STEP, direction_counts
from .markup import Markup, table, tag
from .outages import Worst
from .reports import VERDICTS, Unit
from .study import BY_EVENT, Study, UnitFacts
from .study_marks import mark_cell
from .study_words import ABSENT, amperes, made, peak_of, section, station_of, threshold_of, verdict

MOST_ROSES = 48
MOST_BEARINGS = 6  # in a sentence

# Heads with the classes of their columns.
UNIT_HEADS = {
    "unit": "name",
    "verdict": "",
    "worst, A": "n",
    "bearing, either way": "n",
    "north, A": "n",
    "east, A": "n",
}
SUPPLEMENTAL_HEADS = {"supple\N{SOFT HYPHEN}mental, A": "n", "verdict": ""}
OUTAGE_HEADS = {"worst outage": "e", "with it, A": "n", "verdict": ""}
EVENT_HEADS = {"worst event": "e", "in it, A": "n", "verdict": ""}
STORM_HEADS = {"storm, A": "n", "seconds": "n"}
PLACE_HEADS = {"station": "", "kV": "n"}

NOTE = (
    "The currents are effective ones in amperes a phase. Of each interval the end that is further from 0 is shown, as it "
    "was printed; both ends stand in units.csv. North and east are the currents in the event's field to the north and to "
    "the east, worst the greatest over all directions. The bearing of that, in whole degrees from the north over the "
    "east, is made of the middles of these two; of the two ways the lesser is shown, and a field the other way gives as much. The worst outage is the single item "
    "without which the screen has the greatest high end for the unit; others, where the intervals don't tell which is "
    "worse, are named or counted behind it, and the current with it is the greatest of all outages as outage printed it. "
    "Stations and kV, those of the high side, are the case's."
)
EVENT_NOTE = " The worst event is the one of the list with the greatest high end."
STORM_NOTE = (
    " Storm is the greatest current over it, and seconds how long a current is {threshold} A or more whatever its sign, "
    "each step counted up to the next one, and the last one for nothing, so 0 may stand beside a current above it: by "
    "the series of a unit, and 0 where study says below. Where two numbers stand it is surely the first and at most the "
    "second."
)
REACTOR_NOTE = (
    " A shunt reactor has no current of a unit. Its row shows – and the greatest current of its winding, of the three phases together "
    "(a third of that is the current of a phase). The desk makes it of the currents in the event's field to the north and to the east."
)
ROSE_NOTE = (
    "All roses have one scale: the outer circle is {scale} A, and the dashed one {threshold} A. How far a curve is from "
    "the middle is the current in a field of that bearing, the worst current times the cosine of the angle to the worst "
    "bearing."
)


def kilovolts(study: Study, name: str) -> str:
    return ABSENT if study.network is None else f"{study.network.volts[name] / 1000:g}"


def bearing_text(unit: UnitFacts) -> str:
    return ABSENT if unit.bearing is None else f"{unit.bearing}°"


def outage_cells(unit: Unit, worst: Worst | None) -> list[str]:
    """The worst outage of a unit, and which others may be as bad; the current and the verdict."""
    name = ABSENT
    if worst is not None:
        many = len(worst.perhaps)
        others = f" (or {worst.perhaps[0] if many == 1 else f'{many} others'})" if many else ""
        name = worst.event + others
    return [name, amperes(unit.value), verdict(unit.verdict)]


def event_cells(worst: Worst | None) -> list[str]:
    if worst is None:
        return [ABSENT] * 3
    return [worst.event or ABSENT, amperes(worst.unit.worst), verdict(worst.unit.verdict)]


def storm_cells(unit: UnitFacts) -> list[str]:
    above = "0" if unit.peak is not None and unit.peak.verdict == "below" else ABSENT
    return [amperes(peak_of(unit)), above if unit.seconds is None else str(unit.seconds)]


def unit_cells(study: Study, unit: UnitFacts) -> list[str]:
    row = unit.benchmark
    if unit.name in study.reactors:
        return reactor_cells(study, unit)
    return [
        unit.name,
        verdict(row.verdict),
        amperes(row.worst),
        bearing_text(unit),
        amperes(row.north),
        amperes(row.east),
        amperes(unit.supplemental.worst),
        verdict(unit.supplemental.verdict),
        *outage_cells(unit.outage, unit.worst_outage),
        *(event_cells(unit.worst_event) if study.events is not None else []),
        *(storm_cells(unit) if study.has_storm_report else []),
        station_of(study, unit.name),
        kilovolts(study, unit.name),
        mark_cell(unit.name, study.marks),
    ]


def reactor_cells(study: Study, unit: UnitFacts) -> list[str]:
    """Of a reactor the greatest current of its winding, in place of one of a unit, which it has none of."""
    winding = study.reactors.worst[unit.name]
    worst = ABSENT if winding is None else f"{ABSENT} (winding {amperes(winding)})"
    many = len(OUTAGE_HEADS) + (len(EVENT_HEADS) if study.events is not None else 0)
    many += len(STORM_HEADS) if study.has_storm_report else 0
    cells = [unit.name, verdict(unit.benchmark.verdict), worst, *[ABSENT] * 3, *[ABSENT] * len(SUPPLEMENTAL_HEADS), *[ABSENT] * many]
    return [*cells, station_of(study, unit.name), kilovolts(study, unit.name), mark_cell(unit.name, study.marks)]


def units_section(study: Study) -> Markup:
    heads = [*UNIT_HEADS.items(), *SUPPLEMENTAL_HEADS.items(), *OUTAGE_HEADS.items()]
    note = NOTE
    if study.events is not None:
        heads += EVENT_HEADS.items()
        note += EVENT_NOTE
    if study.has_storm_report:
        heads += STORM_HEADS.items()
        note += STORM_NOTE.format(threshold=threshold_of(study))
    heads += [*PLACE_HEADS.items(), *study_marks.HEAD.items()]
    note += REACTOR_NOTE if study.reactors.worst else ""
    note += study_marks.NOTE if study.marks else ""
    counts = Counter(unit.benchmark.verdict for unit in study.units)
    words = ", ".join(f"{counts[word]} {word}" for word in VERDICTS)

    def listed(units: Sequence[UnitFacts]) -> Markup:
        rows = [unit_cells(study, unit) for unit in units]
        return table([head for head, _ in heads], rows, [class_ for _, class_ in heads], class_="units keeps")

    others = [unit for unit in study.units if not unit.is_applicable]
    pieces = [tag("h3", f"Units that the standard applies to: {len(study.applicable)}"), listed(study.applicable)]
    if others:
        pieces += [tag("h3", f"Other units, outside of the assessment: {len(others)}"), listed(others)]
    lead = tag("p", f"In the benchmark event: {words}. The greatest worst current stands first.")
    return section("units", lead, *pieces, made(note), class_="wide")


def counts_text(study: Study, counts: list[int]) -> str:
    most = max(counts)
    field, threshold = shifted(study.screen.field, MILLI), threshold_of(study)
    if most == 0:
        return f"In none of these directions has a unit {threshold} A or more for certain."
    at = [f"{place * STEP}°" for place, many in enumerate(counts) if many == most]
    more = " and others" if len(at) > MOST_BEARINGS else ""
    return (
        f"Units with {threshold} A or more in a field of {field} V/km, by its bearing. Most at once are {most}, at "
        f"{', '.join(at[:MOST_BEARINGS])}{more}; the fewest are {min(counts)}."
    )


def rose_figure(study: Study, unit: UnitFacts, scale: int) -> Markup:
    row = unit.benchmark
    words = f"{amperes(row.worst)} A, {bearing_text(unit)}"
    title = f"{unit.name}: {words}, {row.verdict}"
    picture = pictures.rose(unit.bearing, row.worst.high, study.screen.threshold, scale, row.verdict, title)
    return tag("figure", picture, tag("figcaption", tag("b", unit.name), tag("br"), words))


def roses(study: Study) -> list[Markup]:
    """A rose of each unit that is assessed, those that reach the threshold in the network as it stands first."""
    drawn = sorted(study.assessed, key=lambda unit: unit.assessed != BY_EVENT)[:MOST_ROSES]
    if not drawn:
        return []
    scale = max(study.screen.threshold, *(unit.benchmark.worst.high for unit in drawn))
    note = ROSE_NOTE.format(scale=shifted(scale, MILLI), threshold=threshold_of(study))
    left = len(study.assessed) - len(drawn)
    if left:
        note += f" The first {len(drawn)} are drawn, and {left} more stand in the table."
    figures = [rose_figure(study, unit, scale) for unit in drawn]
    title = "Each unit at the threshold, as the network stands or with something out"
    return [tag("h3", title), tag("div", *figures, class_="roses"), made(note)]


def directions_section(study: Study) -> Markup:
    counts = direction_counts(study.screen)
    words = counts_text(study, counts)
    note = (
        f"Each {STEP} degrees the units are counted whose current there is certainly at the threshold or above: cosine "
        "times the interval to the north and sine times the interval to the east, with the ends rounded outward."
    )
    picture = tag("figure", pictures.count_rose(counts, words))
    return section("directions", tag("div", picture, tag("p", words), class_="many"), made(note), *roses(study))
