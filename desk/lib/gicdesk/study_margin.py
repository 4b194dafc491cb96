"""The margin of each unit on a study's page, what holds whatever the grounds are within a tolerance, and devices in neutrals."""

from collections.abc import Sequence

from .counts import plural
from .decimals import MILLI, shifted
from .forms import Interval
from .grounds import Grounds, OpenUnit, open_names, verdicts_text
from .markup import Markup, joined, table, tag
from .mitigate import SHOWN, Mitigation, measure_cells
from .reports import Robust, ScreenUnit
from .study import Study, UnitFacts, Within
from .study_words import ABSENT, amperes, made, names_whole, section, threshold_of, verdict

HEADS = (("unit", "name"), ("verdict", ""), ("worst, A", "n"), ("margin, A", "n"))
WITHIN_HEADS = (("at least, A", "n"), ("at most, A", "n"), ("whatever the grounds", ""), ("found, A", "n"), ("moved most by", ""))
NOTE = (
    "The margin is the threshold of {threshold} A less the high end of the worst current in the benchmark event, made by the desk; it "
    "is below 0 where the current is above."
)
NOTE_WITHIN = (
    " At least, at most and the verdict beside them are those of robust: they hold in each network of which every ground lies, by "
    "itself, within the tolerance. Found is, of a unit that this leaves open, from the least current to the greatest that a search "
    "finds, each confirmed by a screen; the ground beside it moves its current most."
)
NO_TOLERANCE = "No tolerance of grounds was given: --tolerance=PERCENT says how far each may be off, and which to measure next."
NEXT_HEADS = ("measure", "then")
NOTE_NEXT = "A row counts the verdicts of all units where this ground, and each of those above it, is as the case has it."
DEVICE_HEADS = ("neutral", "at the threshold", "greatest worst, A", "in", "no longer", "newly")
NOTE_DEVICES = (
    "Each row is a screen of the case with a blocking device in the neutral of one unit, and a row with fewer units at the threshold "
    "is better. What one neutral doesn't carry others do: these are the units that a device brings there newly. mitigate/ has all rows."
)


def margin(study: Study, row: ScreenUnit) -> int:
    """The threshold less the high end of the worst current, in milliamperes."""
    return study.screen.threshold - row.worst.high


def within_cells(row: ScreenUnit, unit: OpenUnit | None) -> list[str]:
    found = ABSENT if unit is None else f"{amperes(Interval(0, unit.found.low))} to {amperes(unit.found)}"
    ends = [shifted(end, MILLI) for end in (row.worst.low, row.worst.high)]
    return [*ends, verdict(row.verdict), found, ABSENT if unit is None else unit.first or ABSENT]


def margin_cells(study: Study, unit: UnitFacts, found: Grounds | None) -> list[str]:
    row = unit.benchmark
    cells = [unit.name, verdict(row.verdict), amperes(row.worst), shifted(margin(study, row), MILLI)]
    if found is None:
        return cells
    holds = {one.name: one for one in found.robust.rows}[unit.name]
    return cells + within_cells(holds, {one.name: one for one in found.units}.get(unit.name))


def robust_words(robust: Robust) -> str:
    """How many units have each verdict of `robust`, whatever its words are."""
    words = [row.verdict for row in robust.rows if row.verdict != "outside"]
    told = ", ".join(f"{words.count(word)} {word}" for word in dict.fromkeys(("reaches", "below", *words)))
    return f"With each ground within {robust.tolerance} per cent of the case's: {told}."


def next_pieces(found: Grounds) -> list[Markup]:
    """Which ground to measure next, and what is open then."""
    left = open_names(found.robust)
    if not left:
        return [tag("p", "No unit is left open: no ground need be measured for a verdict.")]
    many = f"{plural(len(left), 'unit')} {'is' if len(left) == 1 else 'are'} left open: "
    words = joined((many, names_whole(left), ". A ground that is known to be as the case has it leaves fewer open:"))
    rows = [(one.grounds[-1], verdicts_text(one.robust)) for one in found.measured]
    heading = tag("h3", "What to measure next")
    return [heading, tag("p", words), table(NEXT_HEADS, rows, ("name", "")), made(NOTE_NEXT)]


def tolerance_pieces(within: Within | None) -> list[Markup]:
    if within is None:
        return [tag("p", NO_TOLERANCE)]
    if within.found is None:
        words = f"Nothing is said of grounds within {within.tolerance} per cent, since the program ended with "
        return [tag("p", words, tag("code", within.fault), ": take a smaller tolerance.")]
    return [tag("p", robust_words(within.found.robust)), *next_pieces(within.found)]


def margin_section(study: Study) -> Markup:
    found = None if study.within is None else study.within.found
    heads = [*HEADS, *(WITHIN_HEADS if found is not None else ())]
    rows = [margin_cells(study, unit, found) for unit in study.applicable]
    note = NOTE.format(threshold=threshold_of(study)) + (NOTE_WITHIN if found is not None else "")
    pieces = tolerance_pieces(study.within)
    listed = table([head for head, _ in heads], rows, [class_ for _, class_ in heads], class_="keeps")
    return section("margin", pieces[0], listed, made(note), *pieces[1:])


def device_words(found: Mitigation) -> str:
    many = len(found.whole.at_threshold)
    words = f"As it is {plural(many, 'unit')} reach the threshold or may" if many != 1 else "As it is 1 unit reaches the threshold or may"
    if not found.best.units:
        return f"{words}. No blocking device in one neutral is better than none."
    return f"{words}; with a blocking device in the neutral of {found.best.name} {len(found.best.at_threshold)}."


def devices_section(study: Study) -> Markup:
    if study.devices is None:
        return section("devices", tag("p", "No devices were tried: --mitigate tries a blocking device in each neutral."))
    found = study.devices.found
    if found is None:
        return section("devices", tag("p", f"No devices were tried: {study.devices.fault}."))
    rows: Sequence[Sequence[str]] = [measure_cells(measure) for measure in found.single[:SHOWN]]
    more = len(found.single) - SHOWN
    pieces = [tag("p", f"{plural(more, 'row')} more in mitigate/ranking.csv.")] if more > 0 else []
    listed = table(DEVICE_HEADS, rows, ("name", "n", "n", "", "wrap", "wrap"))
    return section("devices", tag("p", device_words(found)), listed, *pieces, made(NOTE_DEVICES))
