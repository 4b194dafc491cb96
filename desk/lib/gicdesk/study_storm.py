"""The storm and the losses of a study's page."""

from collections.abc import Sequence

from . import pictures
from .counts import plural
from .decimals import MILLI, shifted
from .directions import current_at
from .factors import USUAL_KV, StormLosses, size, storm_losses, total
from .forms import Interval
from .markup import Markup, table, tag
from .reports import Series
from .storms import SwitchingRow, seconds_above, seen_rows
from .study import Losses, Study, UnitFacts
from .study_words import amperes, made, peak_of, section, switchings_text, threshold_of, volts_per_km, words_of

MOST_STRIPS = 24
LOSS_STEP = 15  # degrees between the bearings of the table of losses

STORM_NOTE = (
    "A curve goes through the middles of the intervals; the scale of each is its own, the grey line is 0 and a dashed red "
    "one {threshold} A to either side. Between two steps the program says nothing, and seconds count each step up to the "
    "next one, and the last step for nothing. The strength of the field is the root of the squares of its two parts, in "
    "the strongest zone of each step, by the storm's own numbers."
)
LOSSES_NOTE = (
    "Losses are the high end of a current times the factor of the table, times the unit's rated kilovolts over those for "
    f"which the factor is, {USUAL_KV} unless the table says otherwise; rounded to a tenth. The direction was looked for "
    "in whole degrees, with currents made of the two of the screen as for the counts by direction, and so is the table by "
    "direction. A unit without a factor counts nothing. A power flow needs losses in one field at a time."
)


def span_text(seconds: int) -> str:
    hours, rest = divmod(seconds, 3600)
    return f"{hours} h {rest // 60} min" if hours else f"{rest // 60} min {rest % 60} s"


def times_text(axis: pictures.Axis, parts: int) -> Markup:
    """The times below strips, from the first to the last."""
    times = [round(axis.first + (axis.last - axis.first) * part / parts) for part in range(parts + 1)]
    return tag("div", *[tag("span", f"{time} s") for time in times], class_="times")


def strip_figure(strip: pictures.Strip, name: str, *words: str) -> Markup:
    caption = tag("figcaption", tag("b", name), *[tag("span", word) for word in words])
    return tag("figure", caption, pictures.strip_picture(strip, ", ".join((name, *words))))


def unit_figure(axis: pictures.Axis, marks: Sequence[int], series: Series, threshold: int) -> Markup:
    """The current of a unit over the storm."""
    _, time, value = max(series.steps, key=lambda step: size(step[2]))
    points = [(at, one.middle) for _, at, one in series.steps]
    above = f"{seconds_above(series.steps, threshold)} s at the threshold or above"
    strip = pictures.Strip(axis, points, marks, threshold)
    return strip_figure(strip, series.transformer, f"to {amperes(value)} A at {time} s", above)


def switched_text(rows: Sequence[SwitchingRow], seen: Sequence[bool]) -> str:
    """The switchings of a storm, and which of them no step sees."""
    told = [row for row, is_seen in zip(rows, seen) if is_seen]
    unseen = [row for row, is_seen in zip(rows, seen) if not is_seen]
    sentences = []
    if told:
        sentences.append(f"Switchings, dotted in the strips where they lie within the storm: {switchings_text(told)}.")
    if unseen:
        words = "In force at no step, since none comes before the next row of the same item or the end of the storm"
        sentences.append(f"{words}: {switchings_text(unseen)}.")
    return " ".join(sentences)


def peak_size(unit: UnitFacts) -> int:
    return (peak_of(unit) or Interval(0, 0)).high


def storm_section(study: Study) -> Markup:
    storm = study.storm
    if storm is None:
        return section("storm", tag("p", "No storm was given."))
    if storm.report is None:
        fault = tag("code", storm.fault)
        why = ". docs/FAULTS.md says what that comes from."
        return section("storm", tag("p", "The storm has no report: the program ended with ", fault, why))
    first, last = storm.steps[0].time, storm.steps[-1].time
    axis = pictures.Axis(first, last)
    seen = seen_rows(study.switchings, [step.time for step in storm.steps])
    marks = [row.time for row, is_seen in zip(study.switchings, seen) if is_seen and first <= row.time <= last]
    strongest = max(storm.steps, key=lambda step: step.strength)
    strength = volts_per_km(strongest.strength)
    field = pictures.Strip(axis, [(step.time, step.strength) for step in storm.steps], marks, None)
    figures = [strip_figure(field, "Field of the strongest zone", f"to {strength} at {strongest.time} s")]
    units = sorted((unit for unit in study.units if unit.name in storm.series), key=lambda unit: -peak_size(unit))
    for unit in units[:MOST_STRIPS]:
        figures.append(unit_figure(axis, marks, storm.series[unit.name], study.screen.threshold))
    lead = (
        f"{plural(storm.report.steps, 'step')} over {span_text(last - first)}, from {first} s to {last} s. The strongest "
        f"field is {strength}, at {strongest.time} s, before alpha and beta scale it."
    )
    pieces = [tag("p", lead)]
    if study.switchings:
        pieces.append(tag("p", switched_text(study.switchings, seen)))
    if not units:
        words = f"No unit reaches {threshold_of(study)} A or may, in the benchmark event, with something out or in the"
        pieces.append(tag("p", f"{words} storm, so no series was made."))
    note = STORM_NOTE.format(threshold=threshold_of(study))
    if len(units) > MOST_STRIPS:
        note += f" The {MOST_STRIPS} greatest of {len(units)} series are drawn; the others stand in tables/."
    return section("storm", *pieces, tag("div", *figures, times_text(axis, 4), class_="strips"), made(note))


LOSS_HEADS = ("unit", "factor, Mvar/A", "for kV", "its kV", "own factor, Mvar/A", "current, A", "losses, Mvar")


def field_currents(losses: Losses) -> dict[str, int]:
    """The high ends of the currents in the direction of the losses."""
    return {unit.name: 0 if unit.value is None else unit.value.high for unit in losses.field.units}


def losses_by_unit(losses: Losses) -> Markup:
    currents = field_currents(losses)
    rows = []
    for name, factor in losses.factors.items():
        drawn = factor.mvar(currents[name])
        told = (f"{factor.given:f}", f"{factor.at_kv:f}", f"{factor.volts / 1000:g}", f"{factor.own:.4f}")
        rows.append((drawn, (name, *told, shifted(currents[name], MILLI), f"{drawn:.1f}")))
    rows.sort(key=lambda row: -row[0])
    return table(LOSS_HEADS, [cells for _, cells in rows], ("name", *["n"] * 6))


def bearings_table(study: Study, losses: Losses) -> Markup:
    """What the units draw together in the event's field of several bearings."""
    rows = [row for row in study.screen.rows if row.name in losses.factors]
    bearings = range(0, 180, LOSS_STEP)
    sums = [total(losses.factors, {row.name: current_at(row, bearing).high for row in rows}) for bearing in bearings]
    heads = ("bearing", *(f"{bearing}°" for bearing in bearings))
    return table(heads, [("together, Mvar", *(f"{mvar:.1f}" for mvar in sums))], ("name", *["n"] * len(sums)))


def storm_losses_of(study: Study) -> StormLosses | None:
    if study.losses is None or study.storm is None:
        return None
    return storm_losses(study.losses.factors, {name: series.steps for name, series in study.storm.series.items()})


def losses_section(study: Study) -> Markup:
    losses = study.losses
    if losses is None:
        return section("losses", tag("p", "No table of factors was given."))
    currents = field_currents(losses)
    together = total(losses.factors, {name: currents[name] for name in losses.factors})
    lead = (
        f"In a field of {shifted(study.screen.field, MILLI)} V/km at {losses.bearing}° the "
        f"{plural(len(losses.factors), 'unit')} with a factor draw most together: {together:.1f} Mvar. The currents there "
        "are those of "
    )
    run = words_of(("field", f"--north={losses.field.north}", f"--east={losses.field.east}"))
    pieces = [tag("p", lead, run, "."), losses_by_unit(losses), tag("h3", "By direction"), bearings_table(study, losses)]
    storm = storm_losses_of(study)
    if storm is not None:
        axis = pictures.Axis(storm.times[0], storm.times[-1])
        points = [(time, float(mvar)) for time, mvar in zip(storm.times, storm.mvar)]
        words = f"to {storm.mvar[storm.greatest]:.1f} Mvar at {storm.times[storm.greatest]} s"
        figure = strip_figure(pictures.Strip(axis, points, [], None), "All together", words)
        pieces += [tag("h3", "Over the storm"), tag("div", figure, times_text(axis, 4), class_="strips")]
    return section("losses", *pieces, made(LOSSES_NOTE))
