"""GIC(t) of a study's page: of each unit that is assessed a picture, and the greatest currents as a table."""

from .charts import Line, chart, standing_alone
from .counts import plural
from .decimals import MILLI, shifted
from .gict import Curve, GicT
from .markup import Markup, table, tag
from .reports import Screen
from .study import Study
from .study_words import ABSENT, amperes, made, section
from .waveforms import Waveform

MOST_PICTURES = 24
MILLI_AMPERES = 1000

GREATEST_HEADS = (("at, s", "n"), ("seconds", "n"))
HEADS = (
    ("unit", "name"),
    ("out", "e"),
    ("bearing, either way", "n"),
    ("worst, A", "n"),
    ("turned, A", "n"),
    *GREATEST_HEADS,
    ("as given, A", "n"),
    *GREATEST_HEADS,
)
NOTE = (
    "The currents are the program's: of each unit one series over the waveform turned, and one over the waveform as it was "
    "given, both scaled, in the network in which the unit is assessed. What they have read is the desk's: each field of the "
    "waveform times one factor, by which its strongest step has the strength of the event, and turned by one angle until "
    "this step points to the bearing, with both parts rounded to whole mV/km. The bearing is that of the worst current of "
    "the screen, by the middles of the currents to the north and to the east, the lesser of two: a field the other way gives as "
    "much, so a current may be negative here. Worst is "
    "the screen's current, and so the greatest one that a field of this strength brings: the turned waveform reaches it but "
    "for the rounding. Seconds are made as over a storm, at {threshold} A or more whatever the sign. The pictures have the "
    "middles of the intervals, and both ends stand in the tables."
)
LEAD = (
    "The waveform has {steps}, and its strongest field, {field} as it was given, at {time} s. It is scaled to {strength} "
    "V/km there. Turned, it brings a unit the greatest current that its strength can, and perhaps not the greatest heating: "
    "assess both."
)


def points_of(curve: Curve) -> list[tuple[int, float]]:
    return [(time, value.middle / MILLI_AMPERES) for time, value in zip(curve.field.times, curve.values)]


def picture_title(found: GicT) -> str:
    time, value = found.turned.greatest
    out = found.subject.out_text
    where = f"with {out}" if out else "in the network as it stands"
    return f"GIC(t) of {found.name} {where}, A a phase: turned to {found.subject.bearing}° (either way), to {amperes(value)} A at {time} s"


def picture_file(found: GicT, threshold: int) -> str:
    """The picture as a file of its own, with what stands there."""
    colours = f"blue: turned, orange: as given, dashed: {shifted(threshold, MILLI)} A"
    return standing_alone(gict_picture(found, threshold), f"{picture_title(found)} ({colours})")


def gict_picture(found: GicT, threshold: int) -> Markup:
    """Both curves of a unit, that of the waveform as it was given behind."""
    lines = [Line(points_of(found.given), "curve beside"), Line(points_of(found.turned), "curve")]
    return chart(lines, threshold / MILLI_AMPERES, picture_title(found))


def gict_figure(found: GicT, threshold: int) -> Markup:
    out = found.subject.out_text
    words = [f"turned to {found.subject.bearing}° (either way)", *([f"with {out}"] if out else [])]
    caption = tag("figcaption", tag("b", found.name), *[tag("span", word) for word in words])
    return tag("figure", caption, gict_picture(found, threshold))


def greatest_cells(curve: Curve, threshold: int) -> list[str]:
    time, value = curve.greatest
    return [amperes(value), str(time), str(curve.seconds(threshold))]


def gict_cells(found: GicT, threshold: int) -> list[str]:
    subject = found.subject
    cells = [found.name, subject.out_text or ABSENT, f"{subject.bearing}°", amperes(subject.row.worst)]
    return cells + greatest_cells(found.turned, threshold) + greatest_cells(found.given, threshold)


def lead_text(waveform: Waveform, screen: Screen) -> str:
    place = waveform.strongest
    return LEAD.format(
        steps=plural(len(waveform.times), "step"),
        field=f"{abs(waveform.fields[place]):g}",
        time=waveform.times[place],
        strength=shifted(screen.field, MILLI),
    )


def event_pieces(waveform: Waveform, screen: Screen, found: list[GicT]) -> list[Markup]:
    """What is shown of the units of an event."""
    rows = [gict_cells(one, screen.threshold) for one in found]
    drawn = [gict_figure(one, screen.threshold) for one in found[:MOST_PICTURES]]
    where = f"{found[0].subject.folder}/ has a table and a picture of each unit, and what its runs have read."
    if len(found) > MOST_PICTURES:
        where += f" The first {MOST_PICTURES} of {len(found)} are drawn here."
    return [
        tag("p", lead_text(waveform, screen)),
        table([head for head, _ in HEADS], rows, [class_ for _, class_ in HEADS], class_="keeps"),
        tag("p", where),
        tag("ul", key_item("#1f5f99", "turned"), key_item("#e08a00", "as given"), class_="key"),
        tag("div", *drawn, class_="scroll charts"),
        made(NOTE.format(threshold=shifted(screen.threshold, MILLI))),
    ]


def gict_section(study: Study) -> Markup:
    waveform = study.waveform
    if waveform is None:
        return section("gict", tag("p", "No waveform was given."))
    if not study.all_gict:
        return section("gict", tag("p", "No unit is assessed, so no current over the waveform was made."))
    pieces = [] if study.gict else [tag("p", "No unit is assessed by the benchmark event, so none has a current over it.")]
    if study.gict:
        pieces += event_pieces(waveform, study.screen, study.gict)
    if study.gict_beyond:
        threshold = shifted(study.supplemental.threshold, MILLI)
        pieces.append(tag("h3", f"Supplemental event, for units with {threshold} A or more in the network as it stands, or perhaps"))
        pieces += event_pieces(waveform, study.supplemental, study.gict_beyond)
    return section("gict", *pieces)


def key_item(colour: str, meaning: str) -> Markup:
    return tag("li", tag("i", style=f"background:{colour}"), meaning)
