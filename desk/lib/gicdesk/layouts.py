"""How each report is laid out as one table.

A report with rows of one kind has no column `kind`. Else that column says what a row is, and a cell that its kind has
no use for is empty. Columns that repeat what was asked come last, the same in each row, so that tables of several
reports can stand below each other. The columns of a layout are fixed by the mode and the part alone.
"""

import dataclasses
from collections.abc import Callable, Sequence

from .decimals import MICRO, MILLI, NANO, middle_text, shifted
from .findings import refuse
from .forms import Interval, Values, read_line
from .reports import (
    VERDICTS,
    Certificate,
    Check,
    Elements,
    Field,
    Item,
    Make,
    Outage,
    Outcome,
    Question,
    Recheck,
    Report,
    Review,
    Robust,
    Screen,
    Series,
    Study,
    Unit,
    Volts,
)
from .tables import Table

Cells = dict[str, str]
BLOCKS = ("step", "peaks", "monitor")
PER_PHASE = ("effective", "transformer")
# The lines of the program's own monitors.
MONITOR_FORMS = (
    "dwell NAME COUNT COUNT",
    "earth NAME LO HI",
    "earth NAME open",
    "loss LO HI step COUNT",
    "loss none",
    "table LO HI step COUNT",
    "table none",
)


@dataclasses.dataclass(frozen=True)
class Layout:
    """The columns of a mode in order, and which of them each kind of row has beside those of all kinds."""

    columns: str
    kinds: dict[str, str]
    rows: Callable[..., list[Cells]]
    all_kinds: str = ""


def interval_heads(head: str, unit: str) -> str:
    """The heads of an interval: its low end, its high end and its middle."""
    before = f"{head}_" if head else ""
    return " ".join(f"{before}{place}_{unit}" for place in ("low", "high", "middle"))


def ends(head: str, unit: str, value: Interval | None, places: int = MILLI) -> Cells:
    """The two ends of an interval and its middle under heads with their unit; nothing where there is none."""
    if value is None:
        return {}
    texts = (shifted(value.low, places), shifted(value.high, places), middle_text(value.low, value.high, places))
    return dict(zip(interval_heads(head, unit).split(" "), texts))


def event_cells(report: Screen | Outage) -> Cells:
    return {
        "threshold_A_per_phase": shifted(report.threshold, MILLI),
        "field_V_per_km": shifted(report.field, MILLI),
        "width_A": shifted(report.width, MILLI),
    }


def field_cells(north: int, east: int) -> Cells:
    return {"north_V_per_km": shifted(north, MILLI), "east_V_per_km": shifted(east, MILLI)}


def item_cells(item: Item) -> Cells:
    unit = "V" if item.kind == "node" else "A_per_phase" if item.kind in PER_PHASE else "A"
    cells = {"kind": item.kind, "name": item.name, "winding": item.role, "state": item.state}
    return cells | ends("", unit, item.value)


def unit_cells(unit: Unit) -> Cells:
    return {"kind": "transformer", "name": unit.name, "verdict": unit.verdict} | ends("", "A_per_phase", unit.value)


def count_cells(counts: Sequence[int]) -> Cells:
    return dict(zip(VERDICTS, map(str, counts)))


def volts_rows(report: Volts) -> list[Cells]:
    field = field_cells(report.north, report.east)
    return [{"line": name, "volts_V": shifted(volts, NANO)} | field for name, volts in report.lines.items()]


def list_rows(report: Elements) -> list[Cells]:
    return [
        {
            "item": element.name,
            "role": element.role,
            "from": element.start,
            "to": element.end,
            "times": str(element.times),
            "ohm": shifted(element.micro_ohm, MICRO),
        }
        for element in report.elements
    ]


def check_rows(report: Check) -> list[Cells]:
    return [{"node": name, "state": state} for name, state in report.nodes.items()]


def field_rows(report: Field) -> list[Cells]:
    asked = field_cells(report.north, report.east) | {
        "threshold_A_per_phase": shifted(report.threshold, MILLI),
        "width_V_or_A": shifted(report.width, MILLI),
    }
    rows = [*map(item_cells, report.items), *map(unit_cells, report.units)]
    return [row | asked for row in rows]


def screen_rows(report: Screen) -> list[Cells]:
    asked = event_cells(report)
    return [
        {"transformer": row.name}
        | ends("north", "A_per_phase", row.north)
        | ends("east", "A_per_phase", row.east)
        | ends("worst", "A_per_phase", row.worst)
        | {"verdict": row.verdict}
        | asked
        for row in report.rows
    ]


def robust_rows(report: Robust) -> list[Cells]:
    return [cells | {"tolerance_percent": str(report.tolerance)} for cells in screen_rows(report)]


def outcome_cells(outcome: Outcome) -> Cells:
    cells = {"kind": "outage", "name": outcome.item, "outcome": outcome.word, "node": outcome.node}
    return cells | count_cells(outcome.counts)


def outage_rows(report: Outage) -> list[Cells]:
    asked = event_cells(report)
    units = [
        {"kind": "transformer", "name": unit.name, "verdict": unit.verdict} | ends("worst", "A_per_phase", unit.value)
        for unit in report.units
    ]
    return [row | asked for row in [*map(outcome_cells, report.outcomes), *units]]


def series_rows(report: Series) -> list[Cells]:
    return [
        {"transformer": report.transformer, "step": str(step), "time_s": str(time)}
        | ends("", "A_per_phase", value)
        | {"width_A": shifted(report.width, MILLI)}
        for step, time, value in report.steps
    ]


def make_rows(report: Make) -> list[Cells]:
    names = ("seed", "size", "nodes", "elements", "walk")
    return [{name: str(getattr(report, name)) for name in names} | count_cells(report.counts)]


def certificate_rows(report: Certificate) -> list[Cells]:
    rows = []
    for name, numbers in report.nodes.items():
        heads = ("entry", "guess_grains", "radius_grains")
        cells = dict(zip(heads, map(str, numbers))) if numbers else {"state": "dead"}
        rows.append({"node": name} | cells | field_cells(report.north, report.east))
    return rows


def recheck_rows(report: Recheck) -> list[Cells]:
    field = field_cells(report.north, report.east)
    return [{"node": name} | ends("", "V", value) | field for name, value in report.nodes.items()]


# What the numbers of a review count, by their field.
REVIEW_UNITS = {
    "latitude": "hundredths of a degree",
    "beta": "hundredths",
    "span": "m",
    "perkm": "micro-ohm per km",
    "high_volts": "V",
    "low_volts": "V",
    "third_volts": "V",
}


def question_cells(question: Question) -> Cells:
    cells = {"kind": question.kind, "name": question.name, "list": question.list, "field": question.field}
    if question.number is not None:
        unit = "nodes" if question.kind == "part" else REVIEW_UNITS.get(question.field, "micro-ohm")
        cells |= {"number": str(question.number), "unit": unit}
    if question.other is not None:
        cells["other"] = str(question.other)
    if question.gap is not None:
        cells |= {"north_m": str(question.gap[0]), "east_m": str(question.gap[1])}
    return cells


def review_rows(report: Review) -> list[Cells]:
    return [question_cells(question) for question in report.questions]


def monitor_cells(number: int, line: str) -> Cells:
    """A line of a monitor's text. Those of the program's own monitors have columns; any other stands as it is."""
    cells = {"block": "monitor", "monitor": str(number), "kind": line.split(" ")[0]}
    for form in MONITOR_FORMS:
        match read_line(form, line):
            case Values([name], [certain, possible], []):
                return cells | {"name": name, "certain_steps": str(certain), "possible_steps": str(possible)}
            case Values([name], [], [value]):
                return cells | {"name": name} | ends("", "A", value)
            case Values([name], [], []):
                return cells | {"name": name, "state": "open"}
            case Values([], [step], [value]):
                return cells | {"step": str(step)} | ends("", "var", value)
            case Values([], [], []):
                return cells | {"state": "none"}
    # The letters of a report are its bytes; here they are a text again.
    return cells | {"kind": "text", "text": line.encode("latin-1").decode("utf-8", "replace")}


def study_rows(report: Study) -> list[Cells]:
    rows: list[Cells] = []
    if report.detail is not None:
        step = {"block": "step", "step": str(report.detail.step), "time_s": str(report.detail.time)}
        for name, (north, east) in report.detail.zones.items():
            rows.append(step | {"kind": "zone", "name": name} | field_cells(north, east))
        rows += [step | item_cells(item) for item in report.detail.items]
    rows += [{"block": "peaks"} | item_cells(item) for item in report.items]
    rows += [{"block": "peaks"} | unit_cells(unit) for unit in report.units]
    for number, text in enumerate(report.monitors, 1):
        rows += [monitor_cells(number, line) for line in text.removesuffix("\n").split("\n") if text]
    asked = {
        "threshold_A_per_phase": shifted(report.threshold, MILLI),
        "steps": str(report.steps),
        "width_V_or_A": shifted(report.width, MILLI),
    }
    return [row | asked for row in rows]


VOLTS, AMPERES, EACH_PHASE, VAR = (interval_heads("", unit) for unit in ("V", "A", "A_per_phase", "var"))
ITEM_KINDS = {
    "node": f"name {VOLTS} state",
    "ground": f"name {AMPERES} state",
    "line": f"name {AMPERES} state",
    "winding": f"name winding {AMPERES} state",
    "neutral": f"name {AMPERES} state",
    "effective": f"name {EACH_PHASE}",
    "transformer": f"name {EACH_PHASE} verdict",
}
COUNTS = " ".join(VERDICTS)
EVENT = "threshold_A_per_phase field_V_per_km width_A"
NORTH, EAST, WORST = (interval_heads(head, "A_per_phase") for head in ("north", "east", "worst"))
ITEMS = f"name winding {VOLTS} {AMPERES} {EACH_PHASE} state verdict"
ZONE_FIELD = "north_V_per_km east_V_per_km"

LAYOUTS: dict[str, Layout] = {
    "volts": Layout(f"line volts_V {ZONE_FIELD}", {}, volts_rows),
    "list": Layout("item role from to times ohm", {}, list_rows),
    "check": Layout("node state", {}, check_rows),
    "field": Layout(
        f"kind {ITEMS} {ZONE_FIELD} threshold_A_per_phase width_V_or_A",
        ITEM_KINDS,
        field_rows,
        f"kind {ZONE_FIELD} threshold_A_per_phase width_V_or_A",
    ),
    "screen": Layout(
        f"transformer {NORTH} {EAST} {WORST} verdict {EVENT}",
        {},
        screen_rows,
    ),
    "robust": Layout(f"transformer {NORTH} {EAST} {WORST} verdict {EVENT} tolerance_percent", {}, robust_rows),
    "outage": Layout(
        f"kind name outcome node {COUNTS} {WORST} verdict {EVENT}",
        {"outage": f"name outcome node {COUNTS}", "transformer": f"name {WORST} verdict"},
        outage_rows,
        f"kind {EVENT}",
    ),
    "series": Layout(f"transformer step time_s {EACH_PHASE} width_A", {}, series_rows),
    "study": Layout(
        f"block kind step time_s monitor {ITEMS} {ZONE_FIELD} certain_steps possible_steps {VAR} text "
        "threshold_A_per_phase steps width_V_or_A",
        ITEM_KINDS
        | {
            "zone": f"name {ZONE_FIELD}",
            "dwell": "monitor name certain_steps possible_steps",
            "earth": f"monitor name {AMPERES} state",
            "loss": f"monitor step {VAR} state",
            "table": f"monitor step {VAR} state",
            "text": "monitor text",
        },
        study_rows,
        "block kind step time_s threshold_A_per_phase steps width_V_or_A",
    ),
    "make": Layout(f"seed size nodes elements walk {COUNTS}", {}, make_rows),
    "certificate": Layout(f"node state entry guess_grains radius_grains {ZONE_FIELD}", {}, certificate_rows),
    "recheck": Layout(f"node {VOLTS} {ZONE_FIELD}", {}, recheck_rows),
    "review": Layout(
        "kind list name field number unit other north_m east_m",
        {
            "ungrounded": "name",
            "part": "name number unit",
            "closure": "name north_m east_m",
            "value": "list name field number unit",
            "alpha": "list name field number unit",
            "volts": "list name field number unit other",
            "outside": "name",
        },
        review_rows,
        "kind",
    ),
}
# Of a study the kinds that each block has.
STUDY_BLOCKS = {
    "step": ("zone", "node", "ground", "line", "winding", "neutral", "effective"),
    "peaks": ("node", "ground", "line", "winding", "neutral", "transformer"),
    "monitor": ("dwell", "earth", "loss", "table", "text"),
}


def parts_of(mode: str) -> list[str]:
    """The parts of a mode's report that can be had alone."""
    blocks = list(STUDY_BLOCKS) if mode == "study" else []
    return blocks + list(LAYOUTS[mode].kinds)


def table_of(file: str, mode: str, report: Report, part: str | None = None) -> Table:
    """The report as a table; with a part only the rows of this kind or, of a study, of this block."""
    layout = LAYOUTS[mode]
    columns = layout.columns.split(" ")
    rows = layout.rows(report)
    if part is not None:
        parts = parts_of(mode)
        if part not in parts:
            allowed = f"one of {', '.join(parts)}" if parts else "none: it is one table, so leave --part out"
            raise refuse(file, f"--part={part} is no part of a report of {mode}; allowed is {allowed}")
        kinds = STUDY_BLOCKS.get(part, (part,)) if mode == "study" else (part,)
        used = layout.all_kinds.split(" ") + [column for kind in kinds for column in layout.kinds[kind].split(" ")]
        columns = [column for column in columns if column in used]
        place = "block" if mode == "study" and part in STUDY_BLOCKS else "kind"
        rows = [row for row in rows if row[place] == part]
    return Table(columns, [[row.get(column, "") for column in columns] for row in rows])
