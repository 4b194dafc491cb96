"""The reports of the program as values. What each line says stands in docs/FORMATS.md.

Potentials are in millivolts, currents in milliamperes, fields in mV/km, as they are printed.
"""

import dataclasses
from collections import Counter
from collections.abc import Callable

from .files import read_bytes
from .findings import refuse, shown
from .forms import Interval, Lines, Values

VERDICTS = ("below", "reaches", "undecided", "outside")


@dataclasses.dataclass(frozen=True)
class Item:
    """A line of a node, an element or a winding, or the effective current of a transformer."""

    kind: str
    name: str
    role: str = ""  # of a winding
    value: Interval | None = None
    state: str = ""  # dead, open or blocked, where there is no interval


@dataclasses.dataclass(frozen=True)
class Unit:
    """A transformer with the verdict on its interval; `none` without one, where no outage has counts."""

    name: str
    value: Interval | None
    verdict: str


@dataclasses.dataclass(frozen=True)
class Volts:
    north: int
    east: int
    lines: dict[str, int]  # in nanovolts


@dataclasses.dataclass(frozen=True)
class Element:
    name: str
    role: str
    start: str
    end: str
    times: int
    micro_ohm: int


@dataclasses.dataclass(frozen=True)
class Elements:
    nodes: int
    elements: list[Element]


@dataclasses.dataclass(frozen=True)
class Check:
    nodes: dict[str, str]  # live or dead


@dataclasses.dataclass(frozen=True)
class Field:
    north: int
    east: int
    width: int
    threshold: int
    items: list[Item]
    units: list[Unit]


@dataclasses.dataclass(frozen=True)
class Detail:
    """One step of a study."""

    step: int
    time: int
    zones: dict[str, tuple[int, int]]  # north and east
    items: list[Item]


@dataclasses.dataclass(frozen=True)
class Study:
    width: int
    threshold: int
    steps: int
    detail: Detail | None
    items: list[Item]
    units: list[Unit]
    monitors: list[str]  # their texts


@dataclasses.dataclass(frozen=True)
class ScreenUnit:
    name: str
    north: Interval
    east: Interval
    worst: Interval
    verdict: str


@dataclasses.dataclass(frozen=True)
class Screen:
    width: int
    threshold: int
    field: int
    rows: list[ScreenUnit]

    @property
    def units(self) -> list[Unit]:
        """Each transformer with its worst current."""
        return [Unit(row.name, row.worst, row.verdict) for row in self.rows]


@dataclasses.dataclass(frozen=True)
class Robust(Screen):
    """A screen of all networks whose grounds lie within a tolerance, in per cent."""

    tolerance: int


@dataclasses.dataclass(frozen=True)
class Outcome:
    """What comes of the outage of an item. The word is idle, unearthed, unresolved or, where there are counts, solved;
    the node is that of the second and third; the counts are those of the verdicts in the order of VERDICTS."""

    item: str
    word: str
    node: str = ""
    counts: tuple[int, ...] = ()


@dataclasses.dataclass(frozen=True)
class Outage:
    width: int
    threshold: int
    field: int
    outcomes: list[Outcome]
    units: list[Unit]


@dataclasses.dataclass(frozen=True)
class Series:
    width: int
    transformer: str
    steps: list[tuple[int, int, Interval]]  # number, time and effective current


@dataclasses.dataclass(frozen=True)
class Make:
    seed: int
    size: int
    nodes: int
    elements: int
    walk: int
    counts: tuple[int, ...]


@dataclasses.dataclass(frozen=True)
class Certificate:
    north: int
    east: int
    nodes: dict[str, tuple[int, int, int] | None]  # entry, guess and radius of a live node


@dataclasses.dataclass(frozen=True)
class Recheck:
    north: int
    east: int
    nodes: dict[str, Interval]


@dataclasses.dataclass(frozen=True)
class Question:
    """A finding of a review."""

    kind: str
    name: str
    list: str = ""
    field: str = ""
    number: int | None = None
    other: int | None = None
    gap: tuple[int, int] | None = None  # to the north and to the east, in metres


@dataclasses.dataclass(frozen=True)
class Review:
    questions: list[Question]


Report = (
    Volts | Elements | Check | Field | Study | Screen | Robust | Outage | Series | Make | Certificate | Recheck | Review
)

ITEM_FORMS = (
    "node NAME LO HI",
    "node NAME dead",
    "ground NAME LO HI",
    "ground NAME open",
    "line NAME LO HI",
    "line NAME open",
    "line NAME blocked",
    "winding NAME ROLE LO HI",
    "winding NAME ROLE open",
    "neutral NAME LO HI",
    "neutral NAME open",
    "neutral NAME blocked",
)
EFFECTIVE_FORM = "effective NAME LO HI"
UNIT_FORM = "transformer NAME LO HI VERDICT"
SCREEN_FORM = "transformer NAME north LO HI east LO HI worst LO HI VERDICT"
COUNTS_FORM = "below COUNT reaches COUNT undecided COUNT outside COUNT"
OUTAGE_FORMS = (
    "outage NAME idle",
    "outage NAME unearthed NODE",
    "outage NAME unresolved NODE",
    f"outage NAME {COUNTS_FORM}",
)
WORST_FORMS = ("transformer NAME worst LO HI VERDICT", "transformer NAME none")
REVIEW_FORMS = (
    "ungrounded NAME",
    "part COUNT NODE",
    "closure NAME NUMBER NUMBER",
    "value LIST NAME FIELD NUMBER",
    "alpha NAME NUMBER",
    "volts NAME FIELD NUMBER OTHER",
    "outside NAME",
)


def kind_of(form: str) -> str:
    return form.split(" ")[0]


def state_of(form: str) -> str:
    """The word that stands in place of an interval in lines of this form; empty where an interval stands."""
    last = form.split(" ")[-1]
    return last if last.islower() else ""


def item_of(form: str, values: Values) -> Item:
    """An item of a form that has a name, perhaps a role, and an interval or a state."""
    name, role = values.words[0], "".join(values.words[1:])
    return Item(kind_of(form), name, role, next(iter(values.intervals), None), state_of(form))


def unit_of(form: str, values: Values) -> Unit:
    """A transformer with its interval and its verdict, or the state `none`."""
    name, *verdict = values.words
    return Unit(name, next(iter(values.intervals), None), state_of(form) or verdict[0])


def items_and_units(rows: list[tuple[str, Values]]) -> tuple[list[Item], list[Unit]]:
    items = [item_of(form, values) for form, values in rows if form != UNIT_FORM]
    return items, [unit_of(form, values) for form, values in rows if form == UNIT_FORM]


def look_for_repeated(lines: Lines, names: list[str]) -> None:
    """A finding where a name stands for two rows, since the names of a case are unique."""
    for name, many in Counter(names).items():
        if many > 1:
            lines.wrong(f"{name} has {many} lines of one kind above here, and a report has one; take one report alone")


def look_for_count(lines: Lines, what: str, told: int, there: int) -> None:
    if told != there:
        lines.wrong(f"{told} {what} are told and {there} stand there; ask the program for the report again")


def read_volts(lines: Lines) -> Volts:
    north, east = lines.line("north NUMBER east NUMBER").numbers
    rows = [(values.words[0], values.numbers[0]) for _, values in lines.rows(("line NAME NUMBER",))]
    look_for_repeated(lines, [name for name, _ in rows])
    lines.end()
    return Volts(north, east, dict(rows))


def element_of(values: Values) -> Element:
    (name, role, start, end), (times, micro_ohm) = values.words, values.numbers
    return Element(name, role, start, end, times, micro_ohm)


def read_list(lines: Lines) -> Elements:
    nodes, many = lines.line("nodes COUNT elements COUNT").numbers
    elements = [element_of(values) for _, values in lines.rows(("element NAME ROLE NODE TO COUNT COUNT",))]
    look_for_count(lines, "elements", many, len(elements))
    lines.end()
    return Elements(nodes, elements)


def read_check(lines: Lines) -> Check:
    rows = lines.rows(("node NAME live", "node NAME dead"), ("live",))
    look_for_repeated(lines, [values.words[0] for _, values in rows])
    (live,) = lines.line("live COUNT").numbers
    look_for_count(lines, "live nodes", live, [state_of(form) for form, _ in rows].count("live"))
    lines.end()
    return Check({values.words[0]: state_of(form) for form, values in rows})


def read_field(lines: Lines) -> Field:
    north, east, width, threshold = lines.line("north NUMBER east NUMBER width COUNT threshold COUNT").numbers
    items, units = items_and_units(lines.rows((*ITEM_FORMS, EFFECTIVE_FORM, UNIT_FORM)))
    look_for_repeated(lines, [unit.name for unit in units])
    lines.end()
    return Field(north, east, width, threshold, items, units)


def read_detail(lines: Lines) -> Detail:
    step, time = lines.line("step COUNT time COUNT").numbers
    zone_form = "zone NAME north NUMBER east NUMBER"
    rows = lines.rows((zone_form, *ITEM_FORMS, EFFECTIVE_FORM), ("peaks", "end"))
    zones = [(values.words[0], values.numbers) for form, values in rows if form == zone_form]
    look_for_repeated(lines, [name for name, _ in zones])
    items = [item_of(form, values) for form, values in rows if form != zone_form]
    return Detail(step, time, {name: (north, east) for name, (north, east) in zones}, items)


def read_monitors(lines: Lines) -> list[str]:
    """The texts of the monitors, each as long as its line says."""
    texts: list[str] = []
    while (lines.peek() or "").startswith("monitor "):
        number, length = lines.line("monitor COUNT COUNT").numbers
        look_for_count(lines, "monitors", number, len(texts) + 1)
        text = lines.take_letters(length)
        if text is None:
            raise lines.cut()
        texts.append(text)
    return texts


def read_study(lines: Lines) -> Study:
    width, threshold, steps = lines.line("width COUNT threshold COUNT steps COUNT").numbers
    detail = read_detail(lines) if (lines.peek() or "").startswith("step ") else None
    lines.line("peaks")
    items, units = items_and_units(lines.rows((*ITEM_FORMS, UNIT_FORM), ("monitor", "end")))
    look_for_repeated(lines, [unit.name for unit in units])
    monitors = read_monitors(lines)
    lines.end()
    return Study(width, threshold, steps, detail, items, units, monitors)


def screen_unit_of(values: Values) -> ScreenUnit:
    (name, verdict), (north, east, worst) = values.words, values.intervals
    return ScreenUnit(name, north, east, worst, verdict)


def read_screen(lines: Lines) -> Screen:
    width, threshold, field = lines.line("width COUNT threshold COUNT field COUNT").numbers
    rows = [screen_unit_of(values) for _, values in lines.rows((SCREEN_FORM,))]
    look_for_repeated(lines, [row.name for row in rows])
    lines.end()
    return Screen(width, threshold, field, rows)


def read_robust(lines: Lines) -> Robust:
    width, threshold, field, tolerance = lines.line("width COUNT threshold COUNT field COUNT tolerance COUNT").numbers
    rows = [screen_unit_of(values) for _, values in lines.rows((SCREEN_FORM,))]
    look_for_repeated(lines, [row.name for row in rows])
    lines.end()
    return Robust(width, threshold, field, rows, tolerance)


def outcome_of(form: str, values: Values) -> Outcome:
    item, *node = values.words
    word = "solved" if form == OUTAGE_FORMS[-1] else form.split(" ")[2]
    return Outcome(item, word, "".join(node), tuple(values.numbers))


def read_outage(lines: Lines) -> Outage:
    width, threshold, field = lines.line("width COUNT threshold COUNT field COUNT").numbers
    outcomes = [outcome_of(form, values) for form, values in lines.rows(OUTAGE_FORMS, ("transformer", "end"))]
    look_for_repeated(lines, [outcome.item for outcome in outcomes])
    units = [unit_of(form, values) for form, values in lines.rows(WORST_FORMS)]
    look_for_repeated(lines, [unit.name for unit in units])
    lines.end()
    return Outage(width, threshold, field, outcomes, units)


def read_series(lines: Lines) -> Series:
    head = lines.line("width COUNT transformer NAME steps COUNT")
    (width, many), (transformer,) = head.numbers, head.words
    rows = lines.rows(("step COUNT time COUNT LO HI",))
    steps = [(values.numbers[0], values.numbers[1], values.intervals[0]) for _, values in rows]
    look_for_count(lines, "steps", many, len(steps))
    lines.end()
    return Series(width, transformer, steps)


def read_make(lines: Lines) -> Make:
    seed, size = lines.line("seed COUNT size COUNT").numbers
    nodes, elements = lines.line("nodes COUNT elements COUNT").numbers
    (walk,) = lines.line("walk COUNT").numbers
    counts = lines.line(COUNTS_FORM).numbers
    lines.end()
    return Make(seed, size, nodes, elements, walk, tuple(counts))


def certified(form: str, values: Values) -> tuple[int, int, int] | None:
    """Entry, guess and radius of a live node; None of a dead one."""
    if state_of(form):
        return None
    entry, guess, radius = values.numbers
    return entry, guess, radius


def read_certificate(lines: Lines) -> Certificate:
    many, north, east = lines.line("nodes COUNT north NUMBER east NUMBER").numbers
    rows = lines.rows(("cert NAME COUNT NUMBER COUNT", "cert NAME dead"))
    look_for_repeated(lines, [values.words[0] for _, values in rows])
    look_for_count(lines, "nodes", many, len(rows))
    lines.end()
    return Certificate(north, east, {values.words[0]: certified(form, values) for form, values in rows})


def read_recheck(lines: Lines) -> Recheck:
    north, east = lines.line("north NUMBER east NUMBER").numbers
    rows = [(values.words[0], values.intervals[0]) for _, values in lines.rows(("node NAME LO HI",))]
    look_for_repeated(lines, [name for name, _ in rows])
    lines.end()
    return Recheck(north, east, dict(rows))


def question_of(form: str, values: Values) -> Question:
    kind, words, numbers = kind_of(form), values.words, values.numbers
    match kind:
        case "part":
            return Question(kind, words[0], number=numbers[0])
        case "closure":
            return Question(kind, words[0], gap=(numbers[0], numbers[1]))
        case "value":
            return Question(kind, words[1], words[0], words[2], numbers[0])
        case "alpha":
            return Question(kind, words[0], "zone", "latitude", numbers[0])
        case "volts":
            return Question(kind, words[0], "transformer", words[1], numbers[0], numbers[1])
    return Question(kind, words[0])


def read_review(lines: Lines) -> Review:
    questions = [question_of(form, values) for form, values in lines.rows(REVIEW_FORMS, ("findings", "end"))]
    (many,) = lines.line("findings COUNT").numbers
    look_for_count(lines, "findings", many, len(questions))
    lines.end()
    return Review(questions)


READERS: dict[str, Callable[[Lines], Report]] = {
    "volts": read_volts,
    "list": read_list,
    "check": read_check,
    "field": read_field,
    "study": read_study,
    "screen": read_screen,
    "outage": read_outage,
    "series": read_series,
    "make": read_make,
    "certificate": read_certificate,
    "recheck": read_recheck,
    "review": read_review,
    "robust": read_robust,
}


def parse_report(file: str, data: bytes) -> tuple[str, Report]:
    """The report that the bytes are, with the word of its first line. Lines of Windows are taken as well."""
    if data[:2] in (b"\xff\xfe", b"\xfe\xff"):
        raise refuse(file, "it is in UTF-16, as `>` of some shells of Windows writes it; write it inside WSL")
    # One letter a byte: a monitor's text is told by how many bytes it has.
    text = data.removeprefix(b"\xef\xbb\xbf").replace(b"\r\n", b"\n").decode("latin-1")
    if not text:
        raise refuse(file, "it is empty: the program ended without a report, and told why on its error stream")
    first = text.split("\n", 1)[0]
    if first.startswith("gicstudy: "):
        raise refuse(file, f"{shown(first)} is what the program tells where it has no report; see docs/FAULTS.md", 1)
    if first not in READERS:
        words = f"{shown(first)} begins no report; a report begins with one of {', '.join(READERS)}"
        raise refuse(file, words, 1)
    lines = Lines(file, text)
    lines.line(first)
    return first, READERS[first](lines)


def read_report(file: str) -> tuple[str, Report]:
    """The report of a file; `-` is the standard input."""
    return parse_report("the standard input" if file == "-" else file, read_bytes(file))
