"""The whole study of a case: each report of the program, kept as it came, and what the page is made of."""

import dataclasses
import datetime
import functools
from collections.abc import Iterable, Iterator, Mapping
from typing import Any, TypeVar

from . import grounds, mitigate, outages
from .counts import plural
from .directions import STEP, bearing_of, current_at, direction_counts, parts_of
from .doubts import Doubt, doubts_of
from .events import BaseSwitchings, Event, Items, one_event, read_events
from .factors import Factor, read_factors, size, total
from .findings import Finding, Refused, collected, refuse, visible
from .forms import Interval
from .gict import BEYOND, GicT, Maker, Subject
from .inputs import Copies, Input
from .network import Degrees, Network, Place, in_metres, laid_out, network_of, read_case, read_degrees
from .outages import Asked, Outages, Result, Worst, worst_of
from .program import Program, Run, commit_of, ending, is_recorded
from .progress import Progress
from .questions import question_text
from .reactors import WAYS, Reactors, make_reactors, reactors_in
from .reports import (
    Check,
    Elements,
    Field,
    Outage,
    Report,
    Review,
    Robust,
    Screen,
    ScreenUnit,
    Series,
    Unit,
    Volts,
    parse_report,
)
from .reports import Study as StormReport
from .reviewed import Asked as AskedOf
from .reviewed import asked_of, marks_of, review_questions
from .sources import Sources, read_sources
from .spans import Compared, compared
from .study_marks import marks_lines
from .storms import Seconds, StormStep, SwitchingRow, seconds_above, storm_steps, switching_rows
from .storm_notes import factor_notes, field_notes, switching_notes, time_notes, zone_notes
from .study_seen import seen_case
from .together import together
from .waveforms import Waveform, read_waveform

Kind = TypeVar("Kind")
OPTIONS = ("storm", "switch", "waveform", "factors", "events", "places", "sources", "width")
FILES = ("case", *OPTIONS[:-1])
HEAD = ("title", "project", "author", "revision", "data_date")  # what is said at the head of the page
EVENT = "event_"  # the report of an event, with its number behind
SHOWN = 40  # units and questions on the terminal
MUST = ("reaches", "undecided")  # the verdicts of a unit that must be assessed
# What brings a unit to the threshold, in the order in which it is looked for.
BY_EVENT, BY_OUTAGE, BY_LIST, BY_NOTHING = "by the event", "with one item out", "in an event of the list", "no"


@dataclasses.dataclass(frozen=True)
class Request:
    """What is asked: the program, and the names of the files as they were given; each run gets their copies."""

    program: Program
    copies: Copies
    case: str
    storm: str | None = None
    switch: str | None = None
    waveform: str | None = None
    factors: str | None = None
    events: str | None = None
    places: str | None = None
    sources: str | None = None
    width: str | None = None
    tolerance: int | None = None  # in per cent, of grounds
    has_devices: bool = False  # whether a blocking device is tried in each neutral
    head: Mapping[str, str] = dataclasses.field(default_factory=dict)  # by the words of HEAD

    @property
    def case_word(self) -> str:
        return f"--case={self.case}"

    def run(self, mode: str, *words: str) -> Run:
        """A run of the case."""
        return self.program.run(*self.copies.words((mode, self.case_word, *words)))

    def data(self, role: str) -> bytes:
        """What the file of an option holds that was given."""
        return self.copies.inputs[role].data

    @property
    def standing_switch(self) -> str | None:
        """The switchings that are in force in every report. Those of a storm have their times in it alone."""
        return self.switch if self.storm is None else None

    @property
    def asked(self) -> Asked:
        """What screens of outages are made of."""
        return Asked(self.program, self.copies, self.case, self.standing_switch, self.words)

    @property
    def words(self) -> tuple[str, ...]:
        return () if self.width is None else (f"--width={self.width}",)

    @property
    def standing_words(self) -> tuple[str, ...]:
        return () if self.standing_switch is None else (f"--switch={self.standing_switch}",)

    @property
    def screen_words(self) -> tuple[str, ...]:
        """The words of a screen of the whole network, of its outages, and of a field."""
        return (*self.standing_words, *self.words)

    def file_of(self, run: Run) -> str:
        """The file that the line of a run speaks of: the case where it speaks of no other."""
        given = {"storm": self.storm, "switch": self.switch}.get(run.file or "")
        return self.case if given is None else given


@dataclasses.dataclass(frozen=True)
class Kept:
    """A run with its words as they can be given again, and its report where there is one."""

    name: str
    words: tuple[str, ...]
    run: Run
    mode: str
    report: Report | None


@dataclasses.dataclass(frozen=True)
class Storm:
    """A storm: its report, or the line of the program where it has none, its steps, and the series of units in it."""

    report: StormReport | None
    fault: str
    steps: list[StormStep]
    series: dict[str, Series]


@dataclasses.dataclass(frozen=True)
class Losses:
    """What the units with a factor draw: in the direction of the field in which they draw most together."""

    factors: dict[str, Factor]
    bearing: int
    field: Field


@dataclasses.dataclass(frozen=True)
class Flows:
    """The currents of all lines in a field of one direction."""

    bearing: int
    field: Field

    @property
    def lines(self) -> dict[str, Interval]:
        """Those that carry one, positive from the first end of the line to the other."""
        return {item.name: item.value for item in self.field.items if item.kind == "line" and item.value is not None}


@dataclasses.dataclass(frozen=True)
class UnitFacts:
    """A transformer in all reports."""

    benchmark: ScreenUnit
    supplemental: ScreenUnit
    outage: Unit
    worst_outage: Worst | None
    worst_event: Worst | None
    peak: Unit | None  # over the storm
    seconds: Seconds | None
    bearing: int | None  # in degrees from the north over the east, from 0 to 179

    @property
    def name(self) -> str:
        return self.benchmark.name

    @property
    def assessed(self) -> str:
        """What brings it to the threshold of the benchmark event, or may."""
        if self.benchmark.verdict in MUST:
            return BY_EVENT
        if self.outage.verdict in MUST:
            return BY_OUTAGE
        return BY_LIST if self.worst_event is not None and self.worst_event.unit.verdict in MUST else BY_NOTHING

    @property
    def is_assessed(self) -> bool:
        return self.assessed != BY_NOTHING

    @property
    def is_applicable(self) -> bool:
        """Whether the standard applies to it: its high side has more than 200 kV and an earthed wye. The program judges these alone."""
        return self.benchmark.verdict != "outside"


@dataclasses.dataclass(frozen=True)
class Within:
    """What holds whatever the grounds are within a tolerance; or the line of the program where nothing is said of that."""

    tolerance: int
    found: grounds.Grounds | None
    fault: str = ""


@dataclasses.dataclass(frozen=True)
class Devices:
    """What a blocking device in each neutral in turn does; or why none can be tried."""

    found: mitigate.Mitigation | None
    fault: str = ""


@dataclasses.dataclass(frozen=True)
class Study:
    request: Request
    began: datetime.datetime
    commit: str | None
    program_checksum: str
    inputs: list[Input]
    kept: list[Kept]
    review: Review
    check: Check
    screen: Screen
    supplemental: Screen
    outage: Outage
    units: list[UnitFacts]  # the greatest worst current first
    events: Outages | None
    network: Network | None
    places: dict[str, Place]
    placed: int  # how many of these by the table
    parts: int  # of the network that were set beside the others on the map
    storm: Storm | None
    losses: Losses | None
    flows: Flows | None = None
    waveform: Waveform | None = None
    gict: list[GicT] = dataclasses.field(default_factory=list)  # of the units that are assessed, where there is a waveform
    gict_beyond: list[GicT] = dataclasses.field(default_factory=list)  # of those that reach the threshold of the supplemental event
    is_recorded: bool = False  # the program, in the record of a build
    compared: Compared | None = None  # the spans with the places, where there is a table of these
    reactors: Reactors = Reactors()
    doubts: list[Doubt] = dataclasses.field(default_factory=list)  # what the desk asks beside the review
    sources: Sources | None = None
    within: Within | None = None
    devices: Devices | None = None

    @functools.cached_property
    def case(self) -> dict[str, Any] | None:
        """The case, where Python reads it."""
        return next((read_case(given.data) for given in self.inputs if given.role == "case"), None)

    @functools.cached_property
    def asked(self) -> list[AskedOf]:
        """What the writer of the case is asked: by the spans that don't fit the places, by the review, and by the desk."""
        reviewed = review_questions(self.review.questions, self.compared, self.case)
        return reviewed + asked_of([(doubt.text, doubt.names) for doubt in self.doubts], self.case)

    @property
    def questions(self) -> list[str]:
        return [asked.text for asked in self.asked]

    @functools.cached_property
    def marks(self) -> dict[str, list[int]]:
        """Of each unit the numbers of the questions that can change what is said of it."""
        return marks_of(self.asked, self.case)

    @property
    def notes(self) -> list[str]:
        """What of the storm, of the waveform and of the factors is lawful, and mostly not meant."""
        notes = [] if self.losses is None else factor_notes(self.losses.factors)
        notes += [] if self.waveform is None else time_notes(self.waveform.times, "waveform")
        if self.storm is not None:
            data = next((given.data for given in self.inputs if given.role == "storm"), b"time,north,east\n")
            zones = [] if self.network is None else self.network.zones
            notes += zone_notes(data, zones, len(self.storm.steps)) + field_notes(self.storm.steps)
            notes += switching_notes(self.switchings, self.storm.steps)
        return notes

    @property
    def has_storm_report(self) -> bool:
        return self.storm is not None and self.storm.report is not None

    @property
    def assessed(self) -> list[UnitFacts]:
        """The units that reach the threshold or may, in the order of `units`."""
        return [unit for unit in self.units if unit.is_assessed]

    @property
    def applicable(self) -> list[UnitFacts]:
        """The units that the standard applies to, in the order of `units`."""
        return [unit for unit in self.units if unit.is_applicable]

    def brought(self, by: str) -> list[UnitFacts]:
        """Those that this brings to the threshold, in the order of `units`."""
        return [unit for unit in self.units if unit.assessed == by]

    @property
    def beyond(self) -> list[UnitFacts]:
        """The others that reach the threshold of the supplemental event or may."""
        return [unit for unit in self.units if unit.supplemental.verdict in MUST and not unit.is_assessed]

    @property
    def all_gict(self) -> list[tuple[Screen, list[GicT]]]:
        """Each event that has any, with its screen."""
        return [(screen, found) for screen, found in ((self.screen, self.gict), (self.supplemental, self.gict_beyond)) if found]

    @property
    def switchings(self) -> list[SwitchingRow]:
        """The rows of --switch."""
        return [row for given in self.inputs if given.role == "switch" for row in switching_rows(given.data)]


def worst_losses(factors: Mapping[str, Factor], screen: Screen) -> int:
    """The bearing from 0 to 179 at which the units draw most together, by the high ends of their currents."""
    rows = [row for row in screen.rows if row.name in factors]

    def drawn(bearing: int) -> float:
        return float(total(factors, {row.name: current_at(row, bearing).high for row in rows}))

    return max(range(180), key=drawn)


@dataclasses.dataclass
class Runs:
    """Runs the program, counts the runs, and keeps what came of them."""

    request: Request
    progress: Progress
    kept: list[Kept] = dataclasses.field(default_factory=list)

    def run(self, name: str, mode: str, *words: str) -> Run:
        """A run of the case that is kept under a name."""
        self.progress.next(name)
        return self.keep(name, mode, words, self.request.run(mode, *words))

    def keep(self, name: str, mode: str, words: Iterable[str], run: Run) -> Run:
        """Keeps a run under a name, with words by which it can be asked for again."""
        report = parse_report(f"the report of gicstudy {mode}", run.report)[1] if run.status == 0 else None
        self.kept.append(Kept(name, (mode, self.request.case_word, *words), run, mode, report))
        return run

    def report(self, kind: type[Kind], name: str, mode: str, *words: str) -> Kind:
        """The report of a run that must have one; else its line is the refusal, of the file that it speaks of."""
        self.run(name, mode, *words)
        return self.last_report(kind)

    def reports(self, kind: type[Kind], mode: str, asked: Mapping[str, tuple[str, ...]]) -> Iterator[Kind]:
        """The same of several runs, each with its words under its name; several run at once."""
        runs = together(lambda words: self.request.run(mode, *words), asked.values())
        for name, words in asked.items():
            self.progress.next(name)
            self.keep(name, mode, words, next(runs))
            yield self.last_report(kind)

    def last_report(self, kind: type[Kind]) -> Kind:
        """That of the last run."""
        last = self.kept[-1]
        if last.run.status != 0:
            raise refuse(self.request.file_of(last.run), ending(last.run))
        if not isinstance(last.report, kind):
            words = "it is one of another mode; is --program another program?"
            raise refuse(f"the report of gicstudy {last.mode}", words)
        return last.report


def first_screen(runs: Runs, words: tuple[str, ...], review: Review) -> Screen:
    """The screen of the benchmark event. Where the network can't be solved, what the review asks is told beside it."""
    try:
        return runs.report(Screen, "screen", "screen", *words)
    except Refused as refused:
        if runs.kept[-1].run.network_fault is None:
            raise
        questions = [Finding(runs.request.case, question_text(question)) for question in review.questions]
        raise Refused([*refused.findings, *questions]) from None


@dataclasses.dataclass(frozen=True)
class Tables:
    """What the tables beside the case say."""

    events: list[Event]
    factors: dict[str, Factor]
    places: dict[str, Degrees]
    waveform: Waveform | None
    sources: Sources | None


def read_tables(request: Request, network: Network | None, items: Items) -> Tables:
    """The tables of events, factors and places, and the waveform; all that is wrong with any of them is told at once."""
    findings: list[Finding] = []
    events: list[Event] = []
    factors: dict[str, Factor] = {}
    places: dict[str, Degrees] = {}
    waveform: Waveform | None = None
    sources: Sources | None = None
    unread = "it needs the case, which is in TOML 1.1; write the case without what only TOML 1.1 has"
    with collected(findings):
        if network is None and (request.tolerance is not None or request.has_devices):
            raise refuse("--mitigate" if request.tolerance is None else f"--tolerance={request.tolerance}", unread)
    with collected(findings):
        if request.events is not None:
            events = read_events(request.events, items, request.data("events"))
    with collected(findings):
        if request.factors is not None and network is None:
            raise refuse(request.factors, unread)
        if request.factors is not None and network is not None:
            factors = read_factors(request.factors, network.volts, findings, request.data("factors"))
    with collected(findings):
        if request.places is not None and network is None:
            raise refuse(request.places, unread)
        if request.places is not None and network is not None:
            places = read_degrees(request.places, network.stations, findings, request.data("places"))
    with collected(findings):
        if request.waveform is not None:
            waveform = read_waveform(request.waveform, request.data("waveform"))
    with collected(findings):
        if request.sources is not None and network is None:
            raise refuse(request.sources, unread)
        if request.sources is not None and network is not None:
            sources = read_sources(request.sources, network.names, findings, request.data("sources"))
    if findings:
        raise Refused(findings)
    return Tables(events, factors, places, waveform, sources)


def worst_outages(runner: outages.Runner, outage: Outage, progress: Progress) -> dict[str, Worst]:
    """The worst outage of a single item for each transformer that has a current in one."""
    found: dict[str, list[tuple[str, ScreenUnit]]] = {}
    # A current whose high end is below the low end of the greatest one isn't the worst.
    least = {unit.name: unit.value.low for unit in outage.units if unit.value is not None}
    solved = outages.solved_items(outage)
    for event, run in runner.runs(solved, lambda name: progress.next(f"without {name}")):
        screen = runner.told(event, run).screen
        for row in screen.rows if screen is not None else []:
            if row.worst.high > 0 and row.worst.high >= least.get(row.name, 0):
                found.setdefault(row.name, []).append((event.name, row))
                if row.worst.low > least.get(row.name, 0):
                    least[row.name] = row.worst.low
                    found[row.name] = [pair for pair in found[row.name] if pair[1].worst.high >= row.worst.low]
    return {name: worst_of(rows) for name, rows in found.items()}


def event_results(runs: Runs, runner: outages.Runner, events: list[Event], words: tuple[str, ...]) -> list[Result]:
    """A screen of each event, kept with its switchings. What the program refuses of several is told at once."""
    results: list[Result] = []
    findings: list[Finding] = []
    for number, (event, run) in enumerate(runner.runs(events, runs.progress.next), 1):
        name = f"{EVENT}{number}"
        runs.keep(name, "screen", (*words, f"--switch=reports/{name}.csv"), run)
        with collected(findings):
            results.append(runner.told(event, run))
    if findings:
        raise Refused(findings)
    return results


def run_storm(runs: Runs, request: Request, inputs: Mapping[str, Input], zones: list[str]) -> Storm | None:
    """The storm; its series come later. A network that can't be solved at a step is told, and the study goes on."""
    if request.storm is None:
        return None
    words = storm_words(request)
    run = runs.run("study", "study", *words, *request.words)
    report = runs.kept[-1].report
    if report is None and run.network_fault is None:
        raise refuse(request.file_of(run), ending(run))
    steps = storm_steps(inputs["storm"].data, zones)
    return Storm(report if isinstance(report, StormReport) else None, run.line, steps, {})


def storm_words(request: Request) -> tuple[str, ...]:
    switch = () if request.switch is None else (f"--switch={request.switch}",)
    return (f"--storm={request.storm}", *switch)


def run_series(runs: Runs, storm: Storm | None, names: Iterable[str]) -> None:
    """The current of each of these transformers over the storm."""
    if storm is None or storm.report is None:
        return
    words = {name: (*storm_words(runs.request), f"--transformer={name}", *runs.request.words) for name in names}
    runs.progress.total += len(words)
    asked = {f"series_{name}": given for name, given in words.items()}
    storm.series.update(zip(words, runs.reports(Series, "series", asked)))


def subject_of(unit: UnitFacts, events: Outages | None) -> Subject:
    """A unit that is assessed, in the network in which it reaches the threshold or may: as it stands, or else with its worst
    outage, or else in its worst event."""
    if unit.assessed == BY_OUTAGE and unit.worst_outage is not None:
        return Subject(unit.worst_outage.unit, one_event(unit.worst_outage.event))
    if unit.assessed == BY_LIST and unit.worst_event is not None and events is not None:
        named = {result.event.name: result.event for result in events.results}
        return Subject(unit.worst_event.unit, named[unit.worst_event.event])
    return Subject(unit.benchmark, None)


def run_gict(runs: Runs, waveform: Waveform | None, screen: Screen, base: BaseSwitchings, subjects: list[Subject]) -> list[GicT]:
    """The current over the waveform of each of these units."""
    if waveform is None:
        return []
    request = runs.request
    runs.progress.total += 2 * len(subjects)
    maker = Maker(waveform, screen.field, base, request.copies.folder, request.run, request.case_word, request.words)
    return maker.make(subjects, runs.progress.next)


def run_within(runs: Runs, screen: Screen) -> Within | None:
    """What holds within the tolerance of grounds. That the program can't say it is told, and the study goes on."""
    request, tolerance = runs.request, runs.request.tolerance
    if tolerance is None:
        return None
    judge = grounds.Judge(request.asked, tolerance)
    runs.progress.next("robust")
    run = judge.run_robust(request.asked)
    runs.keep("robust", "robust", (*request.screen_words, f"--tolerance={tolerance}"), run)
    if run.network_fault is not None:
        return Within(tolerance, None, run.line)
    return Within(tolerance, grounds.found_grounds(judge, screen, runs.last_report(Robust), runs.progress))


def run_devices(runs: Runs) -> Devices | None:
    """What a blocking device in each neutral in turn does. That none can be tried is told, and the study goes on."""
    if not runs.request.has_devices:
        return None
    try:
        return Devices(mitigate.tried_devices(runs.request.asked, mitigate.Device(), 0, runs.progress))
    except Refused as refused:
        return Devices(None, "; ".join(finding.words for finding in refused.findings))


def run_losses(runs: Runs, factors: dict[str, Factor], screen: Screen, words: tuple[str, ...]) -> Losses | None:
    if not factors:
        return None
    bearing = worst_losses(factors, screen)
    return Losses(factors, bearing, field_at(runs, "field", screen, bearing, words))


def field_at(runs: Runs, name: str, screen: Screen, bearing: int, words: tuple[str, ...]) -> Field:
    """The currents in the event's field of this bearing."""
    north, east = parts_of(screen.field, bearing)
    return runs.report(Field, name, "field", f"--north={north}", f"--east={east}", *words)


def run_flows(runs: Runs, screen: Screen, words: tuple[str, ...]) -> Flows:
    """The currents of lines in the direction in which most units are at the threshold."""
    counts = direction_counts(screen)
    bearing = STEP * counts.index(max(counts))
    return Flows(bearing, field_at(runs, "flows", screen, bearing, words))


def run_reactors(runs: Runs, case: Input, screen: Screen, words: tuple[str, ...]) -> Reactors:
    """The currents of the windings of reactors, where the case has any."""
    names = reactors_in(read_case(case.data))
    runs.progress.total += len(WAYS) if names else 0
    return make_reactors(
        names, screen.field, lambda name, north, east: runs.report(Field, name, "field", north, east, *words)
    )


def facts_of(
    screen: Screen,
    supplemental: Screen,
    outage: Outage,
    worst: Mapping[str, Worst],
    events: Outages | None,
    storm: Storm | None,
) -> list[UnitFacts]:
    """What all reports say of each transformer, the greatest worst current first."""
    beyond = {row.name: row for row in supplemental.rows}
    without = {unit.name: unit for unit in outage.units}
    in_events = {} if events is None else events.worsts()
    report = None if storm is None else storm.report
    peaks = {} if report is None else {unit.name: unit for unit in report.units}
    series = {} if storm is None else storm.series
    facts = [
        UnitFacts(
            row,
            beyond[row.name],
            without[row.name],
            worst.get(row.name),
            in_events.get(row.name),
            peaks.get(row.name),
            seconds_above(series[row.name].steps, screen.threshold) if row.name in series else None,
            bearing_of(row),
        )
        for row in screen.rows
    ]
    return sorted(facts, key=lambda unit: (-unit.benchmark.worst.high, unit.name))


@dataclasses.dataclass(frozen=True)
class Basis:
    """What the reports say of the case without a storm and without outages."""

    network: Network | None
    review: Review
    check: Check
    items: Items
    screen: Screen
    supplemental: Screen


def look_at_case(runs: Runs, case: Input) -> Basis:
    words = runs.request.screen_words
    review = runs.report(Review, "review", "review")
    screen = first_screen(runs, words, review)
    check = runs.report(Check, "check", "check", *runs.request.standing_words)
    elements = runs.report(Elements, "list", "list").elements
    lines = runs.report(Volts, "volts", "volts", "--north=8000").lines
    supplemental = runs.report(Screen, "supplemental", "screen", "--event=supplemental", *words)
    items = outages.items_of(elements, lines, screen)
    return Basis(network_of(case.data), review, check, items, screen, supplemental)


def expect_runs(runs: Runs, basis: Basis, tables: Tables) -> int:
    """Counts the runs that are still to come: as many single outages as there are items, and series as there are units
    in question so far. The answer is how many series these are."""
    in_question = {row.name for row in basis.screen.rows if row.verdict in MUST} | set(tables.factors)
    storm = runs.request.storm is not None
    expected = len(in_question) if storm else 0
    runs.progress.total += storm + len(tables.events) + bool(tables.factors)
    runs.progress.total += len(basis.items.lines) + len(basis.screen.rows) + expected
    return expected


def outages_and_worst(
    runs: Runs, basis: Basis, base: BaseSwitchings, events: list[Event], outage: Outage
) -> tuple[Outages | None, dict[str, Worst]]:
    """The events of the list, and the worst single outage of each transformer."""
    request = runs.request
    runs.progress.total -= sum(outcome.word != "solved" for outcome in outage.outcomes)
    runner = outages.Runner(request.asked, base, request.events or request.case)
    found = None
    if request.events is not None:
        outages.look_for_room(request.events, base, events)
        whole = outages.solved_result(Event("", ()), basis.screen)
        found = Outages(whole, event_results(runs, runner, events, request.words))
    return found, worst_outages(runner, outage, runs.progress)


def look_for_one_case(reports: Iterable[Screen | Outage | StormReport | None]) -> None:
    """Refuses reports of several cases: their transformers are the same ones, unless the program is another one."""
    names = {tuple(unit.name for unit in report.units) for report in reports if report is not None}
    if len(names) > 1:
        raise refuse("the reports of gicstudy", "they are of several cases; is --program another program?")


@dataclasses.dataclass(frozen=True)
class Found:
    """What comes of all runs."""

    basis: Basis
    tables: Tables
    storm: Storm | None
    outage: Outage
    flows: Flows
    reactors: Reactors
    losses: Losses | None
    within: Within | None
    events: Outages | None
    units: list[UnitFacts]
    gict: list[GicT]
    gict_beyond: list[GicT]
    devices: Devices | None


def run_all(runs: Runs, inputs: Mapping[str, Input]) -> Found:
    """Runs all that is asked, in the order in which faults of the files come early."""
    request, progress = runs.request, runs.progress
    basis = look_at_case(runs, inputs["case"])
    network, screen, supplemental = basis.network, basis.screen, basis.supplemental
    tables = read_tables(request, network, basis.items)
    base, waveform = request.asked.base, tables.waveform
    expected = expect_runs(runs, basis, tables)
    storm = run_storm(runs, request, inputs, network.zones if network is not None else ["*"])
    outage = runs.report(Outage, "outage", "outage", *request.screen_words)
    look_for_one_case((screen, supplemental, outage, None if storm is None else storm.report))
    flows = run_flows(runs, screen, request.screen_words)
    reactors = run_reactors(runs, inputs["case"], screen, request.screen_words)
    losses = run_losses(runs, tables.factors, screen, request.screen_words)
    within = run_within(runs, screen)
    events, worst = outages_and_worst(runs, basis, base, tables.events, outage)
    units = facts_of(screen, supplemental, outage, worst, events, storm)
    progress.total -= expected
    run_series(runs, storm, [unit.name for unit in units if wants_series(unit) or unit.name in tables.factors])
    units = facts_of(screen, supplemental, outage, worst, events, storm)
    subjects = [subject_of(unit, events) for unit in units if unit.is_assessed]
    gict = run_gict(runs, waveform, screen, base, subjects)
    beyond = [Subject(unit.supplemental, None, BEYOND) for unit in units if unit.supplemental.verdict in MUST]
    gict_beyond = run_gict(runs, waveform, supplemental, base, beyond)
    devices = run_devices(runs)
    return Found(basis, tables, storm, outage, flows, reactors, losses, within, events, units, gict, gict_beyond, devices)


def make_study(request: Request) -> Study:
    began, commit = datetime.datetime.now().astimezone(), commit_of(request.program.checksum)
    inputs = request.copies.inputs
    if request.tolerance is not None:
        grounds.look_for_mode(request.program)
    with Progress(8 + (request.tolerance is not None)) as progress:
        runs = Runs(request, progress)
        found = run_all(runs, inputs)
    request.program.look_for_change()
    return study_of(runs, found, began, commit)


def study_of(runs: Runs, found: Found, began: datetime.datetime, commit: str | None) -> Study:
    request, basis, tables = runs.request, found.basis, found.tables
    inputs, network = request.copies.inputs, basis.network
    places, parts = ({}, 0) if network is None else laid_out(network, in_metres(tables.places))
    spans = compared(network.links, tables.places, basis.review.questions) if network is not None and tables.places else None
    return Study(
        request=request,
        began=began,
        commit=commit,
        is_recorded=is_recorded(request.program.checksum),
        program_checksum=request.program.checksum,
        inputs=list(inputs.values()),
        kept=runs.kept,
        review=basis.review,
        check=basis.check,
        screen=basis.screen,
        supplemental=basis.supplemental,
        outage=found.outage,
        units=found.units,
        events=found.events,
        network=network,
        places=places,
        placed=len(tables.places),
        parts=parts,
        storm=found.storm,
        losses=found.losses,
        flows=found.flows,
        waveform=tables.waveform,
        gict=found.gict,
        gict_beyond=found.gict_beyond,
        compared=spans,
        reactors=found.reactors,
        doubts=[] if network is None else doubts_of(seen_case(inputs["case"], tables.places, tables.sources)),
        sources=tables.sources,
        within=found.within,
        devices=found.devices,
    )


def wants_series(unit: UnitFacts) -> bool:
    """Whether the unit reaches a threshold or may, in the event or in the storm."""
    return unit.is_assessed or (unit.peak is not None and unit.peak.verdict in MUST)


def shown_current(value: Interval) -> int:
    """The end of an interval that is further from 0, with its sign."""
    return value.high if size(value) == value.high else value.low


def count_text(study: Study) -> str:
    """How many of the units that the standard applies to must be assessed by the event, and how many more something out brings to
    the threshold."""
    counts = {by: len(study.brought(by)) for by in (BY_EVENT, BY_OUTAGE, BY_LIST)}
    more = [f"{many} more {by}" for by, many in counts.items() if by != BY_EVENT and many]
    units = plural(len(study.applicable), "applicable unit")
    by_event = f"{counts[BY_EVENT] or 'None'} of {units} must be assessed by the benchmark event"
    return ", and ".join([by_event, *([", ".join(more)] if more else [])])


def study_text(study: Study, page: str) -> str:
    """What is shown of a study: the questions, which units must be assessed, and where the page is."""
    questions = study.questions
    lines = [f"question: {question}" for question in questions[:SHOWN]]
    if len(questions) > SHOWN:
        lines.append(f"and {plural(len(questions) - SHOWN, 'question')} more")
    lines += [f"note: {note}" for note in study.notes]
    lines.append(count_text(study))
    for units, when in (
        (study.brought(BY_EVENT), BY_EVENT),
        (study.brought(BY_OUTAGE), f"more {BY_OUTAGE}"),
        (study.brought(BY_LIST), f"more {BY_LIST}"),
        (study.beyond, "more by the supplemental event alone"),
    ):
        names = [unit.name for unit in units]
        more = [f"and {len(names) - SHOWN} more"] if len(names) > SHOWN else []
        if names:
            lines.append(f"{len(names)} {when}: {' '.join([*names[:SHOWN], *more])}")
    return "\n".join([*lines, *marks_lines(study.units, study.marks), f"{visible(page)} is made"]) + "\n"
