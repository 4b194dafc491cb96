"""Outages of several items, or of each single one: which is the worst for each transformer, and its current there.

Each event is a run of `screen` with a file of switchings of its own. Every number shown is one that such a run printed.
"""

import dataclasses
import pathlib
import tempfile
from collections import Counter
from collections.abc import Callable, Iterable, Iterator, Sequence
from typing import TypeVar

from .compare import ends_or_nothing, interval_text, outcome_text, verdict_text
from .counts import plural
from .decimals import MILLI, shifted
from .events import MOST_ROWS, BaseSwitchings, Event, Items, one_event, read_events
from .findings import Finding, Refused, refuse, visible
from .inputs import Copies, no_room
from .layouts import LAYOUTS, screen_rows
from .program import Program, Run, ending
from .progress import Progress
from .reports import VERDICTS, Element, Elements, Outage, Outcome, Screen, ScreenUnit, Volts, parse_report
from .tables import Table
from .together import together

Kind = TypeVar("Kind")
Step = Callable[[str], None]  # told of each piece of the work as it begins

UNITS, EVENTS, CURRENTS = "units.csv", "events.csv", "currents.csv"
MOST_PERHAPS = 40  # names in a cell


@dataclasses.dataclass(frozen=True)
class Result:
    """What comes of an event; a screen where its network can be solved."""

    event: Event
    outcome: Outcome
    screen: Screen | None


@dataclasses.dataclass(frozen=True)
class Worst:
    """The event with the greatest high end of a transformer's worst current, and those that may be as bad: their high
    end isn't below the low end of every event."""

    event: str  # empty where no event brings a current
    unit: ScreenUnit
    perhaps: tuple[str, ...]

    @property
    def perhaps_text(self) -> str:
        """These events in a cell, as far as there are not too many."""
        more = [f"and {len(self.perhaps) - MOST_PERHAPS} more"] if len(self.perhaps) > MOST_PERHAPS else []
        return "; ".join([*self.perhaps[:MOST_PERHAPS], *more])


@dataclasses.dataclass(frozen=True)
class Outages:
    """The network with no event, and with each of several."""

    whole: Result
    results: list[Result]

    def solved(self) -> list[tuple[Event, Screen]]:
        return [(result.event, result.screen) for result in self.results if result.screen is not None]

    def names(self) -> list[str]:
        """The transformers in the order of the case; none where no network could be solved."""
        for result in (self.whole, *self.results):
            if result.screen is not None:
                return [row.name for row in result.screen.rows]
        return []

    def crossing(self, verdict: str) -> list[str]:
        """The transformers that are below the threshold with no event, and have this verdict in one."""
        if self.whole.screen is None:
            return []
        there = {row.name for _, screen in self.solved() for row in screen.rows if row.verdict == verdict}
        return [row.name for row in self.whole.screen.rows if row.verdict == "below" and row.name in there]

    def worsts(self) -> dict[str, Worst]:
        """The worst event of each transformer; none where no event could be solved."""
        rows: dict[str, list[tuple[str, ScreenUnit]]] = {}
        for event, screen in self.solved():
            for unit in screen.rows:
                rows.setdefault(unit.name, []).append((event.name, unit))
        return {name: worst_of(found) for name, found in rows.items()}


def worst_of(rows: Sequence[tuple[str, ScreenUnit]]) -> Worst:
    event, unit = max(rows, key=lambda row: (row[1].worst.high, row[1].worst.low))
    if unit.worst.high == 0:
        return Worst("", unit, ())
    least = max(row.worst.low for _, row in rows)
    perhaps = tuple(name for name, row in rows if name != event and row.worst.high >= least)
    return Worst(event, unit, perhaps)


@dataclasses.dataclass(frozen=True)
class Asked:
    """What the runs are made of: the files have the names that were given, and each run gets their copies."""

    program: Program
    copies: Copies
    case: str
    switch: str | None
    words: tuple[str, ...]  # --event and --width, as far as they are given

    def run(self, mode: str, switch: str | None) -> Run:
        switched = () if switch is None else (f"--switch={switch}",)
        return self.program.run(*self.copies.words((mode, f"--case={self.case}", *switched, *self.words)))

    def read(self, mode: str, kind: type[Kind]) -> Kind:
        """The report of a mode of the case alone."""
        words = (mode, f"--case={self.case}")
        run = self.program.run(*self.copies.words(words))
        if run.status != 0:
            raise refuse(" ".join(["gicstudy", *words]), ending(run))
        return checked(kind, run.report, mode)

    @property
    def base(self) -> BaseSwitchings:
        """The switchings of --switch, which the program has taken, with room for those of an event behind them."""
        if self.switch is None:
            return BaseSwitchings()
        base = BaseSwitchings(self.copies.inputs["switch"].data)
        if len(base.rows) >= MOST_ROWS:
            raise refuse(self.switch, f"it has {MOST_ROWS} rows, and none is left for what is taken out; take fewer")
        return base


def checked(kind: type[Kind], data: bytes, mode: str) -> Kind:
    """The report of this kind that the program printed."""
    _, report = parse_report(f"the report of gicstudy {mode}", data)
    if not isinstance(report, kind):
        raise refuse(f"the report of gicstudy {mode}", "it is one of another mode; is --program another program?")
    return report


def solved_result(event: Event, screen: Screen) -> Result:
    many = Counter(row.verdict for row in screen.rows)
    return Result(event, Outcome(event.name, "solved", "", tuple(many[verdict] for verdict in VERDICTS)), screen)


def screen_result(event: Event, run: Run) -> Result | None:
    """What a run of `screen` says of an event; None where it says nothing of the network."""
    if run.status == 0:
        return solved_result(event, checked(Screen, run.report, "screen"))
    if run.network_fault is not None:
        word, node = run.network_fault
        return Result(event, Outcome(event.name, word, node), None)
    return None


def whole_result(asked: Asked) -> Result:
    """The network with the switchings of --switch and no event."""
    run = asked.run("screen", asked.switch)
    result = screen_result(Event("", ()), run)
    if result is None:
        file = asked.switch if asked.switch is not None and run.file == "switch" else asked.case
        raise refuse(file, ending(run))
    return result


def known_items(asked: Asked, whole: Result) -> Items:
    """What of the case can be switched. Its transformers are those of a screen, and not known without one."""
    elements = asked.read("list", Elements).elements
    lines = asked.read("volts", Volts).lines
    screen = whole.screen
    if screen is None and asked.switch is not None:
        result = screen_result(whole.event, asked.run("screen", None))
        screen = None if result is None else result.screen
    return items_of(elements, lines, screen)


def items_of(elements: Sequence[Element], lines: Iterable[str], screen: Screen | None) -> Items:
    """The items by the program's reports of a case."""
    return Items(
        frozenset(lines),
        frozenset(element.name for element in elements if element.role == "ground"),
        frozenset(element.name for element in elements if element.role == "neutral"),
        None if screen is None else frozenset(row.name for row in screen.rows),
    )


def look_for_room(file: str, base: BaseSwitchings, events: Sequence[Event]) -> None:
    """Refuses events whose rows behind those of --switch are more than a file of switchings may have."""
    rows = len(base.rows)
    findings = []
    for event in events:
        if rows + len(event.switchings) > MOST_ROWS:
            words = f"{event.name} has {len(event.switchings)} rows, with {rows} of --switch more than {MOST_ROWS}"
            findings.append(Finding(file, f"{words}; take fewer", event.switchings[0].line))
    if findings:
        raise Refused(findings)


@dataclasses.dataclass(frozen=True)
class Runner:
    """Runs `screen` for each of several events."""

    asked: Asked
    base: BaseSwitchings
    file: str  # of the events, for refusals

    def run(self, event: Event) -> Run:
        try:
            with tempfile.NamedTemporaryFile(suffix=".csv", dir=self.asked.copies.folder) as switchings:
                pathlib.Path(switchings.name).write_bytes(self.base.with_event(event))
                return self.asked.run("screen", switchings.name)
        except OSError as error:
            raise no_room(error, "the switchings of a run") from None

    def runs(self, events: Sequence[Event], next_piece: Step) -> Iterator[tuple[Event, Run]]:
        """Each event with its run, in their order; several run at once."""
        runs = together(self.run, events)
        for event in events:
            next_piece(event.name)
            yield event, next(runs)

    def told(self, event: Event, run: Run) -> Result:
        """What a run says of an event; a refusal where it says nothing of the network."""
        result = screen_result(event, run)
        if result is None:
            raise refuse(self.file, f"{event.name}: {ending(run)}", self.line_of(event, run))
        return result

    def line_of(self, event: Event, run: Run) -> int | None:
        """The line of the table that has the row of the switchings which the program refused."""
        place = (run.switch_row or 0) - len(self.base.rows) - 1
        return event.switchings[place].line if 0 <= place < len(event.switchings) else None


def listed_results(runner: Runner, events: Sequence[Event], next_piece: Step) -> list[Result]:
    """A screen of each event. What the program refuses of several is told at once."""
    results: list[Result] = []
    findings: list[Finding] = []
    for event, run in runner.runs(events, next_piece):
        try:
            results.append(runner.told(event, run))
        except Refused as refused:
            findings += refused.findings
    if findings:
        raise Refused(findings)
    return results


def solved_items(outage: Outage) -> list[Event]:
    """The outages of a single item that can be solved."""
    return [one_event(outcome.item) for outcome in outage.outcomes if outcome.word == "solved"]


def single_results(runner: Runner, outage: Outage, next_piece: Step) -> list[Result]:
    """A screen of each outage of a single item that can be solved; the others end as `outage` says."""
    solved = {event.name: runner.told(event, run) for event, run in runner.runs(solved_items(outage), next_piece)}
    return [
        solved.get(outcome.item, Result(one_event(outcome.item), outcome, None)) for outcome in outage.outcomes
    ]


def outage_report(asked: Asked) -> Outage:
    run = asked.run("outage", asked.switch)
    if run.status != 0:
        words = "without --events each item is taken out of a network that can be solved"
        raise refuse(asked.case, f"{ending(run)}; {words}")
    return checked(Outage, run.report, "outage")


def find_outages(asked: Asked, file: str | None) -> Outages:
    """The outages of the events of a file; or, without one, of each single line and each single transformer."""
    with Progress(2) as progress:
        progress.next("screen")
        whole = whole_result(asked)
        base = asked.base
        runner = Runner(asked, base, file or asked.case)
        if file is None:
            progress.next("the report of outage")
            outage = outage_report(asked)
            progress.total += len(solved_items(outage))
            results = single_results(runner, outage, progress.next)
        else:
            progress.next("what can be switched")
            events = read_events(file, known_items(asked, whole), asked.copies.inputs["events"].data)
            look_for_room(file, base, events)
            progress.total += len(events)
            results = listed_results(runner, events, progress.next)
    asked.program.look_for_change()
    return Outages(whole, results)


def head_text(asked: Asked, outages: Outages) -> str:
    screens = [outages.whole.screen, *(screen for _, screen in outages.solved())]
    first = next((screen for screen in screens if screen is not None), None)
    text = f"case {visible(asked.case)}"
    if asked.switch is not None:
        text += f", switchings {visible(asked.switch)}"
    if first is not None:
        text += f", threshold {shifted(first.threshold, MILLI)} A, field {shifted(first.field, MILLI)} V/km"
        text += f", width {shifted(first.width, MILLI)} A"
    many = Counter(result.outcome.word for result in outages.results)
    ends = ", ".join(f"{many[word]} {word}" for word in ("solved", "unearthed", "unresolved", "idle") if many[word])
    whole = outcome_text(outages.whole.outcome)
    text += f"\nno event: {whole}\n{plural(len(outages.results), 'event')}: {ends}\n"
    for verdict in ("reaches", "undecided"):
        names = outages.crossing(verdict)
        if names:
            text += f"below with no event, and {verdict} in one: {' '.join(names)}\n"
    return text


def report_text(asked: Asked, outages: Outages, listed: bool) -> str:
    """What is shown: how the events end (without a list those that can't be solved), and then each transformer with
    its worst event, the greatest current first."""
    text = head_text(asked, outages)
    results = [result for result in outages.results if listed or result.outcome.word in ("unearthed", "unresolved")]
    if results:
        ends = [(result.event.name, str(result.event), outcome_text(result.outcome)) for result in results]
        text += "\n" + Table(("event", "switchings", "ends"), ends).columns()
    whole = {} if outages.whole.screen is None else {row.name: row for row in outages.whole.screen.rows}
    rows = []
    for name, worst in sorted(outages.worsts().items(), key=lambda found: -found[1].unit.worst.high):
        before = whole.get(name)
        rows.append(
            (
                name,
                interval_text(None if before is None else before.worst),
                interval_text(worst.unit.worst),
                verdict_text(None if before is None else before.verdict, worst.unit.verdict),
                worst.event,
                worst.perhaps_text,
            )
        )
    if rows:
        heads = ("transformer", "no event, A", "worst, A", "verdict", "worst event", "perhaps as bad")
        text += "\n" + Table(heads, rows).columns(heads[1:3])
    return text


def units_table(outages: Outages) -> Table:
    """Each transformer with no event, and in its worst one."""
    heads = (
        "transformer,no_event_low_A_per_phase,no_event_high_A_per_phase,no_event_verdict,worst_event,"
        "worst_low_A_per_phase,worst_high_A_per_phase,worst_verdict,perhaps_as_bad,events_reaches,events_undecided"
    ).split(",")
    whole = {} if outages.whole.screen is None else {row.name: row for row in outages.whole.screen.rows}
    worsts = outages.worsts()
    verdicts = Counter((row.name, row.verdict) for _, screen in outages.solved() for row in screen.rows)
    rows = []
    for name in outages.names():
        before, worst = whole.get(name), worsts.get(name)
        cells = [name, *ends_or_nothing(None if before is None else before.worst)]
        cells.append("" if before is None else before.verdict)
        if worst is None:
            cells += ["", "", "", "none", ""]
        else:
            cells += [worst.event, *ends_or_nothing(worst.unit.worst), worst.unit.verdict, worst.perhaps_text]
        rows.append([*cells, *(str(verdicts[name, verdict]) for verdict in ("reaches", "undecided"))])
    return Table(heads, rows)


def events_table(outages: Outages) -> Table:
    """How each event ends; the network with no event has the first row, without a name."""
    rows = []
    for result in (outages.whole, *outages.results):
        counts = map(str, result.outcome.counts or [""] * len(VERDICTS))
        rows.append([result.event.name, str(result.event), result.outcome.word, result.outcome.node, *counts])
    return Table(["event", "switchings", "outcome", "node", *VERDICTS], rows)


def currents_table(outages: Outages, head: str = "event") -> Table:
    """Each transformer in each event that can be solved, as a table of `screen` has it; first with no event."""
    heads = LAYOUTS["screen"].columns.split(" ")
    rows = []
    for result in (outages.whole, *outages.results):
        if result.screen is not None:
            rows += [[result.event.name, *(cells[head] for head in heads)] for cells in screen_rows(result.screen)]
    return Table([head, *heads], rows)


def files_of(outages: Outages, comma: bool) -> dict[str, str]:
    """The files of --out."""
    return {
        UNITS: units_table(outages).csv(comma),
        EVENTS: events_table(outages).csv(comma),
        CURRENTS: currents_table(outages).csv(comma),
    }
