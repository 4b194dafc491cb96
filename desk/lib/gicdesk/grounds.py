"""What holds whatever the grounds are within a tolerance, by `robust`; of each unit that this leaves open a combination of grounds
with the greatest worst current that a search of corners finds, and one with the least, each confirmed by a screen; and which
ground to measure next.
"""

import dataclasses
import functools
import pathlib
import tempfile
from collections.abc import Iterator, Mapping, Sequence
from typing import TypeVar

from .case_rows import case_of, changed, text_of
from .cases import Case, Field, Row
from .compare import ends_or_nothing, interval_text
from .corners import Model, range_of
from .counts import plural
from .decimals import MILLI, shifted
from .findings import refuse, visible
from .forms import Interval
from .inputs import no_room
from .outages import Asked, Step, checked, whole_result
from .program import Program, Run, ending
from .progress import Progress
from .reports import Elements, Robust, Screen, ScreenUnit, Volts
from .reports import Field as FieldReport
from .tables import Table
from .together import together

Kind = TypeVar("Kind")
UNITS, MEASURED = "units.csv", "measured.csv"
LEAST, GREATEST = "least", "greatest"  # the witnesses of a unit, and how their files begin
LEAST_TOLERANCE, MOST_TOLERANCE = 1, 90  # per cent
MEASURES = 3  # how many grounds are named, one after another
CANDIDATES = 8  # how many are tried for each, those that move the open units most
SHOWN = 40  # units on the terminal
NO_MODE = "gicstudy: usage: mode"
SETTLED = ("reaches", "below", "outside")
OPEN = "open"  # what a unit is with another verdict
JUDGED = ("reaches", "below", "undecided")
COUNTED = ("reaches", "below", OPEN, "outside")


def read_tolerance(text: str) -> int:
    if not (text.isascii() and text.isdigit() and len(text) <= 2 and LEAST_TOLERANCE <= int(text) <= MOST_TOLERANCE):
        words = f"it is no whole number of {LEAST_TOLERANCE} to {MOST_TOLERANCE}; write the tolerance in per cent"
        raise refuse(f"--tolerance={visible(text)}", words)
    return int(text)


def look_for_mode(program: Program) -> None:
    """Refuses a program that has no mode `robust`."""
    if program.run("robust").line == NO_MODE:
        raise refuse(program.path, "it has no mode robust, by which grounds judges a case; give a later program by --program")


@dataclasses.dataclass(frozen=True)
class Witness:
    """A case with grounds within their ranges, and what a screen of it says of a unit."""

    grounds: Mapping[str, int]
    case: str
    row: ScreenUnit


@dataclasses.dataclass(frozen=True)
class OpenUnit:
    """A unit that `robust` leaves open: how much each ground moves its current, and its witnesses."""

    name: str
    effects: Mapping[str, float]
    witnesses: Mapping[str, Witness]

    @property
    def found(self) -> Interval:
        """From the least current that was found to the greatest."""
        return Interval(self.witnesses[LEAST].row.worst.low, self.witnesses[GREATEST].row.worst.high)

    @property
    def verdicts(self) -> str:
        """What the screens of both witnesses say: from one verdict to another where the grounds decide."""
        both = dict.fromkeys(self.witnesses[kind].row.verdict for kind in (LEAST, GREATEST))
        return " to ".join(both)

    @property
    def first(self) -> str:
        """The ground that moves it most; none where there is none with a range."""
        return max(self.effects, key=self.effects.__getitem__, default="")


@dataclasses.dataclass(frozen=True)
class Measured:
    """What holds where these grounds are as the case has them."""

    grounds: tuple[str, ...]
    robust: Robust


@dataclasses.dataclass(frozen=True)
class Grounds:
    whole: Screen
    robust: Robust
    units: list[OpenUnit]
    measured: list[Measured]


def open_names(robust: Screen) -> list[str]:
    """The judged units of which neither `reaches` nor `below` holds, whatever the word."""
    return [row.name for row in robust.rows if row.verdict not in SETTLED]


@dataclasses.dataclass(frozen=True)
class Judge:
    """Runs the program over the case, and over the case with other rows."""

    asked: Asked
    tolerance: int

    @functools.cached_property
    def case(self) -> Case:
        return case_of(self.asked.case, self.asked.copies.inputs["case"].data)

    def report(self, kind: type[Kind], mode: str, *words: str) -> Kind:
        case = f"--case={self.asked.case}"
        run = self.asked.program.run(*self.asked.copies.words((mode, case, *words)))
        if run.status != 0:
            raise refuse(self.asked.case, ending(run))
        return checked(kind, run.report, mode)

    def run_robust(self, asked: Asked) -> Run:
        return dataclasses.replace(asked, words=(*asked.words, f"--tolerance={self.tolerance}")).run("robust", asked.switch)

    def robust(self, run: Run) -> Robust:
        if run.network_fault is not None:
            word, node = run.network_fault
            raise refuse(self.asked.case, f"with its grounds at their greatest it is {word} at {node}; take a smaller tolerance")
        if run.status != 0:
            raise refuse(self.asked.case, ending(run))
        return checked(Robust, run.report, "robust")

    def over(self, text: str, mode: str) -> Run:
        """A run over another case."""
        try:
            with tempfile.NamedTemporaryFile(suffix=".toml", dir=self.asked.copies.folder) as case:
                pathlib.Path(case.name).write_text(text)
                asked = dataclasses.replace(self.asked, case=case.name)
                return self.run_robust(asked) if mode == "robust" else asked.run(mode, asked.switch)
        except OSError as error:
            raise no_room(error, "the case of a run") from None

    def with_grounds(self, grounds: Mapping[str, int], what: str) -> str:
        fields = {name: Field("ground", micro_ohm) for name, micro_ohm in grounds.items()}
        return text_of(changed(self.case, "substation", fields), self.asked.case, what)

    def with_measured(self, grounds: Sequence[str]) -> str:
        fields = dict.fromkeys(grounds, Field("tolerance", 0))
        return text_of(changed(self.case, "substation", fields), self.asked.case, "Grounds that were measured have no tolerance.")

    def model(self, field: int) -> Model:
        switch = () if self.asked.switch is None else (f"--switch={self.asked.switch}",)
        volts = [self.report(Volts, "volts", f"--{way}={field}") for way in ("north", "east")]
        ranges = {}
        for row in self.case.lists["substation"]:
            ground, own = row.value("ground"), row.value("tolerance")
            if isinstance(ground, int):
                ranges[row.name] = range_of(ground, own if isinstance(own, int) else self.tolerance)
        elements = self.report(Elements, "list").elements
        return Model(elements, (volts[0], volts[1]), self.report(FieldReport, "field", f"--north={field}", *switch), ranges)

    def witness(self, unit: str, kind: str, grounds: Mapping[str, int]) -> Witness:
        what = f"Made by gicdesk grounds: within {self.tolerance} % the {kind} worst current of {unit} that was found."
        text = self.with_grounds(grounds, what)
        run = self.over(text, "screen")
        if run.status != 0:
            raise refuse(self.asked.case, f"with the grounds for {unit}: {ending(run)}")
        rows = {row.name: row for row in checked(Screen, run.report, "screen").rows}
        return Witness(grounds, text, rows[unit])


def open_units(judge: Judge, robust: Robust, next_piece: Step) -> Iterator[OpenUnit]:
    """Each unit that is left open with its witnesses; the screens run together."""
    names = open_names(robust)
    if not names:
        return
    model = judge.model(robust.field)
    rows = {row.name: row for row in judge.case.lists["transformer"]}

    def found(asked: tuple[Row, str]) -> Witness:
        row, kind = asked
        return judge.witness(row.name, kind, model.search(row, kind == GREATEST))

    witnesses = together(found, [(rows[name], kind) for name in names for kind in (LEAST, GREATEST)])
    for name in names:
        next_piece(name)
        least, greatest = next(witnesses), next(witnesses)
        yield OpenUnit(name, model.effects(rows[name]), {LEAST: least, GREATEST: greatest})


def order_of(units: Sequence[OpenUnit]) -> list[str]:
    """The grounds by how much they move the open units together, each unit's ones by their parts of all that moves it."""
    sums: dict[str, float] = {}
    for unit in units:
        whole = sum(unit.effects.values()) or 1.0
        for name, effect in unit.effects.items():
            sums[name] = sums.get(name, 0.0) + effect / whole
    return sorted((name for name, part in sums.items() if part > 0), key=lambda name: (-sums[name], name))


def measured_first(judge: Judge, units: Sequence[OpenUnit], next_piece: Step) -> Iterator[Measured]:
    """Grounds to measure one after another: each time the one that leaves the fewest units open, and of these the one that leaves
    the narrowest intervals."""
    left, chosen, names = order_of(units)[:CANDIDATES], tuple[str, ...](), {unit.name for unit in units}

    def worth(measured: Measured) -> tuple[int, int]:
        widths = (row.worst.high - row.worst.low for row in measured.robust.rows if row.name in names)
        return len(open_names(measured.robust)), sum(widths)

    for _ in range(min(MEASURES, len(left))):
        tried = [(*chosen, name) for name in left]
        next_piece(f"what to measure behind {len(chosen)}")
        runs = together(lambda grounds: judge.over(judge.with_measured(grounds), "robust"), tried)
        best = min((Measured(grounds, judge.robust(run)) for grounds, run in zip(tried, runs)), key=worth)
        yield best
        chosen = best.grounds
        left.remove(chosen[-1])
        if not open_names(best.robust):
            break


def found_grounds(judge: Judge, whole: Screen, robust: Robust, progress: Progress) -> Grounds:
    """What comes of the units that are left open, and which ground to measure next."""
    progress.total += len(open_names(robust)) + MEASURES
    units = list(open_units(judge, robust, progress.next))
    before = progress.done
    measured = list(measured_first(judge, units, progress.next))
    progress.total -= MEASURES - (progress.done - before)
    return Grounds(whole, robust, units, measured)


def make_grounds(asked: Asked, tolerance: int) -> Grounds:
    look_for_mode(asked.program)
    judge = Judge(asked, tolerance)
    with Progress(2) as progress:
        progress.next("screen")
        whole = whole_result(asked)
        if whole.screen is None:
            raise refuse(asked.case, f"its network is {whole.outcome.word} at {whole.outcome.node}; mend that before")
        progress.next("robust")
        robust = judge.robust(judge.run_robust(asked))
        found = found_grounds(judge, whole.screen, robust, progress)
    asked.program.look_for_change()
    return found


def counted(verdict: str) -> str:
    return verdict if verdict in SETTLED else OPEN


def verdicts_text(screen: Screen) -> str:
    words = [counted(row.verdict) for row in screen.rows]
    return " ".join(f"{word} {words.count(word)}" for word in COUNTED)


def unit_cells(found: Grounds, unit: OpenUnit) -> list[str]:
    before = {row.name: row for row in found.whole.rows}[unit.name]
    holds = {row.name: row for row in found.robust.rows}[unit.name]
    currents = [interval_text(worst) for worst in (before.worst, holds.worst, unit.found)]
    return [unit.name, *currents, unit.verdicts, unit.first]


def report_text(asked: Asked, found: Grounds) -> str:
    """What holds; then the open units, the greatest current first; and what holds once grounds are measured."""
    robust = found.robust
    text = f"case {visible(asked.case)}, tolerance {robust.tolerance} %, threshold {shifted(robust.threshold, MILLI)} A"
    text += f", field {shifted(robust.field, MILLI)} V/km\nwith the grounds of the case: {verdicts_text(found.whole)}\n"
    text += f"whatever they are within the tolerance: {verdicts_text(robust)}\n"
    if found.units:
        ordered = sorted(found.units, key=lambda unit: -unit.found.high)
        heads = ("open", "as the case has it, A", "holds, A", "found, A", "found", "moved most by")
        text += "\n" + Table(heads, [unit_cells(found, unit) for unit in ordered[:SHOWN]]).columns(heads[1:4])
        if len(ordered) > SHOWN:
            text += f"and {plural(len(ordered) - SHOWN, 'unit')} more, which --out writes\n"
    if found.measured:
        rows = [[one.grounds[-1], verdicts_text(one.robust)] for one in found.measured]
        text += "\nmeasure next, and what holds where this ground and those above it are as the case has them:\n"
        text += Table(("ground", "then"), rows).columns()
    return text


def units_table(found: Grounds) -> Table:
    """Each transformer; of one that is open the currents of its witnesses too, and the ground that moves it most."""
    heads = ["transformer"]
    for name in ("case", "holds", LEAST, GREATEST):
        heads += [f"{name}_low_A_per_phase", f"{name}_high_A_per_phase", f"{name}_verdict"]
    units = {unit.name: unit for unit in found.units}
    rows = []
    for before, holds in zip(found.whole.rows, found.robust.rows):
        unit = units.get(before.name)
        cells = [before.name]
        witnesses = [None if unit is None else unit.witnesses[kind].row for kind in (LEAST, GREATEST)]
        for row in (before, holds, *witnesses):
            cells += ["", "", ""] if row is None else [*ends_or_nothing(row.worst), row.verdict]
        rows.append([*cells, "" if unit is None else unit.first])
    return Table([*heads, "moved_most_by"], rows)


def measured_table(found: Grounds) -> Table:
    """How many units have each verdict: as the case has the grounds, within the tolerance, and with grounds measured."""
    listed: list[tuple[str, Screen]] = [("as the case has them", found.whole), ("", found.robust)]
    listed += [(" ".join(one.grounds), one.robust) for one in found.measured]
    rows = [
        [grounds, *(str(sum(row.verdict == verdict for row in screen.rows)) for verdict in JUDGED), " ".join(open_names(screen))]
        for grounds, screen in listed
    ]
    return Table(["measured", *JUDGED, "open"], rows)


def files_of(found: Grounds, comma: bool) -> dict[str, str]:
    """The files of --out: two tables, and two cases of each unit that is open."""
    files = {UNITS: units_table(found).csv(comma), MEASURED: measured_table(found).csv(comma)}
    for unit in found.units:
        files |= {f"{kind}_{unit.name}.toml": witness.case for kind, witness in unit.witnesses.items()}
    return files
