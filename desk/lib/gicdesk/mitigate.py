"""Devices in neutrals: with which one, or with which two, the fewest units reach the threshold.

Each row is a run of `screen` over the case with a device in these neutrals, so every current is one of that very network.
"""

import dataclasses
import functools
import itertools
import pathlib
import tempfile
from collections.abc import Iterable, Iterator, Sequence

from .case_rows import case_of, changed, text_of
from .cases import Case, Field, Row
from .compare import interval_text
from .counts import plural
from .decimals import MICRO, MILLI, shifted
from .events import Event
from .findings import refuse, visible
from .inputs import no_room
from .outages import Asked, Outages, Result, Step, currents_table, screen_result, whole_result
from .program import Run, ending
from .progress import Progress
from .quantities import OHM, Number, bare, whole
from .records import NUMBER
from .reports import Screen, ScreenUnit
from .tables import Table
from .together import together

RANKING, CURRENTS, BEST = "ranking.csv", "currents.csv", "best.toml"
BLOCKED = "blocked"
WITHOUT_NEUTRAL = "delta-delta"  # the kind
MOST_PAIRED = 200
SHOWN = 15  # rows of a table on the terminal
MOST_NAMED = 8  # units in a cell there
MUST = ("reaches", "undecided")
AND = " + "  # between the neutrals of a row


@dataclasses.dataclass(frozen=True)
class Device:
    """A blocking device, or a resistor, as the key `neutral` of a case has it."""

    micro_ohm: int | None = None

    @property
    def field(self) -> Field:
        return Field("neutral", BLOCKED if self.micro_ohm is None else self.micro_ohm)

    def fits(self, unit: Row) -> bool:
        """Whether the unit has a neutral that can have it: one is in the place of a resistor, but no resistor of a device."""
        if unit.value("kind") == WITHOUT_NEUTRAL:
            return False
        there = unit.value("neutral")
        return there is None or (self.micro_ohm is None and there != BLOCKED)

    def __str__(self) -> str:
        return "a blocking device" if self.micro_ohm is None else f"a resistor of {shifted(self.micro_ohm, MICRO)} ohm"


def read_device(ohm: str | None) -> Device:
    """The device of --ohm."""
    if ohm is None:
        return Device()
    if not NUMBER.fullmatch(ohm) or not Number(OHM.least) <= Number(ohm) <= Number(OHM.most):
        raise refuse(f"--ohm={bare(ohm)}", f"it is no number of {OHM.least} to {OHM.most} ohm; write the resistor of a neutral")
    return Device(whole(Number(ohm), OHM))


def read_pairs(text: str | None) -> int:
    """Of how many neutrals pairs are tried; 0 where none are asked for."""
    if text is None:
        return 0
    if not (text.isascii() and text.isdigit() and len(text) <= 3 and 2 <= int(text) <= MOST_PAIRED):
        raise refuse(f"--pairs={bare(text)}", f"it is no whole number of 2 to {MOST_PAIRED}; write of how many neutrals pairs are tried")
    return int(text)


@dataclasses.dataclass(frozen=True)
class Measure:
    """Devices in some neutrals, and what comes of them beside the network without."""

    units: tuple[str, ...]
    result: Result
    before: Screen

    @property
    def name(self) -> str:
        return AND.join(self.units)

    @property
    def rows(self) -> list[ScreenUnit]:
        return [] if self.result.screen is None else self.result.screen.rows

    @property
    def at_threshold(self) -> list[ScreenUnit]:
        """The units that reach the threshold or may."""
        return [row for row in self.rows if row.verdict in MUST]

    @property
    def greatest(self) -> ScreenUnit | None:
        """The judged unit with the greatest worst current."""
        judged = [row for row in self.rows if row.verdict != "outside"]
        return max(judged, key=lambda row: (row.worst.high, row.worst.low)) if judged else None

    @functools.cached_property
    def crossing(self) -> tuple[list[str], list[str]]:
        """The units that reach the threshold or may without the devices and are below it with them, and the others way round."""
        verdicts = {row.name: row.verdict for row in self.before.rows}
        gone = [row.name for row in self.rows if row.verdict == "below" and verdicts[row.name] in MUST]
        return gone, [row.name for row in self.rows if row.verdict in MUST and verdicts[row.name] == "below"]

    @property
    def rank(self) -> tuple[bool, int, int]:
        """What is better is less: a network that can be solved, fewer units at the threshold, a smaller greatest current."""
        greatest = self.greatest
        return self.result.screen is None, len(self.at_threshold), 0 if greatest is None else greatest.worst.high

    def is_better(self, whole: "Measure") -> bool:
        """Whether it leaves fewer units at the threshold than the network as it is, or as many and for certain a smaller greatest
        current."""
        if self.result.screen is None or len(self.at_threshold) != len(whole.at_threshold):
            return self.result.screen is not None and len(self.at_threshold) < len(whole.at_threshold)
        here, there = self.greatest, whole.greatest
        return here is not None and there is not None and here.worst.high < there.worst.low


@dataclasses.dataclass(frozen=True)
class Mitigation:
    """What comes of each measure: those of one device, and those of two, each with the best first; and the best of all, which is
    the network as it is where none is better."""

    device: Device
    whole: Measure
    single: list[Measure]
    pairs: list[Measure]
    best: Measure
    best_case: str

    @property
    def measures(self) -> list[Measure]:
        return [self.whole, *self.single, *self.pairs]


@dataclasses.dataclass(frozen=True)
class Trier:
    """Runs `screen` over the case with devices in some neutrals."""

    asked: Asked
    case: Case
    device: Device
    before: Screen

    def text(self, units: Sequence[str]) -> str:
        what = f"Made by gicdesk mitigate, with {self.device} in the neutral of {AND.join(units)}."
        if not units:
            what = f"Made by gicdesk mitigate: the case as it is, since no network that was tried with {self.device} is better."
        return text_of(changed(self.case, "transformer", dict.fromkeys(units, self.device.field)), self.asked.case, what)

    def run(self, units: Sequence[str]) -> Run:
        try:
            with tempfile.NamedTemporaryFile(suffix=".toml", dir=self.asked.copies.folder) as case:
                pathlib.Path(case.name).write_text(self.text(units))
                return dataclasses.replace(self.asked, case=case.name).run("screen", self.asked.switch)
        except OSError as error:
            raise no_room(error, "the case of a run") from None

    def measures(self, tried: Sequence[tuple[str, ...]], next_piece: Step) -> Iterator[Measure]:
        """What comes of each; several run at once."""
        runs = together(self.run, tried)
        for units in tried:
            next_piece(AND.join(units))
            run = next(runs)
            result = screen_result(Event(AND.join(units), ()), run)
            if result is None:
                raise refuse(self.asked.case, f"with {self.device} at {AND.join(units)}: {ending(run)}")
            yield Measure(units, result, self.before)


def ranked(measures: Iterable[Measure]) -> list[Measure]:
    return sorted(measures, key=lambda measure: measure.rank)


def make_mitigation(asked: Asked, device: Device, paired: int) -> Mitigation:
    """Each device alone, and pairs of the best of them, as many as `paired` says."""
    with Progress(0) as progress:
        found = tried_devices(asked, device, paired, progress)
    asked.program.look_for_change()
    return found


def tried_devices(asked: Asked, device: Device, paired: int, progress: Progress) -> Mitigation:
    """The same as a part of other work."""
    progress.total += 1
    progress.next("screen")
    whole_network = whole_result(asked)
    if whole_network.screen is None:
        raise refuse(asked.case, f"its network is {whole_network.outcome.word} at {whole_network.outcome.node}; mend that before")
    trier = Trier(asked, case_of(asked.case, asked.copies.inputs["case"].data), device, whole_network.screen)
    units = [(row.name,) for row in trier.case.lists["transformer"] if device.fits(row)]
    if not units:
        raise refuse(asked.case, f"no unit of it has a neutral that can have {device}")
    progress.total += len(units)
    single = ranked(trier.measures(units, progress.next))
    best = [measure.units[0] for measure in single if measure.result.screen is not None][:paired]
    tried = list(itertools.combinations(best, 2))
    progress.total += len(tried)
    pairs = ranked(trier.measures(tried, progress.next))
    whole, first = Measure((), whole_network, whole_network.screen), min((*single, *pairs), key=lambda measure: measure.rank)
    chosen = first if first.is_better(whole) else whole
    return Mitigation(device, whole, single, pairs, chosen, trier.text(chosen.units))


def names_text(names: Sequence[str]) -> str:
    more = f" and {len(names) - MOST_NAMED} more" if len(names) > MOST_NAMED else ""
    return " ".join(names[:MOST_NAMED]) + more


def measure_cells(measure: Measure) -> list[str]:
    greatest = measure.greatest
    gone, new = measure.crossing
    if measure.result.screen is None:
        return [measure.name, f"{measure.result.outcome.word} {measure.result.outcome.node}", "", "", "", ""]
    worst = interval_text(None if greatest is None else greatest.worst)
    name = "" if greatest is None else greatest.name
    return [measure.name, str(len(measure.at_threshold)), worst, name, names_text(gone), names_text(new)]


def measures_text(measures: Sequence[Measure]) -> str:
    heads = ("neutral", "at the threshold", "greatest worst, A", "in", "no longer", "newly")
    text = "\n" + Table(heads, list(map(measure_cells, measures[:SHOWN]))).columns(heads[1:3])
    more = len(measures) - SHOWN
    return text + (f"and {plural(more, 'row')} more, which --out writes\n" if more > 0 else "")


def none_text(found: Mitigation) -> str:
    """What is said where the network is best left as it is."""
    words = "none of these leaves fewer units at the threshold, or as many and a smaller greatest current"
    if all(measure.result.screen is None for measure in found.single):
        words = "with each of these the network can't be solved"
    return f"\nno device is better than none: {words}; so {BEST} of --out is the case as it is\n"


def report_text(asked: Asked, found: Mitigation) -> str:
    """What is shown: the network as it is, and then the measures, the best first; and where none is better than none, that."""
    screen, greatest = found.whole.before, found.whole.greatest
    text = f"case {visible(asked.case)}"
    if asked.switch is not None:
        text += f", switchings {visible(asked.switch)}"
    text += f", threshold {shifted(screen.threshold, MILLI)} A, field {shifted(screen.field, MILLI)} V/km\n"
    text += f"as it is: {len(found.whole.at_threshold)} of {plural(len(screen.rows), 'unit')} at the threshold or perhaps"
    if greatest is not None:
        text += f"; the greatest worst current is {interval_text(greatest.worst)} A, in {greatest.name}"
    text += f"\nwith {found.device} in one of {plural(len(found.single), 'neutral')}, the best first:\n"
    text += measures_text(found.single)
    if found.pairs:
        text += f"\nwith one in each of two, {plural(len(found.pairs), 'pair')} of the best:\n" + measures_text(found.pairs)
    return text if found.best.units else text + none_text(found)


def ranking_table(found: Mitigation) -> Table:
    """Every measure in the order in which it is shown; the network as it is has the first row, without a name."""
    heads = "neutrals,devices,outcome,node,at_threshold,undecided,greatest_low_A_per_phase,greatest_high_A_per_phase,greatest_in"
    rows = []
    for measure in found.measures:
        greatest, outcome = measure.greatest, measure.result.outcome
        counts = ["", ""]
        if measure.result.screen is not None:
            undecided = sum(row.verdict == "undecided" for row in measure.rows)
            counts = [str(len(measure.at_threshold)), str(undecided)]
        ends = ["", "", ""]
        if greatest is not None:
            ends = [shifted(greatest.worst.low, MILLI), shifted(greatest.worst.high, MILLI), greatest.name]
        cells = [measure.name, str(len(measure.units)), outcome.word, outcome.node]
        rows.append([*cells, *counts, *ends, *(" ".join(names) for names in measure.crossing)])
    return Table([*heads.split(","), "no_longer", "newly"], rows)


def files_of(found: Mitigation, comma: bool) -> dict[str, str]:
    """The files of --out."""
    outages = Outages(found.whole.result, [measure.result for measure in found.measures[1:]])
    return {
        RANKING: ranking_table(found).csv(comma),
        CURRENTS: currents_table(outages, "neutrals").csv(comma),
        BEST: found.best_case,
    }
