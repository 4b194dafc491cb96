"""GIC(t): the current of each unit in question over a waveform, for a thermal assessment.

The waveform is scaled to the event. Of each unit there are two series of the program: with the waveform turned as a whole
until its strongest step points to the unit's worst bearing, and as it was given. The rows of both storms are made here, and
the intervals are the program's.
"""

import array
import dataclasses
import os
import pathlib
import tempfile
from collections.abc import Callable, Iterator, Mapping, Sequence

from .decimals import MILLI, middle_text, shifted
from .directions import degrees_of, lesser_way
from .events import BaseSwitchings, Event
from .findings import refuse
from .forms import Interval
from .inputs import no_room
from .program import Run, ending
from .reports import ScreenUnit, Series, parse_report
from .storms import Seconds, seconds_above
from .tables import Table
from .together import together
from .waveforms import FieldSteps, Waveform

FOLDER = "gict"  # of the study, for the benchmark event
BEYOND = f"{FOLDER}/supplemental"  # for the supplemental one
TURNED, GIVEN = "turned", "given"
KINDS = (TURNED, GIVEN)  # of curves, in the order in which they are run
SUMMARY, GIVEN_FIELD = "summary", "given_field.csv"  # in the folder: a table, and a file


@dataclasses.dataclass(frozen=True)
class Subject:
    """A unit: its currents in the screen of the network in which it reaches the threshold or may, and what is out in that."""

    row: ScreenUnit
    event: Event | None
    folder: str = FOLDER

    @property
    def name(self) -> str:
        return self.row.name

    @property
    def given_field(self) -> str:
        """The name of the file with the field as it was given."""
        return f"{self.folder}/{GIVEN_FIELD}"

    @property
    def toward(self) -> complex:
        """The direction of the field that is worst, by the middles of the currents to the north and to the east: of the two
        ways the one of the lesser bearing, so that the current there may be negative."""
        return lesser_way(self.row.north.middle, self.row.east.middle)

    @property
    def bearing(self) -> int:
        """The same in whole degrees from the north over the east, from 0 to 179, as in the table of units."""
        return degrees_of(self.toward)

    @property
    def out_text(self) -> str:
        return "" if self.event is None else str(self.event)

    def report(self, kind: str) -> str:
        """The name of a series of the unit among the commands."""
        return f"{kind}_{self.name}" if self.folder == FOLDER else f"supplemental_{kind}_{self.name}"

    def file(self, kind: str, ending: str) -> str:
        """The name of a file of the unit in the study's folder."""
        return f"{self.folder}/{kind}_{self.name}.{ending}"


@dataclasses.dataclass(frozen=True)
class Curve:
    """A series of the program over a waveform: the words of its run, its report as it came, and both ends of the current at
    each step, in milliamperes."""

    field: FieldSteps
    words: tuple[str, ...]
    report: bytes
    lows: Sequence[int]
    highs: Sequence[int]

    @property
    def values(self) -> Iterator[Interval]:
        return map(Interval, self.lows, self.highs)

    @property
    def greatest(self) -> tuple[int, Interval]:
        """The greatest absolute current, and the first time at which it comes."""
        place = max(range(len(self.lows)), key=lambda place: max(self.highs[place], -self.lows[place]))
        return self.field.times[place], Interval(self.lows[place], self.highs[place])

    def seconds(self, threshold: int) -> Seconds:
        return seconds_above([(0, time, value) for time, value in zip(self.field.times, self.values)], threshold)


@dataclasses.dataclass(frozen=True)
class GicT:
    """A unit with its two curves by their kinds, and its switchings, where there are any."""

    subject: Subject
    curves: Mapping[str, Curve]
    switchings: str | None

    @property
    def name(self) -> str:
        return self.subject.name

    @property
    def turned(self) -> Curve:
        return self.curves[TURNED]

    @property
    def given(self) -> Curve:
        return self.curves[GIVEN]


def switchings_of(base: BaseSwitchings, event: Event | None) -> str | None:
    """What is switched in the network of a unit, all at the time 0, since a series takes switchings by their times; None where
    nothing is."""
    rows = [(item, action) for _, item, action in base.rows]
    if event is not None:
        rows += [(switching.item, switching.action) for switching in event.switchings]
    return "time,item,action\n" + "".join(f"0,{item},{action}\n" for item, action in rows) if rows else None


@dataclasses.dataclass(frozen=True)
class Job:
    """A series that is to be run, and the names of its files in the study's folder."""

    subject: Subject
    field: FieldSteps
    field_file: str
    switchings: str | None

    def words(self, folder: str, last: Sequence[str]) -> tuple[str, ...]:
        """The words of the run with its files in a folder."""
        switched = () if self.switchings is None else (f"--switch={os.path.join(folder, self.subject.file('switch', 'csv'))}",)
        return (f"--storm={os.path.join(folder, self.field_file)}", *switched, f"--transformer={self.subject.name}", *last)


@dataclasses.dataclass(frozen=True)
class Maker:
    """Runs series of units: `run` runs the program on the case, and the scratch is a folder for the files of runs."""

    waveform: Waveform
    strength: int  # of the event's field, in mV/km
    base: BaseSwitchings
    scratch: str
    run: Callable[..., Run]
    case_word: str
    last_words: tuple[str, ...]  # --width, as far as it is given

    def jobs(self, subjects: Sequence[Subject]) -> Iterator[Job]:
        """Two of each unit."""
        given = self.waveform.scaled(self.strength)
        for subject in subjects:
            switchings = switchings_of(self.base, subject.event)
            turned = self.waveform.scaled(self.strength, subject.toward)
            yield Job(subject, turned, subject.file("turned_field", "csv"), switchings)
            yield Job(subject, given, subject.given_field, switchings)

    def run_job(self, job: Job) -> Run:
        try:
            with tempfile.TemporaryDirectory(dir=self.scratch) as folder:
                pathlib.Path(folder, job.subject.folder).mkdir(parents=True)
                pathlib.Path(folder, job.field_file).write_text(job.field.text)
                if job.switchings is not None:
                    pathlib.Path(folder, job.subject.file("switch", "csv")).write_text(job.switchings)
                return self.run("series", *job.words(folder, self.last_words))
        except OSError as error:
            raise no_room(error, "the waveform of a run") from None

    def curve(self, job: Job) -> Curve:
        words = ("series", self.case_word, *job.words("", self.last_words))
        run = self.run_job(job)
        if run.status != 0:
            raise refuse(" ".join(("gicstudy", *words)), ending(run))
        _, series = parse_report("the report of gicstudy series", run.report)
        strange = refuse("the report of gicstudy series", "it isn't of these steps; is --program another program?")
        if not isinstance(series, Series) or [time for _, time, _ in series.steps] != list(job.field.times):
            raise strange
        try:
            lows = array.array("q", [value.low for _, _, value in series.steps])
            highs = array.array("q", [value.high for _, _, value in series.steps])
        except OverflowError:
            raise strange from None
        return Curve(job.field, words, run.report, lows, highs)

    def make(self, subjects: Sequence[Subject], next_piece: Callable[[str], None]) -> list[GicT]:
        """The two curves of each unit; several are run at once."""
        curves = together(self.curve, self.jobs(subjects))
        found = []
        for subject in subjects:
            made = {}
            for kind in KINDS:
                next_piece(f"GIC(t) of {subject.name}, {kind}")
                made[kind] = next(curves)
            found.append(GicT(subject, made, switchings_of(self.base, subject.event)))
        return found


CURVE_HEADS = ("north_V_per_km", "east_V_per_km", "low_A_per_phase", "high_A_per_phase", "middle_A_per_phase")
GREATEST_HEADS = ("low_A_per_phase", "high_A_per_phase", "time_s", "certain_seconds", "possible_seconds")


def curve_cells(curve: Curve) -> Iterator[list[str]]:
    for (_, north, east), value in zip(curve.field.rows, curve.values):
        ends = [shifted(number, MILLI) for number in (north, east, value.low, value.high)]
        yield [*ends, middle_text(value.low, value.high, MILLI)]


def gict_table(found: GicT) -> Table:
    """Both curves of a unit, a step a row."""
    heads = ["transformer", "time_s", *(f"{kind}_{head}" for kind in KINDS for head in CURVE_HEADS), "out"]
    steps = zip(found.turned.field.times, curve_cells(found.turned), curve_cells(found.given))
    out = found.subject.out_text
    return Table(heads, [[found.name, str(time), *turned, *given, out] for time, turned, given in steps])


def greatest_cells(curve: Curve, threshold: int) -> list[str]:
    (time, value), seconds = curve.greatest, curve.seconds(threshold)
    return [shifted(value.low, MILLI), shifted(value.high, MILLI), *map(str, (time, seconds.certain, seconds.possible))]


def summary_table(found: Sequence[GicT], threshold: int) -> Table:
    """Of each unit its worst current in the screen, and the greatest one of both curves."""
    heads = ["transformer", "out", "bearing_degrees", "worst_low_A_per_phase", "worst_high_A_per_phase"]
    heads += [f"{kind}_{head}" for kind in KINDS for head in GREATEST_HEADS]
    rows = []
    for one in found:
        subject, worst = one.subject, one.subject.row.worst
        cells = [one.name, subject.out_text, str(subject.bearing), shifted(worst.low, MILLI), shifted(worst.high, MILLI)]
        rows.append(cells + greatest_cells(one.turned, threshold) + greatest_cells(one.given, threshold))
    return Table(heads, rows)
