"""A local enhancement: strips of zones at the field of the supplemental event, in the field of the benchmark event.

All strips in all directions are steps of one storm, or of a few, that the program solves: each current is one of `series`. Which steps
there are, and which of a unit's currents is the greatest, is made here.
"""

import dataclasses
import math
import os
import pathlib
import re
import tempfile
from collections.abc import Iterator, Sequence

from .case_rows import case_of
from .compare import ends_or_nothing, interval_text
from .counts import plural
from .decimals import MILLI, shifted
from .directions import DIRECTIONS, STEP, parts_of
from .factors import size
from .findings import Finding, Refused, collected, refuse, visible
from .forms import Interval
from .gict import switchings_of
from .inputs import no_room
from .network import in_metres, laid_out, network_of, read_degrees
from .outages import Asked, checked
from .program import Run, ending
from .progress import Progress
from .reports import Screen, ScreenUnit, Series
from .tables import Table
from .together import together
from .zone_lies import METRES, Strip, ZoneLie, coarse_text, strips_of, zone_lies

UNITS, STEPS, STORM = "units.csv", "steps.csv", "storm"
SECONDS = 60  # from one step to the next
MOST_ROWS = 20000  # of a storm
MOST_DEPTH = 5000  # km
SHOWN = 40  # units on the terminal
LONGEST = 40  # letters of the zones of a strip there
DEPTH = re.compile(r"[0-9]{1,4}(\.[0-9]{1,3})?")


def read_depth(text: str) -> float:
    """The depth of strips in metres."""
    if not DEPTH.fullmatch(text) or not 1 <= float(text) <= MOST_DEPTH:
        raise refuse(f"--storm-depth={visible(text)}", f"it is no number of 1 to {MOST_DEPTH} km; write how deep a strip is to the north")
    return float(text) * METRES


@dataclasses.dataclass(frozen=True)
class LocalStep:
    """A strip in a field of one bearing."""

    strip: Strip
    bearing: int


@dataclasses.dataclass(frozen=True)
class Storm:
    """Steps of one run, and the file of their fields."""

    steps: Sequence[LocalStep]
    text: str


@dataclasses.dataclass(frozen=True)
class LocalUnit:
    """A unit: with the fields of both events everywhere, and its greatest current of all steps."""

    benchmark: ScreenUnit
    supplemental: ScreenUnit
    step: LocalStep
    value: Interval

    @property
    def name(self) -> str:
        return self.benchmark.name

    @property
    def absolute(self) -> Interval:
        """The greatest current without its sign."""
        low, high = self.value.low, self.value.high
        return Interval(0 if low <= 0 <= high else min(abs(low), abs(high)), max(abs(low), abs(high)))

    @property
    def is_more(self) -> bool:
        """Whether it has for certain more than with the stronger field everywhere."""
        return self.absolute.low > self.supplemental.worst.high

    def verdict(self, threshold: int) -> str:
        if self.absolute.low >= threshold:
            return "reaches"
        return "below" if self.absolute.high < threshold else "undecided"


@dataclasses.dataclass(frozen=True)
class Local:
    depth: float
    lies: Sequence[ZoneLie]
    strips: Sequence[Strip]
    storms: Sequence[Storm]
    benchmark: Screen
    supplemental: Screen
    units: Sequence[LocalUnit]  # those that are judged, the greatest current first


def step_rows(step: LocalStep, time: int, outside: int, inside: int) -> list[str]:
    """The rows of a step: all zones, and behind them those of the strip."""
    rows = [(("*",), parts_of(outside, step.bearing)), (step.strip.zones, parts_of(inside, step.bearing))]
    return [f"{time},{zone},{north},{east}" for zones, (north, east) in rows for zone in zones]


def storms_of(strips: Sequence[Strip], outside: int, inside: int) -> Iterator[Storm]:
    """Each strip in each direction, in as few storms as their rows allow."""
    steps: list[LocalStep] = []
    lines: list[str] = []
    for strip in strips:
        for place in range(DIRECTIONS):
            step = LocalStep(strip, place * STEP)
            rows = step_rows(step, SECONDS * len(steps), outside, inside)
            if len(lines) + len(rows) > MOST_ROWS:
                yield storm_of(steps, lines)
                steps, lines, rows = [], [], step_rows(step, 0, outside, inside)
            steps.append(step)
            lines += rows
    yield storm_of(steps, lines)


def storm_of(steps: Sequence[LocalStep], lines: Sequence[str]) -> Storm:
    return Storm(tuple(steps), "".join(f"{line}\n" for line in ("time,zone,north,east", *lines)))


@dataclasses.dataclass(frozen=True)
class Solver:
    """Runs `series` of units over the storms, whose files lie in a folder."""

    asked: Asked
    folder: str
    storms: Sequence[Storm]

    def file(self, number: int) -> str:
        return os.path.join(self.folder, f"{STORM}_{number + 1}.csv")

    @property
    def switch(self) -> str:
        return os.path.join(self.folder, "switch.csv")

    def write(self) -> None:
        for number, storm in enumerate(self.storms):
            pathlib.Path(self.file(number)).write_text(storm.text)
        switchings = switchings_of(self.asked.base, None)
        if switchings is not None:
            pathlib.Path(self.switch).write_text(switchings)

    def run(self, job: tuple[str, int]) -> Run:
        unit, number = job
        switched = (f"--switch={self.switch}",) if os.path.exists(self.switch) else ()
        width = tuple(word for word in self.asked.words if word.startswith("--width"))
        words = ("series", f"--case={self.asked.case}", f"--storm={self.file(number)}", *switched, f"--transformer={unit}", *width)
        return self.asked.program.run(*self.asked.copies.words(words))

    def greatest(self, run: Run, number: int) -> tuple[LocalStep, Interval]:
        """The greatest current of a series, and its step."""
        if run.status != 0:
            raise refuse(self.asked.case, ending(run))
        series = checked(Series, run.report, "series")
        steps = self.storms[number].steps
        if len(series.steps) != len(steps):
            raise refuse("the report of gicstudy series", "it isn't of these steps; is --program another program?")
        place = max(range(len(steps)), key=lambda place: size(series.steps[place][2]))
        return steps[place], series.steps[place][2]

    def found(self, names: Sequence[str], progress: Progress) -> Iterator[tuple[LocalStep, Interval]]:
        """The greatest current of each unit over all storms."""
        jobs = [(name, number) for name in names for number in range(len(self.storms))]
        runs = together(self.run, jobs)
        for name in names:
            best: list[tuple[LocalStep, Interval]] = []
            for number in range(len(self.storms)):
                progress.next(f"{name} in {plural(len(self.storms[number].steps), 'step')}")
                best.append(self.greatest(next(runs), number))
            yield max(best, key=lambda one: size(one[1]))


def screens(asked: Asked, progress: Progress) -> tuple[Screen, Screen]:
    """Those of both events, of the network with the switchings in force."""
    made = []
    for event in ("benchmark", "supplemental"):
        progress.next(f"screen, {event}")
        run = dataclasses.replace(asked, words=(*asked.words, f"--event={event}")).run("screen", asked.switch)
        if run.status != 0:
            raise refuse(asked.switch if asked.switch is not None and run.file == "switch" else asked.case, ending(run))
        made.append(checked(Screen, run.report, "screen"))
    return made[0], made[1]


def read_lies(asked: Asked, places_file: str | None) -> list[ZoneLie]:
    """Where the zones lie: by a table of places, and else by the spans of the lines."""
    given = asked.copies.inputs
    data = given["case"].data
    network = network_of(data)
    case = case_of(asked.case, data)
    findings: list[Finding] = []
    known = {}
    if network is not None and places_file is not None:
        with collected(findings):
            known = read_degrees(places_file, network.stations, findings, given["places"].data)
    if findings or network is None:
        raise Refused(findings)
    places, parts = laid_out(network, in_metres(known))
    if parts:
        words = f"{plural(parts, 'part')} of its network lie apart, and where isn't known; give the places of stations by --places"
        raise refuse(asked.case, words)
    lies = zone_lies(case, places)
    if len(lies) < 2:
        raise refuse(asked.case, f"it has lines in {plural(len(lies), 'zone')}, and strips are made of zones; divide it into several")
    return lies


def make_local(asked: Asked, depth: float, places_file: str | None) -> Local:
    lies = read_lies(asked, places_file)
    strips = strips_of(lies, depth)
    with Progress(2) as progress:
        benchmark, supplemental = screens(asked, progress)
        storms = list(storms_of(strips, benchmark.field, supplemental.field))
        judged = [row for row in benchmark.rows if row.verdict != "outside"]
        beyond = {row.name: row for row in supplemental.rows}
        progress.total += len(judged) * len(storms)
        try:
            with tempfile.TemporaryDirectory(dir=asked.copies.folder) as folder:
                solver = Solver(asked, folder, storms)
                solver.write()
                found = list(solver.found([row.name for row in judged], progress))
        except OSError as error:
            raise no_room(error, "the storm of a run") from None
    asked.program.look_for_change()
    units = [LocalUnit(row, beyond[row.name], step, value) for row, (step, value) in zip(judged, found)]
    units.sort(key=lambda unit: (-unit.absolute.high, unit.name))
    return Local(depth, lies, strips, storms, benchmark, supplemental, units)


def head_text(asked: Asked, found: Local) -> str:
    steps = sum(len(storm.steps) for storm in found.storms)
    inside, outside = (shifted(screen.field, MILLI) for screen in (found.supplemental, found.benchmark))
    text = f"case {visible(asked.case)}: strips of {found.depth / METRES:g} km from west to east with {inside} V/km, and {outside} beside them\n"
    text += f"{plural(len(found.strips), 'strip')} in {DIRECTIONS} directions: {plural(steps, 'step')}\n"
    text += f"{coarse_text(found.lies, found.depth)}\n"
    more = sum(unit.is_more for unit in found.units)
    threshold = found.supplemental.threshold
    at = sum(unit.verdict(threshold) != "below" for unit in found.units)
    text += f"{at} of {plural(len(found.units), 'applicable unit')} reach {shifted(threshold, MILLI)} A in a strip or may; "
    return text + f"{more} have more there than with {inside} V/km everywhere\n"


def strip_text(found: Local, strip: Strip) -> str:
    text = strip.text(len(found.lies))
    return text if len(text) <= LONGEST else f"{text[: LONGEST - 3]}.. ({len(strip.zones)})"


def report_text(asked: Asked, found: Local) -> str:
    heads = ("unit", "greatest, A", "strip", "bearing", f"{shifted(found.supplemental.field, MILLI)} everywhere, A", "more by")
    rows = []
    for unit in found.units[:SHOWN]:
        more = unit.absolute.middle / unit.supplemental.worst.middle - 1 if unit.is_more and unit.supplemental.worst.middle else math.nan
        told = "" if math.isnan(more) else f"{100 * more:.1f} %"
        cells = [unit.name, interval_text(unit.absolute), strip_text(found, unit.step.strip), f"{unit.step.bearing}"]
        rows.append([*cells, interval_text(unit.supplemental.worst), told])
    text = head_text(asked, found) + "\n" + Table(heads, rows).columns((heads[1], heads[3], heads[4], heads[5]))
    left = len(found.units) - SHOWN
    return text + (f"and {plural(left, 'unit')} more, which --out writes\n" if left > 0 else "")


def place_of(found: Local, step: LocalStep) -> tuple[int, int]:
    """The storm of a step and its place there, both from 1."""
    number = next(number for number, storm in enumerate(found.storms) if step in storm.steps)
    return number + 1, found.storms[number].steps.index(step) + 1


def units_table(found: Local) -> Table:
    """Each judged unit, the greatest current first; the number is that of the step, in the storm of the file beside."""
    heads = ["transformer", "greatest_low_A_per_phase", "greatest_high_A_per_phase", "verdict", "bearing_degrees", "strip"]
    for name in ("supplemental", "benchmark"):
        heads += [f"{name}_everywhere_low_A_per_phase", f"{name}_everywhere_high_A_per_phase"]
    rows = []
    for unit in found.units:
        ends = [*ends_or_nothing(unit.absolute), unit.verdict(found.supplemental.threshold)]
        everywhere = [*ends_or_nothing(unit.supplemental.worst), *ends_or_nothing(unit.benchmark.worst)]
        where = [str(unit.step.bearing), " ".join(unit.step.strip.zones)]
        rows.append([unit.name, *ends, *where, *everywhere, "yes" if unit.is_more else "no", *map(str, place_of(found, unit.step))])
    return Table([*heads, "more_than_everywhere", "storm", "step"], rows)


def steps_table(found: Local) -> Table:
    rows = [
        [str(number), str(place), str(SECONDS * (place - 1)), str(step.bearing), " ".join(step.strip.zones)]
        for number, storm in enumerate(found.storms, 1)
        for place, step in enumerate(storm.steps, 1)
    ]
    return Table(["storm", "step", "time_s", "bearing_degrees", "strip"], rows)


def files_of(found: Local, comma: bool) -> dict[str, str]:
    """The files of --out: both tables, and the storms as the program takes them."""
    storms = {f"{STORM}_{number}.csv": storm.text for number, storm in enumerate(found.storms, 1)}
    return {UNITS: units_table(found).csv(comma), STEPS: steps_table(found).csv(comma), **storms}
