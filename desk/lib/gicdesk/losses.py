"""Losses for a power flow: what each unit draws by the direction of the field and over a storm, where, and as loads.

A loss is a factor times an effective current. It goes with the voltage of the bus, so a load of it is one of constant
current: a number of Mvar at one per unit.
"""

import dataclasses
import decimal
import tomllib
from collections.abc import Iterable, Mapping, Sequence

from .compare import ends_or_nothing
from .decimals import MILLI, shifted
from .directions import current_at
from .factors import Factor, read_factors
from .findings import Finding, Refused, refuse
from .forms import Interval
from .network import network_of
from .progress import Progress
from .records import read_table
from .reports import Elements, Screen, ScreenUnit, Series
from .study import Request, Runs, storm_words
from .tables import Table

UNITS, BUSES, STEPS = "losses.csv", "buses.csv", "steps.csv"
STEP = 15  # degrees between the bearings
BEARINGS = range(0, 180, STEP)
NAME_HEADS = ["list", "name", "numbers"]
LOAD_ID = "GI"
CURRENT_HEADS = ["current_low_A_per_phase", "current_high_A_per_phase", "low_Mvar", "high_Mvar"]


@dataclasses.dataclass(frozen=True)
class Place:
    """Where a unit draws: the bus of its high side, with its number in the power flow where one is known."""

    bus: str
    number: int | None

    @property
    def number_text(self) -> str:
        return "" if self.number is None else str(self.number)


@dataclasses.dataclass(frozen=True)
class Loss:
    """What a unit draws at a bearing or at a time, with the current it comes of."""

    unit: str
    place: Place
    current: Interval
    factor: Factor

    @property
    def mvar(self) -> list[decimal.Decimal]:
        return self.factor.mvar_within(self.current)

    @property
    def cells(self) -> list[str]:
        return [self.unit, self.place.bus, self.place.number_text, *ends_or_nothing(self.current), *map(str, self.mvar)]


@dataclasses.dataclass(frozen=True)
class Losses:
    screen: Screen
    by_bearing: dict[int, list[Loss]]
    by_step: dict[int, list[Loss]] | None  # by the times of a storm

    @property
    def has_numbers(self) -> bool:
        return any(loss.place.number is not None for losses in self.by_bearing.values() for loss in losses)


def bus_numbers(file: str, data: bytes, findings: list[Finding]) -> dict[str, int]:
    """The numbers of buses by their names, from the table that `psse` writes beside a case; of buses that are one the first."""
    numbers: dict[str, int] = {}
    for at in read_table(file, NAME_HEADS, findings, None, data):
        if at.text("list") == "bus":
            first = at.text("numbers").split(" ")[0]
            if first.isascii() and first.isdigit():
                numbers[at.text("name")] = int(first)
            else:
                at.wrong("numbers", "it has no number of a bus; take the table that psse has written with the case")
    return numbers


def high_buses(case: bytes) -> dict[str, str]:
    """The bus of the high side of each unit of a case that the program has taken."""
    rows = tomllib.loads(case.decode("utf-8-sig")).get("transformer", [])
    return {row["name"]: row["high"] for row in rows if "high" in row}


def at_bearing(rows: Iterable[ScreenUnit], bearing: int, factors: Mapping[str, Factor], places: Mapping[str, Place]) -> list[Loss]:
    return [Loss(row.name, places[row.name], current_at(row, bearing), factors[row.name]) for row in rows if row.name in factors]


def magnitude(value: Interval) -> Interval:
    """The interval of the absolute value."""
    if value.low <= 0 <= value.high:
        return Interval(0, max(-value.low, value.high))
    return Interval(*sorted((abs(value.low), abs(value.high))))


def at_steps(series: Sequence[Series], factors: Mapping[str, Factor], places: Mapping[str, Place]) -> dict[int, list[Loss]]:
    found: dict[int, list[Loss]] = {}
    for one in series:
        name = one.transformer
        for _, time, value in one.steps:
            found.setdefault(time, []).append(Loss(name, places[name], magnitude(value), factors[name]))
    return found


def make_losses(request: Request, names: str | None, event: str | None) -> Losses:
    """The losses of the units of the table of factors, of one screen, and of a series of each where there is a storm. What is wrong
    with the tables is told in front of the screen."""
    findings: list[Finding] = []
    with Progress(2) as progress:
        runs = Runs(request, progress)
        runs.report(Elements, "list", "list")  # a case that the program doesn't take ends here
        network = network_of(request.data("case"))
        if network is None or request.factors is None:
            raise refuse(request.case, "it is in TOML 1.1; write the case without what only TOML 1.1 has")
        factors = read_factors(request.factors, network.volts, findings, request.data("factors"))
        buses = high_buses(request.data("case"))
        odd = [name for name in factors if name in network.volts and name not in buses]
        findings += [Finding(request.factors, f"{name} has no winding in the network, so it draws nothing; leave it out") for name in odd]
        numbers = {} if names is None else bus_numbers(names, request.data("names"), findings)
        lost = sorted({buses[name] for name in factors if name in buses} - set(numbers)) if names is not None else []
        findings += [Finding(names or "", f"it has no bus {bus}; is it the table of another case?") for bus in lost]
        if findings:
            raise Refused(findings)
        words = () if event is None else (f"--event={event}",)
        screen = runs.report(Screen, "screen", "screen", *words, *request.screen_words)
        places = {name: Place(buses[name], numbers.get(buses[name])) for name in factors}
        by_step = None
        if request.storm is not None:
            progress.total += len(factors)
            asked = {f"series_{name}": (*storm_words(request), f"--transformer={name}", *request.words) for name in factors}
            by_step = at_steps(list(runs.reports(Series, "series", asked)), factors, places)
    request.program.look_for_change()
    return Losses(screen, {bearing: at_bearing(screen.rows, bearing, factors, places) for bearing in BEARINGS}, by_step)


def unit_table(losses: Mapping[int, Sequence[Loss]], head: str) -> Table:
    heads = [head, "transformer", "bus", "number", *CURRENT_HEADS]
    return Table(heads, [[str(key), *loss.cells] for key, found in losses.items() for loss in found])


def bus_sums(losses: Sequence[Loss]) -> dict[Place, tuple[decimal.Decimal, decimal.Decimal]]:
    """What the units at each bus draw together, by both ends."""
    sums: dict[Place, tuple[decimal.Decimal, decimal.Decimal]] = {}
    for loss in losses:
        low, high = sums.get(loss.place, (decimal.Decimal(0), decimal.Decimal(0)))
        sums[loss.place] = low + loss.mvar[0], high + loss.mvar[1]
    return sums


def bus_table(losses: Losses) -> Table:
    rows = [
        [str(bearing), place.bus, place.number_text, *map(str, ends)]
        for bearing, found in losses.by_bearing.items()
        for place, ends in bus_sums(found).items()
    ]
    return Table(["bearing_degrees", "bus", "number", "low_Mvar", "high_Mvar"], rows)


def load_block(losses: Sequence[Loss]) -> str:
    """Records of loads for a file `.raw`, one for each bus: the high end of its sum as a load of constant current. Area, zone
    and owner are empty, which means those of the bus."""
    lines = []
    for place, (_, high) in bus_sums(losses).items():
        if high > 0:
            lines.append(f"{place.number},'{LOAD_ID}',1,,,0.0,0.0,0.0,{high:f},0.0,0.0,,0 / {place.bus}")
    return "".join(f"{line}\n" for line in lines)


def files_of(losses: Losses, comma: bool) -> dict[str, str]:
    """The files of --out."""
    files = {UNITS: unit_table(losses.by_bearing, "bearing_degrees").csv(comma), BUSES: bus_table(losses).csv(comma)}
    if losses.by_step is not None:
        files[STEPS] = unit_table(losses.by_step, "time_s").csv(comma)
    if losses.has_numbers:
        files |= {f"loads_{bearing:03}.raw": load_block(found) for bearing, found in losses.by_bearing.items()}
    return files


def file_names(has_storm: bool, has_numbers: bool) -> list[str]:
    loads = [f"loads_{bearing:03}.raw" for bearing in BEARINGS] if has_numbers else []
    return [UNITS, BUSES, *([STEPS] if has_storm else []), *loads]


def report_text(losses: Losses, folder: str) -> str:
    """What is shown: the sum of each direction."""
    field = shifted(losses.screen.field, MILLI)
    lines = [f"losses in a field of {field} V/km by its bearing, by both ends of the currents:"]
    for bearing, found in losses.by_bearing.items():
        low, high = (sum((loss.mvar[end] for loss in found), decimal.Decimal(0)) for end in (0, 1))
        lines.append(f"{bearing:3} degrees  {low:.1f} to {high:.1f} Mvar")
    return "\n".join([*lines, f"{folder} has the tables"]) + "\n"
