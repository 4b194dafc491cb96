"""Questions about what no rule forbids and few networks have: none of them keeps a case from being made.

Each question has the names of the rows that it is about. The note of a row may answer it.
"""

import dataclasses
import statistics
from collections.abc import Callable, Iterator, Sequence

from .beyond import REACTOR
from .cases import Row
from .doubt_lines import Line, greater_lines
from .doubt_names import astray
from .latitudes import latitude_off
from .seen import Seen, buses_of, number_of
from .usual import LEAST_BETA, LEAST_NEUTRAL, MOST_NEUTRAL, NEUTRALS, TRANSMISSION_KV, usual_ground

SHOWN = 8  # names in a question
MICRO = 1e6
LEAST_GROUNDS = 5  # the fewest grounds of which all together are judged
TIMES = 2.0  # how many times the usual ground the middle one has where all may be three times theirs
BANK = 3  # phases
DEAD_END_KV = 345.0
MOST_DEAD_ENDS = 0.25  # of the buses of such a voltage: where more have one line at most, that is how the network is
LEAST_BUSES = 8
LEAST_STEP_UPS = 2
AS_STEP_UP = 2.0  # times the middle resistance of step-up units
REVIEWED_NEUTRAL = 100.0  # ohm: of a case `review` asks about a resistor above it
NO_BANK = ("parallel", "equal", "side by side")


@dataclasses.dataclass(frozen=True)
class Doubt:
    """A question of a kind: the list of the case that its rows are in, their names, and its words."""

    kind: str
    list: str
    names: tuple[str, ...]
    text: str


def some(names: Sequence[str]) -> str:
    """The first names of several."""
    more = f" and {len(names) - SHOWN} more" if len(names) > SHOWN else ""
    return ", ".join(names[:SHOWN]) + more


def ohm_text(micro_ohm: float) -> str:
    return f"{micro_ohm / MICRO:.4g} ohm"


def is_are(names: Sequence[str]) -> str:
    return "is" if len(names) == 1 else "are"


def zone_latitudes(seen: Seen) -> Iterator[Doubt]:
    for zone in seen.zones:
        off = latitude_off(zone.latitude, zone.places)
        if off is not None and not seen.is_answered(zone.name):
            words = f"the geomagnetic latitude is {zone.latitude:g} degrees, {off}: is it that of this region and of this year?"
            yield Doubt("latitude", "zone", (zone.name,), f"zone {zone.name}: {words}")


def zone_betas(seen: Seen) -> Iterator[Doubt]:
    for zone in seen.zones:
        if zone.beta < LEAST_BETA and not zone.model and not seen.is_answered(zone.name):
            words = f"beta is {zone.beta:g}, and no earth model is named: of which model is it?"
            yield Doubt("beta", "zone", (zone.name,), f"zone {zone.name}: {words}")


def grounds_of(seen: Seen) -> list[Row]:
    return [row for row in seen.rows("substation") if number_of(row, "ground")]


def equal_grounds(seen: Seen) -> Iterator[Doubt]:
    rows = [row for row in grounds_of(seen) if not seen.is_answered(row.name)]
    numbers = {number_of(row, "ground") for row in rows}
    if len(rows) >= LEAST_GROUNDS and len(numbers) == 1:
        words = f"All {len(rows)} grounds have {ohm_text(numbers.pop())}: was each of them measured, or is it a default?"
        yield Doubt("grounds", "substation", tuple(row.name for row in rows), words)


def great_grounds(seen: Seen) -> Iterator[Doubt]:
    """Where the middle one of all grounds is some times what is usual at the voltage of its station."""
    rows = [row for row in grounds_of(seen) if seen.highest(row.name) > 0 and not seen.is_answered(row.name)]
    ratios = [number_of(row, "ground") / MICRO / usual_ground(seen.highest(row.name)) for row in rows]
    if len(rows) < LEAST_GROUNDS or statistics.median(ratios) < TIMES:
        return
    words = f"The grounds have {statistics.median(ratios):.2g} times what is usual at their voltages, by the middle one of {len(rows)}"
    words += ": is each the resistance of the ground grid to remote earth, and not three times it?"
    yield Doubt("grounds", "substation", tuple(row.name for row in rows), words)


def idle_grounds(seen: Seen) -> Iterator[Doubt]:
    """Stations with a ground at which no unit is, where it is known of each unit at which station it is."""
    used = {seen.station_of(unit) for unit in seen.rows("transformer")}
    if None in used:
        return
    names = [row.name for row in grounds_of(seen) if row.name not in used]
    names = [name for name in names if not seen.is_answered(name, "switching", "switchyard", "no transformer")]
    if names:
        words = f"{some(names)} {'has' if len(names) == 1 else 'have'} a ground and no transformer"
        yield Doubt("ground", "substation", tuple(names), f"{words}: switching stations, or is a transformer missing?")


def joins_transmission(unit: Row) -> bool:
    """Whether a unit joins two voltages of transmission."""
    return sum(volts > 1000 * TRANSMISSION_KV for _, volts in buses_of(unit)) > 1


def dead_ends(seen: Seen) -> Iterator[Doubt]:
    """Buses of a high voltage with one line or none, where most others have more."""
    lines: dict[str, int] = {}
    for line in seen.rows("line"):
        for end in {str(line.value("from")), str(line.value("to"))}:
            lines[end] = lines.get(end, 0) + 1
    through = {bus for unit in seen.rows("transformer") if joins_transmission(unit) for bus, _ in buses_of(unit)}
    high = [row.name for row in seen.rows("bus") if seen.bus_kilovolts(row.name) >= DEAD_END_KV]
    ends = [bus for bus in high if lines.get(bus, 0) < 2 and bus not in through]
    if len(high) < LEAST_BUSES or len(ends) > MOST_DEAD_ENDS * len(high):
        return
    said = ("radial", "one line", "dead end", "single line", "end of the line")
    names = [bus for bus in ends if not any(seen.is_answered(name, *said) for name in (bus, seen.station_of_bus[bus]))]
    for many, what in ((1, "one line"), (0, "no line")):
        found = [bus for bus in names if lines.get(bus, 0) == many]
        if found:
            words = f"{some(found)}, of {DEAD_END_KV:g} kV or more, {'has' if len(found) == 1 else 'have'} {what}"
            yield Doubt("line", "bus", tuple(found), f"{words}: is a line missing, or at another bus?")


def alternating(seen: Seen) -> Iterator[Doubt]:
    """Lines with somewhat more of a resistance than the others of their voltage have for each kilometre."""
    lines = [
        Line(row.name, seen.bus_kilovolts(row.value("from")), seen.kilometres(row), number_of(row, "resistance") / MICRO)
        for row in seen.rows("line")
        if row.value("blocked") is not True and not seen.is_answered(row.name)
    ]
    for found in greater_lines(lines):
        more = f"{100 * found.least:.0f} to {100 * found.most:.0f}" if found.most - found.least > 0.01 else f"{100 * found.most:.0f}"
        words = f"{some(found.names)} {'has' if len(found.names) == 1 else 'have'} {more} per cent more ohm per km than"
        words += f" most lines of {found.kilovolts:g} kV: is it the resistance for alternating current, or for a warm line?"
        yield Doubt("line", "line", found.names, words)


def likeness(unit: Row) -> tuple[object, ...]:
    """What equal units have in common."""
    return tuple((field.key, field.value) for field in unit.fields)


def banks(seen: Seen) -> Iterator[Doubt]:
    """Three equal units at the same buses, or six, and so on."""
    alike: dict[tuple[object, ...], list[str]] = {}
    for unit in seen.rows("transformer"):
        if unit.value("high") is not None and not seen.is_answered(unit.name, *NO_BANK):
            alike.setdefault(likeness(unit), []).append(unit.name)
    for names in alike.values():
        if len(names) % BANK == 0:
            words = f"{some(names)} are {len(names)} equal units at the same buses: is it a bank of single-phase units, which is one row?"
            yield Doubt("bank", "transformer", tuple(names), words)


def neutrals(seen: Seen) -> Iterator[Doubt]:
    """Neutral resistors that few units have, of which nothing else is said."""
    for unit in seen.rows("transformer"):
        ohm = number_of(unit, "neutral") / MICRO
        is_small = 0 < ohm < LEAST_NEUTRAL
        is_great = MOST_NEUTRAL < ohm <= (float(NEUTRALS[0].most) if seen.is_made else REVIEWED_NEUTRAL)
        if (is_small or is_great) and not seen.is_answered(unit.name, "resist", "neutral"):
            bound = f"less than {LEAST_NEUTRAL:g}" if is_small else f"more than {MOST_NEUTRAL:g}"
            words = f"{unit.name} has a neutral resistor of {ohm_text(ohm * MICRO)}, and few have {bound} ohm"
            yield Doubt("neutral", "transformer", (unit.name,), f"{words}: is it there, and in ohm?")


def blocked_neutrals(seen: Seen) -> Iterator[Doubt]:
    said = ("block", "device", "not grounded", "not earthed", "no earthed neutral")
    units = [row.name for row in seen.rows("transformer") if row.value("neutral") == "blocked"]
    names = [name for name in units if not seen.is_answered(name, *said)]
    if names:
        words = f"The neutral of {some(names)} {is_are(names)} blocked: is a blocking device there, and in service?"
        yield Doubt("blocked", "transformer", tuple(names), words)


def other_stations(seen: Seen) -> Iterator[Doubt]:
    for found in astray(seen):
        if not seen.is_answered(found.unit):
            words = f"{found.unit} is at {found.station}, and the other rows with {found.word} in their names are at {found.home}"
            yield Doubt("station", "transformer", (found.unit,), f"{words}: is its bus one of another station?")


def step_ups(seen: Seen) -> Iterator[Doubt]:
    """Reactors of a high voltage with the resistance of a step-up unit."""
    rows = seen.rows("transformer")
    usual = [number_of(row, "high_resistance") for row in rows if row.value("kind") == "delta-wye" and is_high(row)]
    if len(usual) < LEAST_STEP_UPS:
        return
    middle = statistics.median(usual)
    for row in rows:
        ohm = number_of(row, "high_resistance")
        if row.value("kind") == REACTOR and is_high(row) and ohm <= AS_STEP_UP * middle and not seen.is_answered(row.name):
            words = f"{row.name} is a reactor of {ohm_text(ohm)} above {TRANSMISSION_KV} kV, and step-up units here have {ohm_text(middle)}"
            yield Doubt("reactor", "transformer", (row.name,), f"{words}: is it the step-up unit of a generator?")


def is_high(unit: Row) -> bool:
    return number_of(unit, "high_volts") > 1000 * TRANSMISSION_KV


def deltas(seen: Seen) -> Iterator[Doubt]:
    """Units without a grounded wye above 200 kV; of a case `review` asks about them."""
    if not seen.is_made:
        return
    names = [row.name for row in seen.rows("transformer") if row.value("kind") == "delta-delta" and is_high(row)]
    names = [name for name in names if not seen.is_answered(name, "delta", "not grounded", "not earthed")]
    if names:
        words = f"{some(names)}, of more than {TRANSMISSION_KV} kV, {is_are(names)} delta-delta, so that nothing is said of"
        words += f" {'it' if len(names) == 1 else 'them'}: {'is it a step-up unit' if len(names) == 1 else 'are these step-up units'}"
        yield Doubt("delta", "transformer", tuple(names), f"{words}, with a grounded wye?")


MAKERS: Sequence[Callable[[Seen], Iterator[Doubt]]] = (
    zone_latitudes,
    zone_betas,
    equal_grounds,
    great_grounds,
    idle_grounds,
    dead_ends,
    alternating,
    banks,
    neutrals,
    blocked_neutrals,
    other_stations,
    step_ups,
    deltas,
)


def doubts_of(seen: Seen) -> list[Doubt]:
    """All questions about a network."""
    return [doubt for make in MAKERS for doubt in make(seen)]
