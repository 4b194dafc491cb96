"""What of a storm and of a table of factors is lawful, and mostly not meant: told on the terminal and on the page."""

from collections.abc import Iterable, Mapping, Sequence

from .counts import plural
from .factors import USUAL_KV, Factor
from .storms import StormStep, SwitchingRow, records, seen_rows

WEAK = 100.0  # mV/km: the field of a storm that matters is stronger at its peak
LEAST_STEPS = 3  # the fewest steps of one second that are asked about
SHOWN = 5  # names in a sentence


def some(names: Iterable[str]) -> str:
    """The first names of several."""
    every = list(names)
    more = f" and {len(every) - SHOWN} more" if len(every) > SHOWN else ""
    return ", ".join(every[:SHOWN]) + more


def steps_without(data: bytes, zones: Sequence[str]) -> dict[str, int]:
    """At how many steps of a storm each zone has no row, of its own or for all."""
    head, *rows = records(data)
    if head == ["time", "north", "east"]:
        return {}
    named: dict[str, set[str]] = {}
    for cells in rows:
        named.setdefault(cells[0], set()).add(cells[1])
    return {zone: many for zone in zones if (many := sum(not {zone, "*"} & there for there in named.values()))}


def zone_notes(data: bytes, zones: Sequence[str], steps: int) -> list[str]:
    notes = []
    for zone, many in steps_without(data, zones).items():
        when = "no row in the storm: it has no field at any step" if many == steps else f"no row at {many} of {steps} steps"
        notes.append(f"The zone {zone} has {when}{'' if many == steps else ', and no field there'}. Is it meant?")
    return notes


def time_notes(times: Sequence[int], what: str) -> list[str]:
    """What is told of the times of a storm or a waveform that may be in minutes, or the numbers of its steps."""
    if len(times) < LEAST_STEPS or any(later - time != 1 for time, later in zip(times, times[1:])):
        return []
    return [f"All {len(times)} steps of the {what} are one second apart. Are its times in minutes?"]


def field_notes(steps: Sequence[StormStep]) -> list[str]:
    notes = time_notes([step.time for step in steps], "storm")
    strongest = max((step.strength for step in steps), default=0.0)
    if strongest < WEAK:
        words = f"The strongest field of the storm is {strongest / 1000:g} V/km, before alpha and beta."
        notes.append(f"{words} Is it in V/km, and not in mV/km?")
    return notes


def switching_notes(rows: Sequence[SwitchingRow], steps: Sequence[StormStep]) -> list[str]:
    seen = seen_rows(rows, [step.time for step in steps])
    unseen = [f"{row.time} s {row.action} {row.item}" for row, is_seen in zip(rows, seen) if not is_seen]
    if not unseen:
        return []
    words = f"{plural(len(unseen), 'switching')} of {len(rows)} come into force at no step of the storm"
    return [f"{words}: {some(unseen)}."]


def factor_notes(factors: Mapping[str, Factor]) -> list[str]:
    """What is told of factors that were scaled since the table doesn't say for which voltage they are."""
    scaled = {name: factor for name, factor in factors.items() if factor.is_usual and factor.volts != 1000 * USUAL_KV}
    if not scaled:
        return []
    name, first = next(iter(scaled.items()))
    words = f"{plural(len(scaled), 'factor')} without at_kv {'is' if len(scaled) == 1 else 'are'} taken for {USUAL_KV} kV"
    own = f"{first.given:f} for {name} of {first.volts / 1000:g} kV is {first.own:.4f} Mvar an ampere"
    return [f"{words}, and scaled by the unit's kilovolts: {own}."]
