"""What saturated transformers draw: factors from a table, and losses as current times factor.

A factor is in Mvar for each ampere of effective current a phase, and holds for units of a voltage. That of another unit
is scaled by its rated kilovolts of the high side over that voltage.
"""

import dataclasses
import decimal
from collections.abc import Mapping, Sequence

from .findings import Finding, Hints, shown
from .forms import Interval
from .records import read_table

HEADS = ["transformer", "mvar_per_ampere", "at_kv"]
USUAL_KV = 500
MOST = 100  # Mvar an ampere; a factor in var is far beyond
THOUSANDTH = decimal.Decimal("0.001")


@dataclasses.dataclass(frozen=True)
class Factor:
    given: decimal.Decimal  # Mvar an ampere
    at_kv: decimal.Decimal
    volts: int  # of the unit's high side
    is_usual: bool = False  # at_kv, since the table has none

    def mvar(self, milliamperes: float | decimal.Decimal) -> decimal.Decimal:
        """What the unit draws at this current."""
        amperes = decimal.Decimal(milliamperes) * THOUSANDTH
        return self.given * amperes * self.volts * THOUSANDTH / self.at_kv

    def mvar_within(self, current: Interval) -> list[decimal.Decimal]:
        """The same at both ends of a current, rounded outward to thousandths."""
        ends = []
        for end, rounding in ((current.low, decimal.ROUND_FLOOR), (current.high, decimal.ROUND_CEILING)):
            with decimal.localcontext() as context:
                context.rounding = rounding
                ends.append(self.mvar(end).quantize(THOUSANDTH))
        return ends

    @property
    def own(self) -> decimal.Decimal:
        """The factor of the unit itself, in Mvar an ampere."""
        return self.mvar(1000)


def read_factors(
    file: str, volts: Mapping[str, int], findings: list[Finding], data: bytes | None = None
) -> dict[str, Factor]:
    """The factors of a table by the names of their units; all that is wrong with it becomes findings. `data` is what it
    holds, where it has been read already."""
    factors: dict[str, Factor] = {}
    lines: dict[str, int] = {}
    hints = Hints()
    for at in read_table(file, HEADS, findings, given=data):
        name, given = at.text("transformer"), at.number("mvar_per_ampere")
        at_kv = at.number("at_kv", str(USUAL_KV))
        if name not in volts:
            at.wrong("transformer", f"{shown(name)} is no transformer of the case; {hints.ways(name, volts, HEADS[0])}")
        elif name in lines:
            at.wrong("transformer", f"{name} has a factor already, by line {lines[name]}; leave one of the two")
        if not 0 < given <= MOST:
            hint = "is it in var?" if given > MOST else "leave out a unit that draws nothing"
            at.wrong("mvar_per_ampere", f"it is {at.text('mvar_per_ampere')}, and not above 0 to {MOST} Mvar; {hint}")
        if not 1 <= at_kv <= 2000:
            at.wrong("at_kv", f"it is {at.text('at_kv')}, and not 1 to 2000 kV; leave it empty for {USUAL_KV}")
        lines[name] = at.line
        factors[name] = Factor(given, at_kv, volts.get(name, 0), not at.text("at_kv"))
    if not factors and not findings:
        findings.append(Finding(file, "it has no factor; write a row for each transformer", 1))
    return factors


def total(factors: Mapping[str, Factor], currents: Mapping[str, float]) -> decimal.Decimal:
    """What all units draw together, in Mvar, at these currents in milliamperes."""
    return sum((factor.mvar(currents[name]) for name, factor in factors.items()), decimal.Decimal(0))


@dataclasses.dataclass(frozen=True)
class StormLosses:
    """What the units of the table draw together at each step."""

    times: list[int]
    mvar: list[decimal.Decimal]

    @property
    def greatest(self) -> int:
        """The first step with the greatest sum, from 0."""
        return self.mvar.index(max(self.mvar))


def storm_losses(
    factors: Mapping[str, Factor], series: Mapping[str, Sequence[tuple[int, int, Interval]]]
) -> StormLosses | None:
    """The losses over a storm by the high ends of the currents; None where not every unit with a factor has a series."""
    if not factors or not all(name in series for name in factors):
        return None
    steps = next(iter(series[name] for name in factors))
    sums = [
        total(factors, {name: size(series[name][place][2]) for name in factors}) for place in range(len(steps))
    ]
    return StormLosses([time for _, time, _ in steps], sums)


def size(value: Interval) -> int:
    """The greatest absolute value in an interval."""
    return max(value.high, -value.low)
