"""Phase shifters of a power flow: units that join two buses of one voltage.

The vector group of such a unit is mostly that of its parts, an exciting and a series unit, while direct current passes through
one winding in series from bus to bus. So a unit whose group has a delta is a line without a span; `--phase-shifter` says it for
all units that join two buses of one voltage.
"""

import dataclasses
import decimal
from collections.abc import Sequence

from .cases import Field
from .psse_gic import Windings
from .psse_half import Shares
from .psse_raw import Transformer
from .psse_units import RATED_FROM_BUS, Winding, micro_ohm
from .usual import short
from .vectors import GROUNDED, letters_of

LINE, WINDINGS = "line", "windings"
CHOICES = (LINE, WINDINGS)
AS_WINDINGS = "its windings are those of its vector group"
AS_LINE = "it is taken as a phase shifter, a resistance in series"


@dataclasses.dataclass(frozen=True)
class Shifter:
    """A unit that joins two buses of one voltage, and how it is taken."""

    name: str
    unit: Transformer
    windings: Sequence[Winding]  # the highest voltage first
    has_delta: bool
    choice: str | None  # the word of --phase-shifter

    @property
    def is_line(self) -> bool:
        return self.choice == LINE or (self.choice is None and self.has_delta)

    @property
    def told(self) -> str:
        """What is taken, and the option for the other."""
        words = f"{self.name} joins two buses of one voltage"
        if self.choice is not None:
            return f"{words}: {AS_LINE if self.is_line else AS_WINDINGS}, by --phase-shifter={self.choice}"
        if self.has_delta:
            return f"{words}, and its vector group has a delta: {AS_LINE}; --phase-shifter={WINDINGS} takes the windings of its group"
        return f"{words}: {AS_WINDINGS}; if it is a phase shifter, --phase-shifter={LINE} takes a resistance in series"

    @property
    def ends(self) -> tuple[int, int]:
        """The two buses, in the order of the unit's record."""
        joined = {winding.bus for winding in self.windings[:2]}
        first, second = (bus for bus in self.unit.buses if bus in joined)
        return first, second

    @property
    def left_out(self) -> list[int]:
        """The buses of further grounded windings, which a line doesn't have."""
        return [winding.bus for winding in self.windings[2:] if winding.letters == GROUNDED]

    def resistance(self, data: Windings, shares: Shares) -> tuple[Field, str]:
        """The resistance in series, with what it is made of: both windings of the `.gic`, or else R1-2 of the power flow."""
        ohm = sum((winding.side.ohm for winding in self.windings[:2]), decimal.Decimal(0))
        made_of = " and ".join(f"WR{winding.name}" for winding in sorted(self.windings[:2], key=lambda one: one.name))
        column = f"WR{self.windings[0].name}"
        if ohm == 0:
            half = shares.half(self.unit, self.windings[0].kilovolts)
            ohm, made_of = decimal.Decimal(1) if half is None else 2 * half, "R1-2 of the power flow"
        field = Field("resistance", micro_ohm(data.record, column, ohm), f"{short(ohm)} ohm per phase in series, of {made_of}")
        return field, f"of {short(ohm)} ohm, {made_of}"


def shifter_of(
    name: str, unit: Transformer, windings: Sequence[Winding], data: Windings, choice: str | None
) -> Shifter | None:
    """The unit as a phase shifter; None where it isn't one: an autotransformer, two voltages, or a winding that is out."""
    letters = letters_of(data.vector or unit.vector) or []
    if len(windings) < 2 or "A" in letters:
        return None
    high, other = windings[:2]
    out = None if unit.out is None else unit.buses[unit.out]
    if high.kilovolts - other.kilovolts > RATED_FROM_BUS * high.kilovolts or out in (high.bus, other.bus):
        return None
    return Shifter(name, unit, windings, "D" in letters, choice)
