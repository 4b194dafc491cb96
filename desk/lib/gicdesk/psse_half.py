"""Resistances of windings that a file `.gic` leaves to the power flow: half of R1-2 for each of two windings.

In ohm at the voltage of the first winding R1-2 is the resistance of both windings together, as seen from there. Half of the
losses are taken to arise in each winding. A wye at its own voltage V has then half of R1-2 times V²; the series winding of an
autotransformer half of R1-2 at its high voltage; and its common winding, which carries (n - 1) times the current of the
series one at the ratio n of the voltages, half of R1-2 at the high voltage over (n - 1)².
"""

import dataclasses
import decimal

from .findings import Finding
from .psse_raw import Transformer
from .records import Record

HALF = "half"
WATT = decimal.Decimal("1e-6")  # MW


@dataclasses.dataclass(frozen=True)
class Shares:
    """How the resistances of windings that stand as 0 are met: by the word of --windings, with what is told."""

    word: str | None
    base_mva: decimal.Decimal
    notes: list[Finding]

    def half(self, unit: Transformer, kilovolts: decimal.Decimal) -> decimal.Decimal | None:
        """Half of R1-2 in ohm at a voltage; None where the unit doesn't have it, which is a finding."""
        at = unit.impedance
        ohm, mva = at.number("R1-2", "0"), at.number("SBASE1-2", f"{self.base_mva}")
        way = unit.record.whole("CZ", 1)
        if ohm <= 0 or mva <= 0 or way not in (1, 2, 3):
            at.wrong("R1-2", "there is no resistance in it of which a winding could have half; write WRI and WRJ in ohm")
            return None
        base = self.base_mva if way == 1 else mva
        per_unit = ohm * WATT / mva if way == 3 else ohm
        return per_unit * kilovolts**2 / base / 2

    def refuse(self, at: Record, column: str) -> None:
        words = "it is 0, which means: take it from the power flow"
        at.wrong(column, f"{words}; --windings={HALF} takes half of R1-2 for each winding, or write ohm a phase")

    def tell(self, at: Record, column: str, ohm: decimal.Decimal, what: str) -> None:
        words = f"it is 0: {float(ohm):.6g} ohm are taken, half of R1-2 of the power flow {what}"
        self.notes.append(at.finding(words, column))
