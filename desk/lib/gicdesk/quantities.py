"""Numbers of tables in the units that their columns have, and in those of a case."""

import dataclasses
import decimal
from fractions import Fraction

from .findings import shown
from .records import Record

Number = decimal.Decimal


@dataclasses.dataclass(frozen=True)
class Quantity:
    """What a column counts: its unit and range, how many units of the case are in one, and what is wrong beyond."""

    unit: str
    least: str
    most: str
    scale: int
    guess: str


OHM = Quantity("ohm", "0.001", "1000", 10**6, "is it in micro-ohm, or per unit?")
PER_UNIT = Quantity("per unit", "0.0000001", "10", 1, "is it in ohm?")
GROUND_OHM = Quantity("ohm", "0.001", "1000", 10**6, "without a ground the cell is empty")
TOLERANCE = Quantity("per cent", "0", "90", 1, "is it a part of 1?")
KILOVOLT = Quantity("kV", "1", "2000", 10**3, "is it in volts?")
KILOMETRE = Quantity("km", "-1000", "1000", 10**3, "is it in metres?")
LATITUDE = Quantity("degrees", "-90", "90", 10**6, "is it in hundredths?")
LONGITUDE = Quantity("degrees", "-180", "180", 10**6, "is it in hundredths?")
GEOMAGNETIC = Quantity("degrees", "0", "90", 10**2, "is it in hundredths, or a southern one with its sign?")
BETA = Quantity("as a factor", "0.01", "1.5", 10**2, "is it in hundredths?")
ALPHA = Quantity("as a factor", "0.01", "2", 10**2, "is it in hundredths?")


def number_in(at: Record, column: str, quantity: Quantity) -> Number | None:
    """The number of a column, of which it is in the range; None where it isn't, which is a finding."""
    number = at.number_or_none(column)
    if number is not None and not Number(quantity.least) <= number <= Number(quantity.most):
        wanted = f"{quantity.least} to {quantity.most} {quantity.unit}"
        at.wrong(column, f"it is {bare(at.text(column))}, and not {wanted}; {quantity.guess}")
        return None
    return number


def whole(number: Number, quantity: Quantity) -> int:
    """The number in whole units of the case, the nearest one, or of two as near the even one."""
    return round(Fraction(number) * quantity.scale)


def bare(text: str) -> str:
    return shown(text)[1:-1]
