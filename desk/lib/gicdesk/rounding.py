"""How far the rounding of a case may be off: whole metres of spans, alpha in steps, beta in hundredths, scales in thousandths.

The program's intervals are of the case as it stands. The voltage of a line is its span times alpha and beta, and both are rounded
on the way into a case; resistances, in whole micro-ohm, are as good as exact.
"""

import dataclasses
import math
from collections.abc import Callable, Sequence

from .alpha import Scale, by_table
from .cases import Part, Row
from .parts import Piece

FIELD = 8.0  # V/km, of the benchmark event
Pair = tuple[float, float]  # volts in 1 V/km to the north and to the east
HOLDS = "the program's intervals hold for this case; the rounding of spans, alpha and beta"
METRE = 1.0  # a span of coordinates is rounded to whole ones, and so is that times the factor of its zone


def product(scale: Scale) -> float:
    """Alpha times beta as the program has them."""
    return float(by_table(scale.latitude)) * scale.beta / 100


def meant(pieces: Sequence[Piece], span: Pair, scale_of: Callable[[str], Scale]) -> Pair:
    """The voltages of a line of this span in metres, without any rounding."""
    share, whole = 0.0, 0.0
    for piece in pieces:
        scale = scale_of(piece.zone)
        whole += (float(piece.until) - share) * product(scale) * float(scale.factor)
        share = float(piece.until)
    return whole * span[0] / 1000, whole * span[1] / 1000


def written(row: Row, scale_of: Callable[[str], Scale]) -> Pair:
    """The voltages of a line as it is in the case."""
    parts = row.value("part")
    if isinstance(parts, tuple):
        return sums([(part, product(scale_of(part.zone))) for part in parts])
    zone, north, east = row.value("zone"), row.value("north"), row.value("east")
    if not (isinstance(zone, str) and isinstance(north, int) and isinstance(east, int)):
        return 0.0, 0.0
    return sums([(Part(zone, north, east), product(scale_of(zone)))])


def sums(parts: Sequence[tuple[Part, float]]) -> Pair:
    return sum(part.north * times for part, times in parts) / 1000, sum(part.east * times for part, times in parts) / 1000


@dataclasses.dataclass
class Rounding:
    """The line whose voltage the rounding changes most, and by how much."""

    name: str = ""
    volts: float = 0.0  # at 8 V/km, in the direction in which that is most
    part: float = 0.0  # of its voltage in that direction
    lines: int = 0

    def add(self, name: str, exact: Pair, written: Pair) -> None:
        """A line by its voltages in 1 V/km as they are meant, and as the case has them."""
        self.lines += 1
        change = math.hypot(*(here - there for here, there in zip(written, exact)))
        if change * FIELD > self.volts or not self.name:
            whole = math.hypot(*exact)
            self.name, self.volts, self.part = name, change * FIELD, change / whole if whole else 0.0

    @property
    def text(self) -> str:
        """What is said of it where the case is made."""
        if self.volts < 1e-9:
            return f"{HOLDS} changes no voltage of a line"
        line = f"{self.name}, {short(100 * self.part)} per cent"
        return f"{HOLDS} changes the voltage of a line by up to {short(self.volts)} V at {FIELD:g} V/km ({line})"


def short(number: float) -> str:
    """A number with two digits, and without an exponent."""
    return f"{number:.{max(0, 1 - math.floor(math.log10(number)))}f}" if number > 0 else "0"


def most_of_metres(scales: Sequence[float], parts: int, field: float) -> float:
    """By how many volts a line of so many parts may be off in a field of V/km, since each part of its span is in whole metres."""
    return math.hypot(METRE, METRE) * parts * max(scales, default=0.0) * field / 1000
