"""In which units GMD data of PowerModels are read, and what their numbers say about it all at once.

The convention of PowerModels is that g_gnd is in siemens, br_r in ohm of the three phases together, and br_v in volts. Data of
other programs may have ohm for siemens, ohm of one phase, or voltages in another field than 1 V/km; options say so. A single
number doesn't show it, and all lines together mostly do: by their lengths, where the data have places or lengths, and by their
resistances.
"""

import dataclasses
import math
import statistics
from collections.abc import Sequence

from .counts import plural
from .findings import Finding, Refused
from .quantities import bare
from .usual import Number, short

TOGETHER, PHASE = "together", "phase"  # of which br_r is
SIEMENS, OHM = "siemens", "ohm"  # what g_gnd is in
MOST_SCALE = 1.5  # of alpha times beta
LEAST_SCALE = 0.02
MOST_FIELD = 1000  # V/km
FACTORS = (8, 10, 100, 1000, 1 / 10, 1 / 1000)  # of voltages: the field of the benchmark event, and powers of ten
NEAR = 1.8  # a ratio this near to a factor is as if by it
FEWEST = 3  # lines or grounds that say something together
# Ohm for each km of a phase that lines mostly have about, by the kilovolts above which.
TYPICAL = ((600, 0.009), (450, 0.016), (300, 0.035), (200, 0.07), (100, 0.13), (0, 0.3))
MOST_GROUND = 1.4  # ohm: the middle one of all grounds is mostly below


@dataclasses.dataclass(frozen=True)
class Reading:
    """The units, and the field in V/km of both files; None where that is what the files say, or 1."""

    field: float | None = None
    resistances: str = TOGETHER
    grounds: str = SIEMENS

    def text(self, strength: float) -> str:
        phases = "the three phases together" if self.resistances == TOGETHER else "one phase"
        return (
            f"g_gnd is read in {self.grounds}, br_r in ohm of {phases}, and br_v in volts in a field of {strength:g} V/km; "
            "--grounds, --resistances and --field say it otherwise"
        )


def read_reading(field: str | None, resistances: str, grounds: str) -> Reading:
    """The reading by the words of the options."""
    if field is None:
        return Reading(None, resistances, grounds)
    try:
        number = float(field)
    except ValueError:
        number = math.nan
    if not 0 < number <= MOST_FIELD:
        words = f"allowed are numbers above 0 and up to {MOST_FIELD}, in V/km"
        raise Refused([Finding(f"--field={bare(field)}", words)])
    return Reading(number, resistances, grounds)


@dataclasses.dataclass(frozen=True)
class LineFacts:
    """What the data say of a line: its voltages in both fields of 1 V/km, its ohm a phase, and what is known beside."""

    index: str
    name: str
    start: str  # the station of each end
    end: str
    volts: tuple[float, float]
    ohm: float
    kilovolts: float | None
    mapped: tuple[float, float] | None  # km to the north and to the east by the places of its ends
    length: float | None  # km

    @property
    def kilometres(self) -> float | None:
        return self.length if self.mapped is None else math.hypot(*self.mapped)

    @property
    def scale(self) -> float | None:
        """Alpha times beta, as far as the data show it: the voltage for each km."""
        if self.mapped is not None and math.hypot(*self.mapped) >= 1:
            return sum(v * m for v, m in zip(self.volts, self.mapped)) / sum(m * m for m in self.mapped)
        return math.hypot(*self.volts) / self.length if self.length else None


def typical(kilovolts: float) -> float:
    return next(ohm for most, ohm in TYPICAL if kilovolts > most or most == 0)


def near(ratio: float, factor: float) -> bool:
    return 1 / NEAR < ratio / factor < NEAR


def strength_fault(lines: Sequence[LineFacts]) -> str | None:
    """What is wrong with the strength of both fields: alpha times beta that no case has, in the middle of all lines."""
    scales = [abs(scale) for line in lines if (scale := line.scale) is not None]
    if len(scales) < FEWEST:
        return None
    middle = statistics.median(scales)
    if LEAST_SCALE <= middle <= MOST_SCALE:
        return None
    fitting = [factor for factor in FACTORS if 0.1 <= middle / factor <= 1.2]
    ways = " or ".join(f"--field={factor:g}" for factor in fitting[:3]) or "--field"
    words = f"by the lengths of {plural(len(scales), 'line')} alpha times beta would be {middle:.3g}, and a case has up to {MOST_SCALE}"
    return f"{words}; see in which field the voltages are, and give {ways}"


def resistance_note(lines: Sequence[LineFacts], reading: Reading) -> str | None:
    """What the resistances of all lines say together, where that isn't what lines mostly have."""
    known = [line for line in lines if line.kilovolts and line.ohm > 0]
    by_length = [(line, km) for line in known if (km := line.kilometres) is not None and km >= 1]
    is_measured = len(by_length) >= FEWEST
    pairs = by_length if is_measured else [(line, km) for line in known if (km := math.hypot(*line.volts)) >= 1]
    if len(pairs) < FEWEST:
        return None
    ratio = statistics.median(line.ohm / km / typical(line.kilovolts or 0) for line, km in pairs)
    # Without lengths alpha and beta are in the voltages: they make lines shorter, by up to ten.
    least, most = (1 / 2.2, 2.2) if is_measured else (1 / 2.2, 22.0)
    if least <= ratio <= most:
        return None
    hints = [
        ("br_r is of one phase: then give --resistances=phase", 3.0, reading.resistances == TOGETHER),
        ("br_r is of three phases together: then leave out --resistances=phase", 1 / 3, reading.resistances == PHASE),
        ("the voltages are in a field of 8 V/km: then give --field=8", 1 / 8, not is_measured),
        ("they are in another unit, by a power of ten", 10.0 ** round(math.log10(ratio)), round(math.log10(ratio)) != 0),
    ]
    found = [words for words, factor, is_open in hints if is_open and near(ratio if is_measured else ratio / 1.5, factor)]
    where = "for each km" if is_measured else "for each volt"
    words = f"all {len(pairs)} lines together have {short(Number(repr(ratio)))} times the ohm {where} that lines of their voltages mostly have"
    return f"{words}: perhaps {', or '.join(found)}" if found else f"{words}; see in which units br_r and br_v are"


def ground_note(siemens: Sequence[float], reading: Reading) -> str | None:
    """What all grounds say together: whether they are in the other unit."""
    if len(siemens) < FEWEST:
        return None
    ohm = statistics.median(1 / one for one in siemens)
    if ohm <= MOST_GROUND or not 0.02 <= 1 / ohm <= MOST_GROUND:
        return None
    other = OHM if reading.grounds == SIEMENS else SIEMENS
    words = f"the middle one of {len(siemens)} grounds has {short(Number(repr(ohm)))} ohm, and in the other unit {short(Number(repr(1 / ohm)))}"
    return f"{words}; if g_gnd is in {other}, give --grounds={other}"
