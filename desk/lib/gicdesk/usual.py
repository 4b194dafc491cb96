"""The resistances that most networks have, by kilovolts. They are wide, and this project's own."""

import dataclasses
import decimal
from collections.abc import Sequence

Number = decimal.Decimal


@dataclasses.dataclass(frozen=True)
class Usual:
    """From above how many kV on a thing has from `least` to `most` of its unit."""

    kilovolts: int
    least: str
    most: str


# Each list begins with the highest voltages.
LINES = (  # ohm per km
    Usual(600, "0.002", "0.05"),
    Usual(300, "0.005", "0.15"),
    Usual(200, "0.01", "0.3"),
    Usual(100, "0.02", "0.6"),
    Usual(0, "0.03", "1.5"),
)
WINDINGS = (  # ohm per phase
    Usual(300, "0.02", "5"),
    Usual(100, "0.01", "8"),
    Usual(30, "0.005", "10"),
    Usual(0, "0.001", "2"),
)
GROUNDS = (Usual(300, "0.02", "5"), Usual(100, "0.02", "10"), Usual(0, "0.05", "30"))  # ohm
NEUTRALS = (Usual(0, "0.001", "50"),)  # ohm
REACTORS = (Usual(300, "0.1", "20"), Usual(100, "0.05", "20"), Usual(0, "0.01", "20"))  # ohm per phase
# The middle of what grounds at a station of a voltage have, in ohm: this project's own, of published networks and of guides.
MIDDLE_GROUNDS = ((300, 0.2), (200, 0.3), (100, 0.5), (0, 1.0))
LEAST_NEUTRAL, MOST_NEUTRAL = 0.005, 1.0  # ohm: a neutral resistor beyond these is asked about
LEAST_BETA = 0.5  # a beta below it is that of few earth models
BASE_MVA = 100
TRANSMISSION_KV = 200  # above it a voltage is one of transmission, and so is the other of an autotransformer


def usual_at(rows: Sequence[Usual], kilovolts: Number) -> tuple[Number, Number]:
    """The least and the most that is usual at this voltage."""
    row = next(row for row in rows if kilovolts > row.kilovolts or row is rows[-1])
    return Number(row.least), Number(row.most)


def usual_ground(kilovolts: float) -> float:
    """The ohm that the middle one of grounds at stations of such a highest voltage has."""
    return next(ohm for least, ohm in MIDDLE_GROUNDS if kilovolts > least or least == 0)


def short(number: Number) -> str:
    """A number with four digits, and without an exponent."""
    rounded = Number(f"{number:.4g}")
    return f"{rounded.normalize():f}"


def hint(value: Number, kilovolts: Number, least: Number, most: Number) -> str:
    """What the number could be in another unit, where that would be usual; empty where in none."""
    readings = (
        ("in milli-ohm", value / 1000),
        ("in micro-ohm", value / 10**6),
        (f"per unit on {BASE_MVA} MVA at {short(kilovolts)} kV", value * kilovolts**2 / BASE_MVA),
    )
    for words, ohm in readings:
        if least <= ohm <= most:
            return f": {words} it would be {short(ohm)}"
    return ""


def unusual(ohm: Number, usual: tuple[Number, Number], what: str, kilovolts: Number) -> tuple[str, str] | None:
    """What is to be told of a resistance that few of its kind have, and what it would be in another unit."""
    least, most = usual
    if least <= ohm <= most:
        return None
    words = f"{short(ohm)} ohm is not the {short(least)} to {short(most)} ohm that most {what} have"
    return words, hint(ohm, kilovolts, least, most)


def two_transmission_voltages(high: Number, low: Number) -> str | None:
    """What is to be told of two windings, each earthed at its own neutral, that join two transmission voltages: mostly that
    is an autotransformer, whose current is another one."""
    if low <= TRANSMISSION_KV:
        return None
    joins = f"two earthed wyes of {short(high)} and {short(low)} kV"
    return f"{joins}: a unit that joins two voltages above {TRANSMISSION_KV} kV is mostly an autotransformer, as YNa"


def unusual_line(ohm: Number, metres: float, kilovolts: Number) -> tuple[str, str] | None:
    """The same of the resistance of a line, for each kilometre between its ends."""
    least, most = usual_at(LINES, kilovolts)
    kilometres = Number(max(round(metres), 1000)) / 1000
    if least <= ohm / kilometres <= most:
        return None
    words = f"{short(ohm)} ohm over {metres / 1000:.1f} km are {short(ohm / kilometres)} ohm per km, and not the "
    words += f"{short(least)} to {short(most)} that most lines of {short(kilovolts)} kV have"
    return words, hint(ohm, kilovolts, least * kilometres, most * kilometres)
