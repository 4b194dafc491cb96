"""The directions of a uniform field, and the currents there, made of the two of a screen."""

import cmath
import math

from .forms import Interval
from .reports import Screen, ScreenUnit

DIRECTIONS = 36
HALF_TURN = 180  # degrees
STEP = HALF_TURN // DIRECTIONS  # degrees from one direction to the next


def lesser_way(north: float, east: float) -> complex:
    """Of the two ways in which a field is worst, which bring the same current with both signs, the one whose bearing in whole
    degrees is 0 to 179. The real part leads to the north, and the imaginary one to the east."""
    way = complex(north, east)
    return way if 0 <= round(math.degrees(cmath.phase(way))) < HALF_TURN else -way


def degrees_of(way: complex) -> int:
    """The bearing of a way in whole degrees from the north over the east, from 0 to 179: a field the other way gives as much."""
    return round(math.degrees(cmath.phase(way))) % HALF_TURN


def bearing_of(row: ScreenUnit) -> int | None:
    """The direction of the field that is worst, by the middles of the two currents; None where they may be 0."""
    if row.worst.low <= 0:
        return None
    return degrees_of(lesser_way(row.north.middle, row.east.middle))


def current_at(row: ScreenUnit, bearing: float) -> Interval:
    """The absolute current in the event's field of this bearing, in milliamperes: cosine times the one to the north and
    sine times the one to the east, with the ends rounded outward."""
    factors = math.cos(math.radians(bearing)), math.sin(math.radians(bearing))
    low = high = 0.0
    for factor, value in zip(factors, (row.north, row.east)):
        ends = sorted((factor * value.low, factor * value.high))
        low, high = low + ends[0], high + ends[1]
    least, most = 0.0 if low <= 0 <= high else min(abs(low), abs(high)), max(abs(low), abs(high))
    slack = 1e-6 + 1e-12 * most  # for the rounding of the floating-point numbers
    return Interval(max(0, math.floor(least - slack)), math.ceil(most + slack))


def direction_counts(screen: Screen) -> list[int]:
    """How many judged units have the threshold or more for certain in the event's field, by its bearing."""
    rows = [row for row in screen.rows if row.verdict != "outside"]
    return [sum(current_at(row, place * STEP).low >= screen.threshold for row in rows) for place in range(DIRECTIONS)]


def parts_of(strength: int, bearing: float) -> tuple[int, int]:
    """A field of this bearing by its parts to the north and to the east, in whole mV/km."""
    return round(strength * math.cos(math.radians(bearing))), round(strength * math.sin(math.radians(bearing)))
