"""Spans from coordinates, by the lengths of a degree on the WGS84 ellipsoid."""

import decimal
import math
from fractions import Fraction

MOST_KM = 1000  # of a span, to either direction
SPAN_FROM_MAP_M = 10000  # a span that is given is this near to that of the coordinates
SHORT_M = 100  # a line whose span is shorter is told
Place = tuple[decimal.Decimal, decimal.Decimal]  # a latitude and a longitude
Point = tuple[Fraction, Fraction]  # the same, to reckon with exactly


def point(place: Place) -> Point:
    return Fraction(place[0]), Fraction(place[1])


def span_metres(start: Place, end: Place) -> tuple[int, int]:
    """How far the second place lies to the north and to the east of the first, in whole metres."""
    north, east = exact_metres(start, end)
    return round(north), round(east)


def exact_metres(start: Place, end: Place) -> tuple[float, float]:
    """The same without rounding."""
    return degrees_between((float(start[0]), float(start[1])), (float(end[0]), float(end[1])))


def degrees_between(start: tuple[float, float], end: tuple[float, float]) -> tuple[float, float]:
    """The same in metres: their degrees apart, times the kilometres that a degree has at the mean latitude."""
    mean = math.radians((start[0] + end[0]) / 2)
    to_the_east = (end[1] - start[1] + 180) % 360 - 180
    north = (111.133 - 0.56 * math.cos(2 * mean)) * (end[0] - start[0])
    east = (111.5065 - 0.1872 * math.cos(2 * mean)) * math.cos(mean) * to_the_east
    return 1000 * north, 1000 * east
