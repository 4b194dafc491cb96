"""Geomagnetic latitudes beside coordinates: whether a latitude can be the geomagnetic one of a zone's stations.

The field of the earth is nearly that of a dipole whose pole lies in the north of Canada. The latitude as seen from that pole
is within some degrees the geomagnetic one; in North America it is some ten degrees more than the geographic one.
"""

import math
from collections.abc import Sequence

from .places import Place

POLE = 80.8, -72.7  # degrees to the north and to the east: the pole of the dipole of the years about 2025
NEAR = 4.0  # degrees: a geomagnetic latitude is this near to the dipole's
NEAR_GEOGRAPHIC = 1.0  # and one this near to the geographic latitude is taken for that,
APART = 2.0  # where it is further than this from the dipole's
ASKED = 1.5  # degrees: one that is further than this from the dipole's is a question


def dipole_latitude(place: tuple[float, float]) -> float:
    """The absolute latitude of a place as seen from the pole of the dipole, in degrees."""
    latitude, pole = math.radians(place[0]), math.radians(POLE[0])
    between = math.radians(place[1] - POLE[1])
    sine = math.sin(latitude) * math.sin(pole) + math.cos(latitude) * math.cos(pole) * math.cos(between)
    return abs(math.degrees(math.asin(max(-1.0, min(1.0, sine)))))


def beyond(number: float, within: Sequence[float]) -> float:
    """How far a number is outside of the range of others; 0 within it."""
    return max(min(within) - number, number - max(within), 0.0)


def latitude_off(given: float, places: Sequence[Place]) -> str | None:
    """How far a latitude is off those of the dipole, where it is further than most are and `latitude_words` says nothing of it."""
    if not places or latitude_words(given, places) is not None:
        return None
    dipole = [dipole_latitude((float(place[0]), float(place[1]))) for place in places]
    off = beyond(given, dipole)
    if off <= ASKED:
        return None
    return f"{off:.1f} off the {min(dipole):.1f} to {max(dipole):.1f} of its stations as seen from the pole of the earth's dipole"


def latitude_words(given: float, places: Sequence[Place]) -> str | None:
    """What is to be asked about the geomagnetic latitude of a zone whose stations lie at these places."""
    if not places:
        return None
    pairs = [(float(place[0]), float(place[1])) for place in places]
    dipole = [dipole_latitude(pair) for pair in pairs]
    geographic = [abs(pair[0]) for pair in pairs]
    off = beyond(given, dipole)
    is_geographic = beyond(given, geographic) <= NEAR_GEOGRAPHIC and off > APART
    if off <= NEAR and not is_geographic:
        return None
    lie = f"at {min(dipole):.1f} to {max(dipole):.1f} degrees as seen from the pole of the earth's dipole"
    words = f"it is {given:g}, and the stations of the zone lie {lie}"
    if is_geographic:
        words += f"; their geographic latitude is {min(geographic):.1f} to {max(geographic):.1f}: is it that one"
    return words
