"""Where the straight way between two places crosses the borders of zones."""

import dataclasses
from collections.abc import Iterable, Sequence
from fractions import Fraction

from .places import Place, Point, point
from .polygons import Polygon

MARGIN = 1e-9  # degrees, far above the rounding of a double


@dataclasses.dataclass(frozen=True)
class Stretch:
    """A part of the way in one zone, up to a share of the way; the zones are several where polygons overlap there, and
    none where no polygon is."""

    zones: tuple[str, ...]
    until: Fraction


def cross(one: Point, other: Point) -> Fraction:
    return one[0] * other[1] - one[1] * other[0]


def less(one: Point, other: Point) -> Point:
    return one[0] - other[0], one[1] - other[1]


def shares_at(start: Point, way: Point, side: tuple[Point, Point]) -> list[Fraction]:
    """The shares of the way at which it meets a side; of a side along the way those of its ends."""
    along, there = less(side[1], side[0]), less(side[0], start)
    turn = cross(way, along)
    if turn != 0:
        on_side = cross(there, way) / turn
        return [cross(there, along) / turn] if 0 <= on_side <= 1 else []
    if cross(there, way) != 0:
        return []
    square = way[0] ** 2 + way[1] ** 2
    ends = (there, less(side[1], start))
    return [(end[0] * way[0] + end[1] * way[1]) / square for end in ends]


@dataclasses.dataclass(frozen=True)
class Box:
    """A rectangle in latitude and longitude that holds what it is made of, with a margin for doubles."""

    least: tuple[float, float]
    most: tuple[float, float]

    @classmethod
    def around(cls, points: Iterable[Point]) -> "Box":
        pairs = [(float(at[0]), float(at[1])) for at in points]
        least = min(pair[0] for pair in pairs) - MARGIN, min(pair[1] for pair in pairs) - MARGIN
        return cls(least, (max(pair[0] for pair in pairs) + MARGIN, max(pair[1] for pair in pairs) + MARGIN))

    def meets(self, other: "Box") -> bool:
        return all(self.least[axis] <= other.most[axis] and other.least[axis] <= self.most[axis] for axis in (0, 1))


class Borders:
    """The polygons of the zones, with their exact corners."""

    def __init__(self, polygons: Sequence[Polygon]) -> None:
        self.polygons = polygons
        self.boxes = [Box.around(polygon.corners) for polygon in self.polygons]
        self.sides = [(Box.around(side), side) for polygon in self.polygons for side in polygon.sides()]
        self.known: dict[Point, tuple[str, ...]] = {}

    def zones_at(self, at: Point) -> tuple[str, ...]:
        """The zones that hold a point; of those that have it on their border the first alone, where no other holds it."""
        if at not in self.known:
            here = Box.around([at])
            near = [polygon for polygon, box in zip(self.polygons, self.boxes) if box.meets(here)]
            inside = [polygon.zone for polygon in near if polygon.inside(at)]
            self.known[at] = tuple(inside or [polygon.zone for polygon in near if polygon.on_border(at)][:1])
        return self.known[at]

    def stretches(self, start: Place, end: Place) -> list[Stretch]:
        """The way from start to end, cut where its zone changes. It is straight in latitude and longitude, as the
        sides of polygons are."""
        first, last = point(start), point(end)
        way, here = less(last, first), Box.around([first, last])
        sides = [side for box, side in self.sides if box.meets(here)]
        if not sides or first == last:
            return [Stretch(self.zones_at(first), Fraction(1))]
        shares = {share for side in sides for share in shares_at(first, way, side) if 0 < share < 1}
        ordered = [Fraction(0), *sorted(shares), Fraction(1)]
        parts: list[Stretch] = []
        for begin, until in zip(ordered, ordered[1:]):
            middle = (begin + until) / 2
            zones = self.zones_at((first[0] + middle * way[0], first[1] + middle * way[1]))
            if parts and parts[-1].zones == zones:
                parts.pop()
            parts.append(Stretch(zones, until))
        return parts
