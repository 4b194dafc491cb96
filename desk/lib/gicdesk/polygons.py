"""Zones as polygons: which of them a place lies in.

A polygon is its corners in latitude and longitude, one after another; its sides are straight in these two numbers, and
the last corner joins the first. None may lie across the meridian of 180 degrees.
"""

import dataclasses
from collections.abc import Sequence

from .counts import plural
from .findings import Finding
from .places import Place, Point, point
from .records import Record, read_table

HEADS = ["zone", "latitude", "longitude"]


@dataclasses.dataclass(frozen=True)
class Polygon:
    zone: str
    corners: list[Point]

    def sides(self) -> list[tuple[Point, Point]]:
        return list(zip(self.corners, self.corners[1:] + self.corners[:1]))

    def on_border(self, place: Point) -> bool:
        """Whether the place lies on a side or a corner."""
        for start, end in self.sides():
            within = all(min(start[axis], end[axis]) <= place[axis] <= max(start[axis], end[axis]) for axis in (0, 1))
            if within and turn(start, end, place) == 0:
                return True
        return False

    def inside(self, place: Point) -> bool:
        """Whether the place lies within, and on no border: a ray to the east crosses an odd number of sides."""
        if self.on_border(place):
            return False
        crossed = 0
        for start, end in self.sides():
            if (start[0] > place[0]) != (end[0] > place[0]):
                south, north = sorted((start, end))
                crossed += turn(south, north, place) > 0
        return crossed % 2 == 1


def turn(start: Point, end: Point, place: Point) -> int:
    """On which side of the way from start to end the place lies: of a way to the north, 1 to its west, -1 to its east,
    and 0 on its line."""
    product = (end[0] - start[0]) * (place[1] - start[1]) - (place[0] - start[0]) * (end[1] - start[1])
    return (product < 0) - (product > 0)


def read_polygons(file: str, zones: set[str], findings: list[Finding]) -> list[Polygon]:
    """The polygons of a table of corners, one for each zone that it names."""
    polygons: dict[str, Polygon] = {}
    last = ""
    for at in read_table(file, HEADS, findings):
        zone = at.text("zone")
        if zone not in zones:
            at.wrong("zone", f'"{zone}" is none of {", ".join(sorted(zones))}; write one of these')
            continue
        if zone in polygons and zone != last:
            at.wrong("zone", f"{zone} has rows above those of {last} already; a zone has one polygon, its rows together")
        polygons.setdefault(zone, Polygon(zone, [])).corners.append(corner(at))
        last = zone
    for polygon in polygons.values():
        if len(polygon.corners) < 3:
            corners = plural(len(polygon.corners), "corner")
            findings.append(Finding(file, f"{polygon.zone} has {corners}; a polygon has 3 or more, a row for each"))
    return list(polygons.values())


def corner(at: Record) -> Point:
    place = at.number("latitude"), at.number("longitude")
    for column, number, most in zip(("latitude", "longitude"), place, (90, 180)):
        if abs(number) > most:
            at.wrong(column, f"it is {number:f}, and not {-most} to {most} degrees")
    return point(place)


def zone_of(at: Record, place: Place, polygons: Sequence[Polygon]) -> str:
    """The zone that a place lies in; on a border the first one. One in none or in two is a finding."""
    here = point(place)
    inside = [polygon.zone for polygon in polygons if polygon.inside(here)]
    near = inside or [polygon.zone for polygon in polygons if polygon.on_border(here)]
    where = f"{place[0]:f}, {place[1]:f}"
    if len(inside) > 1:
        at.wrong(None, f"it lies at {where}, in {' and in '.join(inside)}; let these polygons not overlap")
    if not near:
        at.wrong(None, f"it lies at {where}, in no polygon; widen one, or look at its coordinates")
        return ""
    return near[0]
