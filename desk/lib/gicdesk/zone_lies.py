"""Where the zones of a case lie from south to north, by the lines in them, and the strips of zones that an enhancement can cover."""

import dataclasses
import itertools
from collections.abc import Iterator, Mapping, Sequence

from .cases import Case, Row
from .network import Place
from .seen import number_of

METRES = 1000


@dataclasses.dataclass(frozen=True)
class ZoneLie:
    """A zone by its lines: their southernmost and northernmost ends, and the middle of all their lengths, in metres."""

    name: str
    south: float
    middle: float
    north: float

    @property
    def depth(self) -> float:
        return self.north - self.south


@dataclasses.dataclass(frozen=True)
class Strip:
    """Zones whose middles lie in a strip from west to east."""

    zones: tuple[str, ...]

    def text(self, every: int) -> str:
        return "all zones" if len(self.zones) == every else " ".join(self.zones)


def pieces_of(line: Row) -> list[tuple[str, int, int]]:
    """The zones of a line, each with how far it leads there to the north and to the east."""
    parts = line.value("part")
    if isinstance(parts, tuple):
        return [(part.zone, part.north, part.east) for part in parts]
    return [(str(line.value("zone")), number_of(line, "north"), number_of(line, "east"))]


def stretches(case: Case, places: Mapping[str, Place]) -> Iterator[tuple[str, float, float, float]]:
    """Each line in each of its zones: from which northing to which, and how long it is there."""
    station_of = {row.name: str(row.value("substation")) for row in case.lists["bus"]}
    for line in case.lists["line"]:
        start = places.get(station_of[str(line.value("from"))])
        if start is None:
            continue
        at = start[0]
        for zone, north, east in pieces_of(line):
            yield zone, at, at + north, (north**2 + east**2) ** 0.5
            at += north


def zone_lies(case: Case, places: Mapping[str, Place]) -> list[ZoneLie]:
    """The zones in which lines are, the southernmost first."""
    found: dict[str, list[tuple[float, float, float]]] = {}
    for zone, start, end, length in stretches(case, places):
        found.setdefault(zone, []).append((start, end, length))
    lies = []
    for zone, rows in found.items():
        ends = [end for row in rows for end in row[:2]]
        whole = sum(length for *_, length in rows) or 1.0
        middle = sum((start + end) / 2 * length for start, end, length in rows) / whole
        lies.append(ZoneLie(zone, min(ends), middle, max(ends)))
    return sorted(lies, key=lambda lie: (lie.middle, lie.name))


def strips_of(lies: Sequence[ZoneLie], depth: float) -> list[Strip]:
    """All sets of zones whose middles lie in a strip of this depth, wherever it lies; the southernmost first."""
    edges = sorted({edge for lie in lies for edge in (lie.middle - depth, lie.middle)})
    souths = sorted([*edges, *((one + other) / 2 for one, other in itertools.pairwise(edges))])
    sets = (tuple(lie.name for lie in lies if south <= lie.middle <= south + depth) for south in souths)
    return [Strip(zones) for zones in dict.fromkeys(sets) if zones]


def coarse_text(lies: Sequence[ZoneLie], depth: float) -> str:
    """How coarse the zones are beside a strip."""
    depths = [lie.depth / METRES for lie in lies]
    words = f"{len(lies)} zones with lines, {min(depths):.0f} to {max(depths):.0f} km from south to north by the lines in them"
    deeper = [lie.name for lie in lies if lie.depth > depth]
    if not deeper:
        return f"{words}: each is less deep than a strip of {depth / METRES:g} km"
    many = "1 of them is" if len(deeper) == 1 else f"{len(deeper)} of them are"
    words += f". {many} deeper than a strip of {depth / METRES:g} km, and a strip has a zone as a whole or not at all"
    return f"{words}: divide zones into bands for less coarse strips"
