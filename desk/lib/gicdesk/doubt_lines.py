"""Lines whose resistance is 10 to 20 per cent above what most lines of their voltage have for each kilometre.

Only where the resistances are made of the lengths, so that most lines of a voltage have the same for each kilometre, can that be
seen. Where lines were measured, or their ways are longer than the distance of their ends, nothing is asked.
"""

import dataclasses
import statistics
from collections.abc import Iterator, Sequence

LEAST_KM = 20.0  # of a line that says something: shorter ones have too few digits
SAME = 1.008  # the greatest of lines that have the same for each kilometre, over the least of them
LEAST_SAME, LEAST_PART = 6, 0.5  # so many lines of a voltage, and this part of them, have the same
LEAST_MORE, MOST_MORE = 0.08, 0.22


@dataclasses.dataclass(frozen=True)
class Line:
    name: str
    kilovolts: float
    kilometres: float
    ohm: float

    @property
    def per_km(self) -> float:
        return self.ohm / self.kilometres


@dataclasses.dataclass(frozen=True)
class Greater:
    """The lines of a voltage with more for each kilometre than most, and how much more, as parts of 1."""

    names: tuple[str, ...]
    kilovolts: float
    least: float
    most: float


def commonest(values: Sequence[float]) -> tuple[float, int]:
    """The middle of the most values that are the same, and how many these are."""
    ordered = sorted(values)
    best, first = (0, 0), 0
    for place, value in enumerate(ordered):
        while value > SAME * ordered[first]:
            first += 1
        best = max(best, (place - first + 1, -first))
    many, first = best[0], -best[1]
    return statistics.median(ordered[first : first + many]), many


def greater_lines(lines: Sequence[Line]) -> Iterator[Greater]:
    of_voltage: dict[float, list[Line]] = {}
    for line in lines:
        if line.kilometres >= LEAST_KM and line.kilovolts > 0:
            of_voltage.setdefault(line.kilovolts, []).append(line)
    for kilovolts, rows in sorted(of_voltage.items(), reverse=True):
        middle, many = commonest([line.per_km for line in rows])
        if many < LEAST_SAME or many < LEAST_PART * len(rows):
            continue
        found = [(line.per_km / middle - 1, line.name) for line in rows]
        found = [(more, name) for more, name in found if LEAST_MORE <= more <= MOST_MORE]
        if found:
            parts = [more for more, _ in found]
            yield Greater(tuple(name for _, name in found), kilovolts, min(parts), max(parts))
