"""Shunt reactors and earthing transformers of a case: they have no current of a unit, and their windings carry one."""

import dataclasses
import math
from collections.abc import Callable, Mapping
from typing import Any

from .beyond import REACTOR
from .forms import Interval
from .reports import Field

WAYS = {"north": (1, 0), "east": (0, 1)}  # the fields by which the greatest current is made


@dataclasses.dataclass(frozen=True)
class Reactors:
    """Of each reactor the greatest current of its winding over all directions, the three phases together, in milliamperes; None of
    one that carries none."""

    worst: Mapping[str, Interval | None] = dataclasses.field(default_factory=dict)

    def __contains__(self, name: object) -> bool:
        return name in self.worst


def reactors_in(case: Mapping[str, Any] | None) -> list[str]:
    return [] if case is None else [row["name"] for row in case.get("transformer", []) if row["kind"] == REACTOR]


def ends_of(value: Interval) -> tuple[int, int]:
    """The least and the greatest absolute value within an interval."""
    least = 0 if value.low <= 0 <= value.high else min(abs(value.low), abs(value.high))
    return least, max(abs(value.low), abs(value.high))


def worst_of(north: Interval, east: Interval) -> Interval:
    """The greatest current over all directions, of the two in fields to the north and to the east, with the ends rounded outward."""
    lows, highs = zip(ends_of(north), ends_of(east))
    most = math.isqrt(highs[0] ** 2 + highs[1] ** 2)
    return Interval(math.isqrt(lows[0] ** 2 + lows[1] ** 2), most + (most * most < highs[0] ** 2 + highs[1] ** 2))


def windings_in(field: Field) -> dict[str, Interval]:
    return {item.name: item.value for item in field.items if item.kind == "winding" and item.value is not None}


def make_reactors(names: list[str], strength: int, run: Callable[[str, str, str], Field]) -> Reactors:
    """The currents of the windings, by two runs of `field` at the strength of the event; none without a reactor."""
    if not names:
        return Reactors()
    north, east = (
        windings_in(run(f"field_{way}", f"--north={strength * parts[0]}", f"--east={strength * parts[1]}"))
        for way, parts in WAYS.items()
    )
    return Reactors({name: worst_of(north[name], east[name]) if name in north and name in east else None for name in names})
