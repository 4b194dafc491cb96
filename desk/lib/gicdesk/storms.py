"""The field of a storm that the program has taken, and how long currents stay above a threshold in it."""

import bisect
import csv
import dataclasses
import io
from collections.abc import Sequence
from typing import NamedTuple

from .forms import Interval


@dataclasses.dataclass(frozen=True)
class StormStep:
    time: int
    fields: dict[str, tuple[int, int]]  # north and east of each zone, in mV/km, before alpha and beta

    @property
    def strength(self) -> float:
        """That of the strongest zone."""
        return max(((north**2 + east**2) ** 0.5 for north, east in self.fields.values()), default=0.0)


def records(data: bytes) -> list[list[str]]:
    """The records of a file that the program has taken, the heads first. To it a byte order mark and blank lines are
    none."""
    text = data.decode("utf-8-sig", "replace")
    return [cells for cells in csv.reader(io.StringIO(text, newline="")) if cells]


def storm_steps(data: bytes, zones: Sequence[str]) -> list[StormStep]:
    """The steps of a storm: at each a zone has the field of the last row that names it or stands for all, and else
    none."""
    head, *rows = records(data)
    if head == ["time", "north", "east"]:
        return [StormStep(int(time), dict.fromkeys(zones, (int(north), int(east)))) for time, north, east in rows]
    steps: list[StormStep] = []
    for time, zone, north, east in rows:
        if not steps or steps[-1].time != int(time):
            steps.append(StormStep(int(time), dict.fromkeys(zones, (0, 0))))
        named = list(steps[-1].fields) if zone == "*" else [zone]
        steps[-1].fields.update(dict.fromkeys(named, (int(north), int(east))))
    return steps


class SwitchingRow(NamedTuple):
    time: int
    item: str
    action: str


def switching_rows(data: bytes) -> list[SwitchingRow]:
    return [SwitchingRow(int(time), item, action) for time, item, action in records(data)[1:]]


def seen_rows(rows: Sequence[SwitchingRow], times: Sequence[int]) -> list[bool]:
    """Whether each row of switchings is in force at a step: the first step from its time on is one, and lies before the
    next row that says the same kind of thing of its item."""
    later: dict[tuple[str, bool], int] = {}
    seen = []
    for time, item, action in reversed(rows):
        kind = (item, action in ("block", "unblock"))
        place = bisect.bisect_left(times, time)
        seen.append(place < len(times) and times[place] < later.get(kind, times[place] + 1))
        later[kind] = time
    return seen[::-1]


@dataclasses.dataclass(frozen=True)
class Seconds:
    """How long a current is at the threshold or above, each step counted up to the next one: for certain, and as far
    as the intervals don't exclude it."""

    certain: int
    possible: int

    def __str__(self) -> str:
        return str(self.certain) if self.certain == self.possible else f"{self.certain} to {self.possible}"


def seconds_above(steps: Sequence[tuple[int, int, Interval]], threshold: int) -> Seconds:
    certain = possible = 0
    for (_, time, value), (_, later, _) in zip(steps, steps[1:]):
        certain += (later - time) * (value.low >= threshold or value.high <= -threshold)
        possible += (later - time) * (value.high >= threshold or value.low <= -threshold)
    return Seconds(certain, possible)
