"""A waveform of the field at a reference place: scaled to the strength of an event, and turned as a whole.

A field is a complex number, with its part to the north and its part to the east. Since a waveform is scaled, its own unit
doesn't matter.
"""

import array
import dataclasses
from collections.abc import Iterator, Sequence

from .findings import Finding, Refused
from .records import Record, read_table

HEADS = ["time", "north", "east"]
MOST_STEPS = 20000  # of a storm
LATEST = 4294967295  # seconds
MOST = 1_000_000  # of a number, whatever its unit
LEAST = 0.001  # of the strongest field


@dataclasses.dataclass(frozen=True)
class FieldSteps:
    """A storm for all zones: the time of each step in seconds, and both parts of its field in whole mV/km."""

    times: Sequence[int]
    norths: Sequence[int]
    easts: Sequence[int]

    @property
    def rows(self) -> Iterator[tuple[int, int, int]]:
        return zip(self.times, self.norths, self.easts)

    @property
    def text(self) -> str:
        """The steps as a file that the program takes."""
        return "".join(",".join(map(str, cells)) + "\n" for cells in (HEADS, *self.rows))


@dataclasses.dataclass(frozen=True)
class Waveform:
    """Its steps; at one at least there is a field."""

    times: Sequence[int]
    fields: list[complex]

    @property
    def strongest(self) -> int:
        """The place of the first step with the greatest strength, from 0."""
        return max(range(len(self.fields)), key=lambda place: abs(self.fields[place]))

    def scaled(self, strength: int, toward: complex | None = None) -> FieldSteps:
        """The waveform with its strongest step scaled to a strength in mV/km, and where a direction is given turned as a whole
        until this step points there; both parts of each field are rounded to whole mV/km."""
        strongest = self.fields[self.strongest]
        direction = strongest if toward is None else toward
        factor = strength * (direction / abs(direction)) / strongest
        fields = [factor * field for field in self.fields]
        norths, easts = (array.array("l", map(round, parts)) for parts in zip(*((field.real, field.imag) for field in fields)))
        return FieldSteps(self.times, norths, easts)


def part_of(at: Record, column: str) -> float:
    number = at.number_or_none(column)
    if number is not None and abs(number) > MOST:
        at.wrong(column, f"it is {at.text(column)}, and not -{MOST} to {MOST}; is it a field?")
    return 0.0 if number is None or abs(number) > MOST else float(number)


def read_waveform(file: str, data: bytes) -> Waveform:
    """The waveform of a table time,north,east; all that is wrong with it is told at once."""
    findings: list[Finding] = []
    times: list[int] = []
    fields: list[complex] = []
    for at in read_table(file, HEADS, findings, given=data):
        time = at.whole("time")
        if not 0 <= time <= LATEST:
            at.wrong("time", f"it is {time}, and not 0 to {LATEST} seconds")
        elif times and time <= times[-1]:
            at.wrong("time", f"it is {time}, and not above {times[-1]} of the step before; times rise, in whole seconds")
        times.append(time)
        fields.append(complex(part_of(at, "north"), part_of(at, "east")))
    if not findings and max((abs(field) for field in fields), default=0.0) < LEAST:
        findings.append(Finding(file, f"no step has a field of {LEAST:g} or more; write north and east of each step", 1))
    if len(times) > MOST_STEPS:
        findings.append(Finding(file, f"it has {len(times)} steps, and a storm at most {MOST_STEPS}; take a part of it"))
    if findings:
        raise Refused(findings)
    return Waveform(times, fields)
