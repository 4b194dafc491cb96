#!/usr/bin/env python3
"""Sets each step of a study beside `field` in that step's field.

    python3 bench/steps.py PROGRAM [COUNT] [SEED]

PROGRAM is the built program. COUNT random networks (20) are made as in `generators/random_cases.py`, the same ones for the same
SEED (1), each with a storm of up to six steps that has one field for all zones, and without switchings. For each step
K the lines of `study --detail=K` are compared with those of `field`, one by one: a line must name what the other one
names, the two intervals must overlap, since both hold the exact value, and neither may be wider than asked. They need
not be the same, since a study doesn't solve each step afresh. A network that one of the two refuses must be refused
by the other in the same words.

The last line tells how many pairs of intervals were compared, how many of them differ, and how many comparisons
failed. The exit status is 1 where any failed.
"""

from __future__ import annotations

import random
import sys
import tempfile
from collections.abc import Iterator
from pathlib import Path
from typing import NamedTuple, Optional

from running import REFUSALS, numbers_of, program_of, run  # which finds the modules below

from generators import random_cases
from generators.storms import HEAD
from referee.values import Interval

NODES = 120
STEPS = 6


class Step(NamedTuple):
    """A step of a storm: its time in seconds, and its field to the north and to the east."""

    time: int
    north: int
    east: int


def storm(draw: random.Random) -> Iterator[Step]:
    """The steps of a storm."""
    time = 0
    for _ in range(draw.randint(1, STEPS)):
        strength = draw.choice([20, 1000, 8000, 20000])
        yield Step(time, draw.randint(-strength, strength), draw.randint(-strength, strength))
        time += draw.randint(1, 60)


def block(lines: list[str], number: int, step: Step) -> Optional[list[str]]:
    """The items of the detail block, or none where its head is another one."""
    if lines[:1] != ["study"] or lines[-1] != "end" or "peaks" not in lines:
        return None
    if lines[2] != f"step {number} time {step.time}":
        return None
    inside = lines[3 : lines.index("peaks")]
    zones = [line.split() for line in inside if line.startswith("zone ")]
    is_field = all(zone[2:] == ["north", str(step.north), "east", str(step.east)] for zone in zones)
    return inside[len(zones) :] if is_field and zones else None


def items(lines: list[str], step: Step) -> Optional[list[str]]:
    """The signed items of a report of `field`, or none where its head is another one."""
    if lines[:1] != ["field"] or lines[-1] != "end" or not lines[1].startswith(f"north {step.north} east {step.east} "):
        return None
    return [line for line in lines[2:-1] if not line.startswith("transformer ")]


def interval(line: str) -> tuple[list[str], Optional[Interval]]:
    """The words of a line, and its interval: the last two words, for a name can be a number too. Some lines have none."""
    words = line.split()
    if words[-1] in ("dead", "open", "blocked"):
        return words, None
    return words[:-2], Interval(int(words[-2]), int(words[-1]))


class Tally:
    """What was compared so far."""

    def __init__(self) -> None:
        self.networks = self.pairs = self.differ = self.failed = 0

    def fail(self, *words: object) -> None:
        self.failed += 1
        print("fails:", *words)

    def pair(self, where: str, width: int, detail: str, field: str) -> None:
        """Compares a line of a detail block with the line of `field` in its place."""
        (names, shown), (other_names, other) = interval(detail), interval(field)
        if names != other_names or (shown is None) != (other is None):
            self.fail(where, "names:", detail, "|", field)
        elif shown is not None and other is not None:
            self.pairs += 1
            self.differ += shown != other
            is_narrow = all(0 <= high - low <= width for low, high in (shown, other))
            if not is_narrow or shown.low > other.high or other.low > shown.high:
                self.fail(where, "ends:", detail, "|", field)

    def step(self, program: str, folder: Path, width: int, number: int, step: Step) -> bool:
        """Compares a step of a study with `field` in the field of the step. It tells whether both solved it."""
        where = f"{folder.name} step {number}"
        study = run(program, folder, ["study", "--case=p", "--storm=t", f"--width={width}", f"--detail={number}"])
        field = run(
            program, folder, ["field", "--case=p", f"--width={width}", f"--north={step.north}", f"--east={step.east}"]
        )
        if study.status != field.status or study.told != field.told or study.status not in (0, *REFUSALS):
            self.fail(where, f"statuses {study.status} and {field.status}:", study.told, "|", field.told)
            return False
        if study.status != 0:
            return False
        shown, other = block(study.lines, number, step), items(field.lines, step)
        if shown is None or other is None or len(shown) != len(other):
            self.fail(where, "another head, or another number of lines")
            return False
        for detail, line in zip(shown, other):
            self.pair(where, width, detail, line)
        return True


def network(tally: Tally, program: str, scratch: str, seed: int, place: int) -> None:
    """Makes a network and a storm, and compares all steps."""
    draw = random.Random(seed * random_cases.SEEDS_APART + place)
    made = random_cases.network(draw, draw.randint(2, NODES))
    steps, width = list(storm(draw)), draw.choice([10, 11, 100, 100, 1000])
    folder = Path(scratch, f"network_{place:04}")
    folder.mkdir()
    (folder / "p").write_text(made.text)
    (folder / "t").write_text(HEAD + "".join(f"{time},{north},{east}\n" for time, north, east in steps))
    solved = [tally.step(program, folder, width, number, step) for number, step in enumerate(steps, 1)]
    tally.networks += all(solved)


def main() -> None:
    program = program_of(sys.argv[1])
    count, seed = numbers_of(sys.argv[2:], 20, 1)
    tally = Tally()
    with tempfile.TemporaryDirectory() as scratch:
        for place in range(count):
            network(tally, program, scratch, seed, place)
    print(f"{tally.networks} of {count} networks solved")
    print(f"{tally.pairs} pairs compared, {tally.differ} differ, {tally.failed} fail")
    sys.exit(tally.failed > 0)


if __name__ == "__main__":
    main()
