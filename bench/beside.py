"""What benchmarks share that set the program beside another command: times by the clock, and intervals beside doubles."""

from __future__ import annotations

import subprocess
import sys
import time
from collections.abc import Sequence
from typing import NamedTuple, Optional

import paths  # noqa: F401 - it finds the modules below

from referee.checker import VERDICTS


class Run(NamedTuple):
    """The least time of some runs of a command, in seconds by the clock, and its output."""

    seconds: float
    lines: list[str]


def least(commands: Sequence[Sequence[str]], folder: str, turns: int) -> list[Run]:
    """Runs the commands by turns; a line and status 1 where one of them fails."""
    best: list[Optional[Run]] = [None] * len(commands)
    for _ in range(turns):
        for place, command in enumerate(commands):
            begin = time.perf_counter()
            try:
                ran = subprocess.run(command, cwd=folder, capture_output=True, text=True, check=False)
            except OSError as error:
                sys.exit(f"{command[0]}: {error.strerror}")
            taken = time.perf_counter() - begin
            if ran.returncode != 0:
                sys.exit(ran.stderr.strip() or f"{' '.join(command)}: status {ran.returncode}")
            before = best[place]
            if before is None or taken < before.seconds:
                best[place] = Run(taken, ran.stdout.splitlines())
    return [run for run in best if run is not None]


def items(lines: list[str]) -> dict[str, list[str]]:
    """The items of a report behind its last line `peaks` or `screen`: the words of each behind its head. An item without
    an interval has none; what else stands in the report isn't taken."""
    found: dict[str, list[str]] = {}
    for line in lines:
        words = line.split(" ")
        if words[0] in ("peaks", "screen"):
            found = {}
        heads = {"winding": 3, "node": 2, "ground": 2, "line": 2, "neutral": 2, "transformer": 2}.get(words[0])
        if heads is not None and words[-1] not in ("dead", "open", "blocked"):
            found[" ".join(words[:heads])] = words[heads:]
    return found


class Difference(NamedTuple):
    """How far doubles are from the middles of the intervals, how far outside of these, and how many verdicts differ."""

    items: int
    from_middle: float
    outside: float
    verdicts: int


def numbers_of(words: list[str]) -> list[float]:
    return [float(word) for word in words if word[:1].isdigit() or word[:1] == "-"]


def difference(program: list[str], doubles: list[str]) -> Difference:
    """Sets the intervals of a report of the program beside the doubles of another."""
    intervals, others = items(program), items(doubles)
    if not intervals or intervals.keys() - others.keys():
        sys.exit("the two reports have other items")
    middle = outside = 0.0
    verdicts = count = 0
    for head, words in intervals.items():
        ends, values = numbers_of(words), numbers_of(others[head])
        for low, high, value in zip(ends[::2], ends[1::2], values):
            middle = max(middle, abs(value - (low + high) / 2))
            outside = max(outside, low - value, value - high)
            count += 1
        if words[-1] in VERDICTS:
            verdicts += words[-1] != others[head][-1] and words[-1] != "undecided"
    return Difference(count, middle, outside, verdicts)


def told(names: list[str], runs: list[Run], found: Difference) -> str:
    """The two times, their ratio, and the differences."""
    first, second = (run.seconds for run in runs)
    return (
        f"{names[0]} {first:.3f} s, {names[1]} {second:.3f} s, ratio {first / second:.2f}; {found.items} intervals, "
        f"greatest difference from a middle {found.from_middle:.3g}, outside of an interval {found.outside:.3g}, "
        f"{found.verdicts} verdicts differ"
    )
