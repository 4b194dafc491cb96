#!/usr/bin/env python3
"""Refuses each growth of memory in turn, in a run of every mode: the Nth alone, and all from the Nth on.

    python3 trials/memory.py PROGRAM [--minutes M] [--seed S] [--jobs N] [--sites N]

The runs are over the sample network with its outage, and over a made network of SITES sites (1000), which has two nodes
a site. A refused growth has to end the run with status 11, nothing on the output, and `gicstudy: out of memory` or no
line. With a number that no growth has, the run has to end as it does with none refused. There is no other end: no
other status, no signal, and no part of a report. Where no growth comes behind the one that is refused alone, a run in
which all behind it are refused would be the same run, and isn't made.

A run that reaches a growth splits there, and the growth is refused in what splits off (`refuse.c`). The first of every
STRETCH growths is refused besides in runs of their own.

A growth may be asked for by a hint alone, of how much is to come. Where that is refused, Rattle's std asks for less:
`grow_by_hint`, in `std_alloc/src/vec/copies.rt`, under `collect` and `extend`. So the run may go on and end as it does
with none refused. Such a refusal is told as `absorbed`; but then the run has to end with status 11 where the very next
growth is refused too.

Every number is tried where the minutes are enough for it; else as many as there is time for, drawn from all of them,
and the line of the mode says how many. It tells besides how many growths come behind the first write to the output,
and how many between the longest stretch without one and that write. The first must be 0. Where the stretch is that of
solving, the second has to be 0 too, but in `study`, whose monitors take memory for their texts: this is for the reader
to see.
"""

from __future__ import annotations

import argparse
import functools
import os
import random
from collections import Counter
from collections.abc import Sequence
from typing import NamedTuple, Optional

import preload
import shared
from preload import Counts, Ending, Refusal
from referee.words import MODES

LINE = b"gicstudy: out of memory\n"
# All growths from a number on are refused.
ALL = 2**63
STRETCH = 200
Tried = tuple[Refusal, str]  # a refusal, and what came of it


class Growths(NamedTuple):
    """How many growths there are, how many were refused, and how the runs ended."""

    there: int
    refused: int
    ends: Counter[str]


def end_of(whole: shared.Answer, answer: shared.Answer, counts: Counts) -> str:
    """What kind of end it was, or a fault."""
    if answer.status == 11:
        if answer.output or answer.told not in (LINE, b""):
            return f"fault: status 11 with {answer.output[:40]!r} and {answer.told[:80]!r}"
        return "out of memory" if answer.told else "out of memory, no line"
    if answer == whole:
        return "absorbed" if counts.refused else "not reached"
    return f"fault: {shared.ending(answer.status)}, {len(answer.output)} bytes, told {answer.told[:80]!r}"


def refuse(library: str, folder: str, command: Sequence[str], whole: shared.Answer, refusal: Refusal) -> Tried:
    """The refusal, and what came of it in a run of its own."""
    answer, counts = preload.run(library, command, folder, refusal)
    return refusal, end_of(whole, answer, counts)


def kind_of(ending: Ending) -> Optional[str]:
    """What kind of end it was where memory ran out, or None where it was another."""
    if ending.status == 11 and ending.output == 0 and ending.line[: ending.told] in (LINE, b""):
        return "out of memory" if ending.told else "out of memory, no line"
    return None


def attempt(
    library: str, folder: str, command: Sequence[str], whole: shared.Answer, first: int
) -> tuple[set[int], list[Tried]]:
    """What came of each growth of a stretch where it was refused: alone; with the next, where that was absorbed; and
    with all behind it, where there are any. Any end but those where memory ran out is looked at in a run of its own."""
    runs = [refuse(library, folder, command, whole, Refusal("growth", first, length)) for length in (1, ALL)]
    endings = preload.endings(library, command, folder, first, STRETCH)
    for ending in endings:
        refusal, kind = Refusal("growth", ending.first, ending.length), kind_of(ending)
        runs.append((refusal, kind) if kind else refuse(library, folder, command, whole, refusal))
    return {ending.first for ending in endings}, runs


def starts(growths: int, draw: random.Random) -> list[int]:
    """The first numbers of all stretches in random order, behind a number that no growth has."""
    return [growths + 1, *draw.sample(range(1, growths + 1, STRETCH), -(-growths // STRETCH))]


def is_fault(refusal: Refusal, kind: str, growths: int) -> bool:
    is_reached = refusal.first <= growths
    is_wrong = kind == "absorbed" and refusal.length > 1
    return kind.startswith("fault") or is_wrong or (kind == "not reached") == is_reached


def trial(
    library: str,
    given: argparse.Namespace,
    draw: random.Random,
    folder: str,
    mode: str,
    minutes: float,
    faults: shared.Faults,
) -> Growths:
    """Tries one mode in one folder."""
    command = [*shared.command_of(given.program), *shared.words_of(mode)]
    whole, counts = preload.run(library, command, folder)
    name = f"{mode} in {os.path.basename(folder)}"
    if whole.status != 0:
        faults.add(name, "ends with", shared.ending(whole.status), whole.told)
        return Growths(0, 0, Counter())
    behind = counts.growth - counts.growths_at_write
    at_end = counts.growths_at_write - counts.growths_at_pause
    if behind:
        faults.add(name, f"{behind} growths behind the first write")
    tried, clock = 0, shared.Clock(minutes)
    kinds: Counter[str] = Counter()
    work = functools.partial(attempt, library, folder, command, whole)
    for numbers, runs in shared.side_by_side(given.jobs, work, starts(counts.growth, draw), clock):
        tried += len(numbers)
        for refusal, kind in runs:
            kinds[kind.split(":")[0]] += 1
            if is_fault(refusal, kind, counts.growth):
                faults.add(name, refusal, kind)
    if tried < counts.growth and not clock.is_over():
        faults.add(name, f"{counts.growth - tried} growths were not refused")
    told = ", ".join(f"{count} {kind}" for kind, count in sorted(kinds.items()))
    pause = counts.longest_pause / preload.MILLISECOND
    print(f"{name}: {tried} of {counts.growth} growths refused, {kinds.total()} runs: {told};", end=" ")
    print(f"{behind} behind the first write, {at_end} behind the longest stretch of {pause:.1f} ms", flush=True)
    return Growths(counts.growth, tried, kinds)


def main() -> None:
    given = shared.arguments(__doc__, 30, [("sites", 1000)])
    draw, faults = random.Random(given.seed), shared.Faults()
    growths = tried = 0
    kinds: Counter[str] = Counter()
    with shared.scratch() as top:
        library = preload.build(top)
        folders = shared.two_folders(shared.command_of(given.program), top, given.sites)
        runs = [(folder, mode) for folder in folders for mode in MODES]
        clock = shared.Clock(given.minutes)
        for place, (folder, mode) in enumerate(runs):
            minutes = clock.left() / 60 / (len(runs) - place)
            done = trial(library, given, draw, folder, mode, minutes, faults)
            growths, tried, kinds = growths + done.there, tried + done.refused, kinds + done.ends
    shared.finish(
        faults,
        f"{len(MODES)} modes over 2 networks",
        f"{tried} of {growths} growths refused",
        f"{kinds.total()} runs",
        f"{kinds['absorbed']} absorbed",
    )


if __name__ == "__main__":
    main()
