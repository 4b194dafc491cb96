#!/usr/bin/env python3
"""Measures how wide the intervals of `robust` are beside the currents at all corners of the ranges of grounds.

    python3 trials/tightness.py PROGRAM [--minutes M] [--seed S] [--jobs N] [--networks N] [CASE ..]

N random networks (100) of 3 to 12 substations, as `generators/interconnection.py` makes them, and each file CASE are run at
10, 20 and 50 per cent in the benchmark event. A random network that the program refuses is drawn again. At a corner each
ground is at the least or at the most of its range. As a function of one ground alone a current goes one way only, so no
network within the ranges has a greater or a smaller current than corners have. All corners are tried, in floating-point
numbers over the grounds alone, behind one exact solve of the network with all grounds at their least. More than 20 grounds
that vary in one part of the network are a fault; so is a current at a corner that isn't in its interval.

A row of the table is of the assessed transformers of all random networks or of a case, at one tolerance. It tells how many
they are; how many intervals to the north and to the east are compared, those where corners are 1 A apart at least, beside
which rounding to mA doesn't count; how many times as wide as what corners have these are, in the mean and at most; how many
transformers are `undecided`, and how many times as wide their intervals alone are; and for how many of these corners give one
and the same other verdict: that of the interval which `robust` makes of the two currents, where each lies between its own
corners, and that of the worst currents where both are those of one corner.
"""

from __future__ import annotations

import functools
import itertools
import math
import random
import sys
from collections import defaultdict
from collections.abc import Iterable, Iterator, Sequence
from fractions import Fraction
from typing import NamedTuple, Optional

import shared  # which finds the modules below

from generators import interconnection
from generators.case_text import case_text
from referee.case import MICRO_OHMS
from referee.checker import VERDICTS, verdict_of
from referee.grounds import NANOAMPERES_PER_MILLIAMPERE, Grounded, Varied, worst_of
from referee.outcome import Outcome, predict
from referee.report_text import ReportText, Unreadable
from referee.robust_checker import INTERVALS
from referee.values import Interval

PERCENTS = (10, 20, 50)
STATIONS = 3, 12
MOST_VARIED = 20
# Intervals are compared where corners are so far apart, in mA.
LEAST_WIDTH = 1000
# How far rounding may bring a current at a corner out of its interval, in mA.
SLACK = 0.001
UNDECIDED = "undecided"
RANDOM = "random networks"
HEADS = (
    *("over", "per cent", "units", "compared", "times as wide, in the mean", "at most", UNDECIDED, "these in the mean", "at most"),
    *("of these one verdict at corners, each current by itself", "both of one corner"),
)
Numbers = list[float]


class Span(NamedTuple):
    """The least and the greatest of some currents, in mA."""

    low: float
    high: float

    @property
    def width(self) -> float:
        return self.high - self.low

    def outward(self) -> Interval:
        return Interval(math.floor(self.low), math.ceil(self.high))


class Hull(NamedTuple):
    """What a unit has at the corners: to the north, to the east, and of the worst current."""

    north: Span
    east: Span
    worst: Span


class Corner(NamedTuple):
    """Grounds at ends of their ranges, some of them at their least and still to be decided.

    For each of the latter `drops` has what its conductance has more at its most, a number below 0, `matrix` the potentials at
    all of them that a nanoampere into it brings, and `adjoints` what a nanoampere out of it adds to the current of each
    transformer. For each field `potentials` has those at them, and `currents` that of each transformer, in mA.
    """

    drops: Numbers
    matrix: list[Numbers]
    adjoints: list[Numbers]
    potentials: list[Numbers]
    currents: list[Numbers]

    def kept(self) -> Corner:
        """The first of them stays at its least."""
        matrix, potentials = [row[1:] for row in self.matrix[1:]], [own[1:] for own in self.potentials]
        return Corner(self.drops[1:], matrix, self.adjoints[1:], potentials, self.currents)

    def turned(self) -> Corner:
        """The first of them is at its most."""
        (own, *reach), adjoint = self.matrix[0], self.adjoints[0]
        factor = self.drops[0] / (1 + self.drops[0] * own)
        return Corner(
            self.drops[1:],
            [moved(row[1:], -factor * row[0], reach) for row in self.matrix[1:]],
            [moved(other, -factor * far, adjoint) for other, far in zip(self.adjoints[1:], reach)],
            [moved(other, -factor * here, reach) for here, *other in self.potentials],
            [moved(now, factor * here, adjoint) for now, (here, *_) in zip(self.currents, self.potentials)],
        )


def moved(numbers: Numbers, factor: float, others: Numbers) -> Numbers:
    return [number + factor * other for number, other in zip(numbers, others)]


def lesser(numbers: Numbers, others: Numbers) -> Numbers:
    return [number if number < other else other for number, other in zip(numbers, others)]


def greater(numbers: Numbers, others: Numbers) -> Numbers:
    return [number if number > other else other for number, other in zip(numbers, others)]


def corners(start: Corner) -> Iterator[list[Numbers]]:
    """For each corner the currents of each transformer in each field."""
    waiting = [start]
    while waiting:
        corner = waiting.pop()
        if corner.drops:
            waiting += [corner.kept(), corner.turned()]
        else:
            yield corner.currents


def hulls(start: Corner) -> list[Hull]:
    """What each transformer has at all corners."""
    lows: list[Numbers] = []
    highs: list[Numbers] = []
    for north, east in corners(start):
        found = [north, east, list(map(math.hypot, north, east))]
        lows = list(map(lesser, lows or found, found))
        highs = list(map(greater, highs or found, found))
    spans = [list(map(Span, *pair)) for pair in zip(lows, highs)]
    return list(map(Hull, *spans))


class TooMany(Exception):
    """More grounds vary than all of whose corners can be tried."""


class Corners:
    """The corners of the grounds of a network."""

    def __init__(self, varied: Varied) -> None:
        self.varied, self.case = varied, varied.case
        self.least = Grounded(varied.case, varied.stand, varied.least())
        self.fields = self.least.potentials([self.least.injected(dict(enumerate(volts))) for volts in varied.volts])

    def hulls(self) -> dict[int, Hull]:
        """What each assessed transformer with an effect has."""
        units: dict[int, list[int]] = defaultdict(list)
        for place, unit in enumerate(self.case.transformers):
            if not unit.is_outside and self.varied.has_effect(place):
                units[self.part_of(place)].append(place)
        varying = self.varied.varying()
        found: dict[int, Hull] = {}
        for part, places in units.items():
            found.update(zip(places, hulls(self.start(varying[part], places))))
        return found

    def part_of(self, unit: int) -> int:
        """The part of the network in which the windings of a transformer are."""
        return self.least.part_of[self.case.elements[min(self.varied.weights(unit))].start]

    def start(self, grounds: Sequence[int], units: Sequence[int]) -> Corner:
        """The corner with all grounds at their least."""
        if len(grounds) > MOST_VARIED:
            raise TooMany(f"{len(grounds)} grounds vary together")
        nodes = [self.case.elements[number].start for number in grounds]
        ranges = [self.varied.ranges[number] for number in grounds]
        responses = self.least.potentials([self.unit_current(node) for node in nodes])
        adjoints = self.least.potentials([self.least.injected(self.varied.weights(unit)) for unit in units])
        scales = [3 * self.case.transformers[unit].high_volts * NANOAMPERES_PER_MILLIAMPERE for unit in units]
        return Corner(
            [float(Fraction(MICRO_OHMS, own.most) - Fraction(MICRO_OHMS, own.least)) for own in ranges],
            [[float(response[node]) for node in nodes] for response in responses],
            [[float(adjoint[node] / scale) for adjoint, scale in zip(adjoints, scales)] for node in nodes],
            [[float(potentials[node]) for node in nodes] for potentials in self.fields],
            [[float(self.varied.own_current(unit, potentials)) for unit in units] for potentials in self.fields],
        )

    def unit_current(self, node: int) -> list[Fraction]:
        return [Fraction(other == node) for other in range(len(self.case.nodes))]


class Compared(NamedTuple):
    """An assessed transformer in a report beside its corners: how many times as wide each interval that is compared is; its
    verdict, that of its currents' corners, and that of its worst currents at corners."""

    ratios: list[float]
    told: str
    by_current: str
    by_corner: str


class Line(NamedTuple):
    """The intervals of a transformer in a report, and its verdict."""

    north: Interval
    east: Interval
    worst: Interval
    verdict: str


def is_beyond(hull: Span, shown: Interval) -> bool:
    return hull.low < shown.low - SLACK or hull.high > shown.high + SLACK


def ratios(hull: Hull, line: Line) -> list[float]:
    """How many times as wide as what corners have the intervals are."""
    pairs = [(line.north, hull.north), (line.east, hull.east)]
    return [(shown.high - shown.low) / span.width for shown, span in pairs if span.width >= LEAST_WIDTH]


def lines_of(outcome: Outcome, output: bytes) -> list[Line]:
    """The lines of the transformers in a report."""
    text, lines = ReportText(output), []
    text.next_line()
    text.next_line()
    for unit in outcome.case.transformers:
        ends, (verdict,) = text.line("transformer", unit.name, *INTERVALS, VERDICTS)
        lines.append(Line(Interval(*ends[:2]), Interval(*ends[2:4]), Interval(*ends[4:]), verdict))
    return lines


class Measured(NamedTuple):
    """What came of a network: the row that it counts for, its assessed transformers by tolerance, or that it is refused, and
    faults."""

    name: str
    units: dict[int, list[Compared]]
    is_refused: bool
    faults: list[str]


def compare(outcome: Outcome, output: bytes, measured: Measured) -> None:
    """Adds the transformers of a report."""
    percent, threshold = outcome.asked.tolerance, outcome.asked.threshold
    assert percent is not None
    lines, found = lines_of(outcome, output), measured.units.setdefault(percent, [])
    for place, hull in Corners(Varied(outcome.case, outcome.stand, outcome.asked.field, percent)).hulls().items():
        unit, line = outcome.case.transformers[place], lines[place]
        if any(map(is_beyond, hull, line[:3])):
            measured.faults.append(f"{percent} per cent: {unit.name}: {hull} at corners, and {line}")
        together = worst_of(hull.north.outward(), hull.east.outward())
        others = (verdict_of(unit, interval, threshold) for interval in (together, hull.worst.outward()))
        found.append(Compared(ratios(hull, line), line.verdict, *others))


def measure(command: Sequence[str], name: str, content: bytes) -> Measured:
    """Runs a network at each tolerance, at the greatest first: one that isn't refused there isn't at others."""
    measured = Measured(name, {}, False, [])
    with shared.scratch() as folder:
        shared.write(folder, "p", content)
        for percent in reversed(PERCENTS):
            words = shared.words_of("robust", False, tolerance=percent)
            outcome, answer = predict(shared.in_bytes(words), folder), shared.run([*command, *words], folder)
            if answer.status != outcome.status:
                measured.faults.append(f"{' '.join(words)}: {shared.ending(answer.status)} in place of {outcome.status}")
                return measured
            if outcome.status != 0:
                return measured._replace(is_refused=True)
            try:
                compare(outcome, answer.output, measured)
            except (TooMany, Unreadable) as trouble:
                measured.faults.append(f"{' '.join(words)}: {trouble}")
    return measured


def draw_network(draw: random.Random) -> bytes:
    share = Fraction(draw.randint(*STATIONS), interconnection.STATIONS)
    return case_text(3, interconnection.network(share, draw.getrandbits(32))).encode()


class Item(NamedTuple):
    """A case, or the seed of a random network where there is none."""

    name: str
    seed: int
    content: Optional[bytes]


def work(command: Sequence[str], item: Item) -> list[Measured]:
    """What came of a case, or of random networks up to the first that isn't refused."""
    if item.content is not None:
        measured = measure(command, item.name, item.content)
        if measured.is_refused:
            measured.faults.append("is refused")
        return [measured]
    draw = random.Random(item.seed)
    found: list[Measured] = []
    while not found or found[-1].is_refused:
        found.append(measure(command, item.name, draw_network(draw)))
    return [one._replace(faults=[f"seed {item.seed}: {fault}" for fault in one.faults]) for one in found]


def times(ratios: Iterable[float]) -> list[str]:
    """Their mean, and the greatest."""
    every = list(ratios)
    return [f"{sum(every) / len(every):.2f}", f"{max(every):.2f}"] if every else ["-", "-"]


def cells(units: Sequence[Compared]) -> list[str]:
    """The numbers of a row of the table."""
    undecided = [unit for unit in units if unit.told == UNDECIDED]
    every = [ratio for unit in units for ratio in unit.ratios]
    by_current = sum(unit.by_current != UNDECIDED for unit in undecided)
    by_corner = sum(unit.by_corner != UNDECIDED for unit in undecided)
    open_ones = times(ratio for unit in undecided for ratio in unit.ratios)
    return [str(cell) for cell in (len(units), len(every), *times(every), len(undecided), *open_ones, by_current, by_corner)]


def items_of(files: Sequence[str], seed: int, networks: int) -> list[Item]:
    """The cases first, since a large one takes longest."""
    try:
        items = [Item(path, 0, shared.read(path)) for path in files]
    except OSError as error:
        sys.exit(f"tightness.py: {error.filename}: {error.strerror}")
    return items + [Item(RANDOM, seed * networks + place, None) for place in range(networks)]


def main() -> None:
    given = shared.arguments(__doc__, 30, [("networks", 100)], files="CASE")
    faults, clock = shared.Faults(), shared.Clock(given.minutes)
    items = items_of(given.files, given.seed, given.networks)
    units: dict[tuple[str, int], list[Compared]] = defaultdict(list)
    networks = refused = 0
    worked = shared.side_by_side(given.jobs, functools.partial(work, shared.command_of(given.program)), items, clock)
    for measured in itertools.chain.from_iterable(worked):
        networks, refused = networks + (not measured.is_refused), refused + measured.is_refused
        for percent, found in measured.units.items():
            units[measured.name, percent] += found
        for fault in measured.faults:
            faults.add(measured.name, fault)
    print("| " + " | ".join(HEADS) + " |\n|" + "---|" * len(HEADS))
    for (name, percent), found in sorted(units.items()):
        print("| " + " | ".join([name, str(percent), *cells(found)]) + " |")
    shared.finish(faults, f"{networks} networks", f"{refused} refused")


if __name__ == "__main__":
    main()
