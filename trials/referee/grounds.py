"""Networks of which each ground lies within a tolerance of its own: the ranges of grounds, the reference enclosure of each
current, and exact currents of some of these networks (docs/FORMATS.md, the report of `robust`)."""

from __future__ import annotations

import random
from collections.abc import Iterator, Mapping, Sequence
from fractions import Fraction
from math import isqrt
from typing import NamedTuple

from referee.case import MICRO_OHMS, OHM, Case, Element, Stand
from referee.graph import split_into_parts
from referee.linear import Conductance, solve_by_fractions, solve_by_lifting
from referee.solution import SMALL_PART, Solution
from referee.values import Interval, value
from referee.words import Range

NANOAMPERES_PER_MILLIAMPERE = 10**6
# In a part with up to so many grounds that can vary all their corners are tried, else so many of them.
MOST_VARIED, MORE_CORNERS = 6, 24
# Networks of more nodes have so many networks in place of all corners.
MOST_NODES, FEW_NETWORKS = 24, 16
# The resistance of each earthing in micro-ohm.
Ohms = Mapping[int, int]
# For each field, to the north and to the east, a number for each node.
Potentials = list[list[Fraction]]


class Ends(NamedTuple):
    """Two exact ends."""

    low: Fraction
    high: Fraction

    def with_value(self, number: Fraction) -> Ends:
        return Ends(min(self.low, number), max(self.high, number))


NO_CURRENT = Ends(Fraction(0), Fraction(0))


def root_up(number: int) -> int:
    root = isqrt(number)
    return root if root * root == number else root + 1


def nearest(ends: Interval) -> int:
    """The least absolute value between the ends."""
    return max(ends.low, -ends.high, 0)


def farthest(ends: Interval) -> int:
    """The greatest absolute value between the ends."""
    return max(-ends.low, ends.high)


def worst_of(north: Interval, east: Interval) -> Interval:
    """The interval of the worst current of two with whole ends."""
    low = isqrt(nearest(north) ** 2 + nearest(east) ** 2)
    return Interval(low, root_up(farthest(north) ** 2 + farthest(east) ** 2))


def ground_range(ohms: int, percent: int) -> Range:
    """The resistances in micro-ohm that a ground may have within a tolerance, rounded outward."""
    least, most = ohms * (100 - percent) // 100, -(-ohms * (100 + percent) // 100)
    return Range(max(OHM.least, least), min(OHM.most, most))


def ground_ranges(case: Case, percent: int) -> dict[int, Range]:
    """The range of each earthing by its element; a substation's own tolerance goes before the one that is asked."""
    ranges = {}
    for number in case.of_kind("ground"):
        own = case.substations[case.elements[number].place].tolerance
        ranges[number] = ground_range(case.elements[number].resistance, percent if own is None else own)
    return ranges


def with_grounds(case: Case, ohms: Ohms) -> list[Element]:
    """The elements with other resistances at the earthings."""
    return [
        element._replace(resistance=ohms[number]) if number in ohms else element
        for number, element in enumerate(case.elements)
    ]


def siemens_of(element: Element) -> Fraction:
    return Fraction(element.paths * MICRO_OHMS, element.resistance)


class Grounded:
    """The standing network with certain resistances at its earthings, solved exactly for currents into its nodes."""

    def __init__(self, case: Case, stand: Stand, ohms: Ohms) -> None:
        self.size = len(case.nodes)
        self.elements, self.stand = with_grounds(case, ohms), stand
        self.parts = split_into_parts(self.size, self.elements, stand)
        self.part_of = {node: part for part, nodes in enumerate(self.parts) for node in nodes}
        self.place_of = {node: place for nodes in self.parts for place, node in enumerate(nodes)}

    def injected(self, volts: Mapping[int, int]) -> list[Fraction]:
        """The currents into each node by voltages of elements."""
        side = [Fraction(0)] * self.size
        for number, volt in volts.items():
            element = self.elements[number]
            if self.stand[number] and element.end is not None:
                side[element.start] -= siemens_of(element) * volt
                side[element.end] += siemens_of(element) * volt
        return side

    def potentials(self, sides: Sequence[list[Fraction]]) -> Potentials:
        """The potentials of each node for each of some currents."""
        found = [[Fraction(0)] * self.size for _ in sides]
        conductances: list[list[Conductance]] = [[] for _ in self.parts]
        for element, stands in zip(self.elements, self.stand):
            if stands:
                end = None if element.end is None else self.place_of[element.end]
                own = Conductance(self.place_of[element.start], end, siemens_of(element))
                conductances[self.part_of[element.start]].append(own)
        for nodes, in_part in zip(self.parts, conductances):
            moved = [place for place, side in enumerate(sides) if any(side[node] for node in nodes)]
            if moved:
                solve = solve_by_fractions if len(nodes) <= SMALL_PART else solve_by_lifting
                solved = solve(len(nodes), in_part, [[sides[place][node] for node in nodes] for place in moved])
                for place, numerators in zip(moved, solved.numerators):
                    for node, numerator in zip(nodes, numerators):
                        found[place][node] = Fraction(numerator, solved.denominator)
        return found


class Varied:
    """The networks of a case in an event's field, of which each ground lies within its range."""

    def __init__(self, case: Case, stand: Stand, strength: int, percent: int) -> None:
        self.case, self.stand = case, stand
        self.ranges = ground_ranges(case, percent)
        self.earthings = [number for number in self.ranges if stand[number]]
        self.volts = [case.element_volts(None, strength, 0), case.element_volts(None, 0, strength)]

    def least(self) -> dict[int, int]:
        return {number: own.least for number, own in self.ranges.items()}

    def most(self) -> dict[int, int]:
        return {number: own.most for number, own in self.ranges.items()}

    def weights(self, transformer: int) -> dict[int, int]:
        """The weight of each standing winding that has one."""
        return {number: weight for number, weight in self.case.windings[transformer] if self.stand[number] and weight}

    def has_effect(self, transformer: int) -> bool:
        """Whether a standing winding has a weight; else there is no current."""
        return bool(self.weights(transformer))

    # The reference enclosure.

    def own_current(self, transformer: int, potentials: list[Fraction]) -> Fraction:
        """The effective current at these potentials in nanovolts, in milliamperes."""
        total = Fraction(0)
        for number, weight in self.weights(transformer).items():
            element = self.case.elements[number]
            drop = potentials[element.start] - (0 if element.end is None else potentials[element.end])
            total += weight * element.paths * drop / element.resistance
        return total / (3 * self.case.transformers[transformer].high_volts)

    def enclosures(self) -> list[list[Ends]]:
        """For each transformer the reference enclosures to the north and to the east."""
        least, most = Grounded(self.case, self.stand, self.least()), Grounded(self.case, self.stand, self.most())
        units = range(len(self.case.transformers))
        fields = least.potentials([least.injected(dict(enumerate(volts))) for volts in self.volts])
        adjoints = least.potentials([least.injected(self.weights(unit)) for unit in units])
        spans = [self.spans(potentials, most) for potentials in fields]
        return [
            [self.enclosure(unit, adjoints[unit], potentials, own) for potentials, own in zip(fields, spans)]
            if self.has_effect(unit)
            else [NO_CURRENT, NO_CURRENT]
            for unit in units
        ]

    def spans(self, potentials: list[Fraction], most: Grounded) -> dict[int, Ends]:
        """For each standing earthing the numbers d·p between which what it adds lies, for an adjoint potential of 1."""
        drops, sides = {}, [[Fraction(0)] * len(potentials) for _ in range(2)]
        for number in self.earthings:
            node, own = self.case.elements[number].start, self.ranges[number]
            drops[number] = Fraction(MICRO_OHMS, own.most) - Fraction(MICRO_OHMS, own.least)
            for side, way in zip(sides, (1, -1)):
                side[node] -= drops[number] * max(way * potentials[node], Fraction(0))
        raised, lowered = most.potentials(sides)
        spans = {}
        for number, drop in drops.items():
            node = self.case.elements[number].start
            ends = drop * (potentials[node] - lowered[node]), drop * (potentials[node] + raised[node])
            spans[number] = Ends(min(*ends, Fraction(0)), max(*ends, Fraction(0)))
        return spans

    def enclosure(
        self, transformer: int, adjoint: list[Fraction], potentials: list[Fraction], spans: Mapping[int, Ends]
    ) -> Ends:
        low = high = Fraction(0)
        for number, span in spans.items():
            own = adjoint[self.case.elements[number].start]
            low += min(own * span.low, own * span.high)
            high += max(own * span.low, own * span.high)
        unit = 3 * self.case.transformers[transformer].high_volts * NANOAMPERES_PER_MILLIAMPERE
        middle = self.own_current(transformer, potentials)
        return Ends(middle + low / unit, middle + high / unit)

    # Some of the networks.

    def varying(self) -> list[list[int]]:
        """For each part of the network its standing earthings that can vary."""
        grounded = Grounded(self.case, self.stand, {})
        found: list[list[int]] = [[] for _ in grounded.parts]
        for number in self.earthings:
            if self.ranges[number].least < self.ranges[number].most:
                found[grounded.part_of[self.case.elements[number].start]].append(number)
        return found

    def networks(self) -> Iterator[Ohms]:
        """All corners, where these are few, and some that lie between; of each part at once."""
        least, most, draw = self.least(), self.most(), random.Random(1)
        varying = self.varying()
        yield {number: self.case.elements[number].resistance for number in self.ranges}
        most_varied = max(map(len, varying), default=0)
        is_small = len(self.case.nodes) <= MOST_NODES
        count = 1 << most_varied if is_small and most_varied <= MOST_VARIED else MORE_CORNERS if is_small else FEW_NETWORKS
        for corner in range(count):
            ohms = dict(least)
            for numbers in varying:
                bits = corner if len(numbers) <= MOST_VARIED and is_small else self.drawn_corner(draw, corner, len(numbers))
                ohms.update((number, most[number]) for place, number in enumerate(numbers) if bits >> place & 1)
            yield ohms
        yield {number: draw.randint(*own) for number, own in self.ranges.items()}

    @staticmethod
    def drawn_corner(draw: random.Random, corner: int, count: int) -> int:
        """All least and all most first, and then by chance."""
        return 0 if corner == 0 else (1 << count) - 1 if corner == 1 else draw.getrandbits(count) if count else 0

    def hulls(self) -> list[list[Ends]]:
        """For each transformer the least and the greatest current to the north and to the east of some of the networks."""
        hulls: list[list[Ends]] = [[] for _ in self.case.transformers]
        for ohms in self.networks():
            elements = with_grounds(self.case, ohms)
            solution = Solution(len(self.case.nodes), elements, self.stand, self.volts, True)
            for place, (unit, hull) in enumerate(zip(self.case.transformers, hulls)):
                quantity = solution.effective(self.case.windings[place], unit.high_volts)
                for field, coefficients in enumerate(((1, 0), (0, 1))):
                    exact = value(quantity, coefficients)
                    current = Fraction(exact.low, exact.denominator)
                    if len(hull) <= field:
                        hull.append(Ends(current, current))
                    else:
                        hull[field] = hull[field].with_value(current)
        return hulls
