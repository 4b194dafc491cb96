"""The exact solution of one standing network for several base fields."""

from __future__ import annotations

from collections.abc import Iterable, Sequence
from fractions import Fraction
from math import lcm
from typing import Optional

from referee.case import MICRO_OHMS, Element, Winding
from referee.graph import split_into_parts
from referee.linear import Conductance, Solved, solve_by_balls, solve_by_fractions, solve_by_lifting
from referee.values import Quantity

# Parts of a network up to this many nodes are solved by fractions.
SMALL_PART = 80
# Networks up to this many nodes are held against the laws of Kirchhoff once more.
MOST_VERIFIED = 400
NANOVOLTS_PER_MILLIVOLT = 10**6


class Part:
    """Nodes that standing elements join, with what their linear system is made of."""

    def __init__(self, nodes: list[int], fields: int) -> None:
        self.nodes = nodes
        self.conductances: list[Conductance] = []
        self.sides = [[Fraction(0)] * len(nodes) for _ in range(fields)]
        self.has_volts = False
        self.denominator, self.radii = 1, [0] * fields

    def solved(self, exactly: bool) -> Solved:
        """The solutions for the base fields."""
        if len(self.nodes) <= SMALL_PART:
            return solve_by_fractions(len(self.nodes), self.conductances, self.sides)
        if exactly:
            return solve_by_lifting(len(self.nodes), self.conductances, self.sides)
        return solve_by_balls(len(self.nodes), self.conductances, self.sides)

    def solve(self, exactly: bool) -> list[list[int]]:
        """The numerators for each base field, over the part's denominator."""
        numerators, self.denominator, self.radii = self.solved(exactly)
        return numerators


class Solution:
    """The potentials, currents and effective currents, in mV, mA and mA per phase.

    `stand` says which elements stand, `volts` has for each base field the voltage of each element in nanovolts, and
    `exactly` asks for exact numbers in large parts too.
    """

    def __init__(
        self,
        size: int,
        elements: Sequence[Element],
        stand: Sequence[bool],
        volts: list[list[int]],
        exactly: bool = False,
    ) -> None:
        self.elements, self.stand, self.volts = elements, stand, volts
        self.fields = len(volts)
        self.parts = [Part(nodes, self.fields) for nodes in split_into_parts(size, elements, stand)]
        self.part_of: dict[int, Part] = {}
        self.place_in_part: dict[int, int] = {}
        for part in self.parts:
            for place, node in enumerate(part.nodes):
                self.part_of[node], self.place_in_part[node] = part, place
        self.fill_parts()
        self.numerators = [[0] * size for _ in volts]
        self.solve(exactly)
        self.still: set[int] = set()
        if any(any(part.radii) for part in self.parts):
            self.find_still_elements(size)
        elif size <= MOST_VERIFIED:
            self.verify(size)

    def fill_parts(self) -> None:
        for number, (element, stands) in enumerate(zip(self.elements, self.stand)):
            if not stands:
                continue
            part, start = self.part_of[element.start], self.place_in_part[element.start]
            end = None if element.end is None else self.place_in_part[element.end]
            siemens = Fraction(element.paths * MICRO_OHMS, element.resistance)
            part.conductances.append(Conductance(start, end, siemens))
            for side, volts in zip(part.sides, self.volts):
                if volts[number]:
                    assert end is not None
                    part.has_volts = True
                    side[start] -= siemens * volts[number]
                    side[end] += siemens * volts[number]

    def solve(self, exactly: bool) -> None:
        for part in self.parts:
            if part.has_volts:
                for numerators, solution in zip(self.numerators, part.solve(exactly)):
                    for place, node in enumerate(part.nodes):
                        numerators[node] = solution[place]

    def find_still_elements(self, size: int) -> None:
        """Elements that hang on one node, with neither earth nor a voltage behind them, carry exactly nothing."""
        at_node: list[set[int]] = [set() for _ in range(size)]
        is_earthed = [False] * size
        for number, (element, stands) in enumerate(zip(self.elements, self.stand)):
            if stands:
                at_node[element.start].add(number)
                if element.end is None:
                    is_earthed[element.start] = True
                else:
                    at_node[element.end].add(number)
        waiting = list(range(size))
        while waiting:
            node = waiting.pop()
            others = {self.other_end(number, node) for number in at_node[node]}
            if is_earthed[node] or len(others) != 1 or self.has_volts(at_node[node]):
                continue
            other = others.pop()
            assert other is not None
            self.still |= at_node[node]
            at_node[other] -= at_node[node]
            at_node[node].clear()
            waiting.append(other)

    def other_end(self, number: int, node: int) -> Optional[int]:
        element = self.elements[number]
        return element.end if element.start == node else element.start

    def has_volts(self, numbers: Iterable[int]) -> bool:
        return any(volts[number] for volts in self.volts for number in numbers)

    def verify(self, size: int) -> None:
        """No current is lost or gained at a node, in any base field."""
        sums = [[Fraction(0)] * size for _ in self.volts]
        for number, (element, stands) in enumerate(zip(self.elements, self.stand)):
            if stands:
                numerators, denominator, _ = self.current(number)
                for at_nodes, numerator in zip(sums, numerators):
                    at_nodes[element.start] += Fraction(numerator, denominator)
                    if element.end is not None:
                        at_nodes[element.end] -= Fraction(numerator, denominator)
        assert not any(any(at_nodes) for at_nodes in sums)

    def nothing(self) -> Quantity:
        return Quantity([0] * self.fields, 1, [0] * self.fields)

    def potential(self, node: int) -> Quantity:
        part = self.part_of[node]
        numerators = [numerators[node] for numerators in self.numerators]
        return Quantity(numerators, NANOVOLTS_PER_MILLIVOLT * part.denominator, part.radii)

    def current(self, number: int) -> Quantity:
        if number in self.still:
            return self.nothing()
        element = self.elements[number]
        part = self.part_of[element.start]
        numerators = [
            element.paths
            * (
                potentials[element.start]
                - (0 if element.end is None else potentials[element.end])
                + part.denominator * volts[number]
            )
            for potentials, volts in zip(self.numerators, self.volts)
        ]
        radii = [2 * element.paths * radius for radius in part.radii]
        return Quantity(numerators, element.resistance * part.denominator, radii)

    def effective(self, windings: Iterable[Winding], high_volts: int) -> Quantity:
        """Of the windings those that stand, together."""
        parts = [(weight, self.current(number)) for number, weight in windings if self.stand[number]]
        if not parts:
            return self.nothing()
        denominator = lcm(*(current.denominator for _, current in parts))
        factors = [weight * (denominator // current.denominator) for weight, current in parts]

        def together(numbers: list[Sequence[int]]) -> list[int]:
            return [
                sum(factor * own[field] for factor, own in zip(factors, numbers)) for field in range(self.fields)
            ]

        return Quantity(
            together([current.numerators for _, current in parts]),
            denominator * 3 * high_volts,
            together([current.radii for _, current in parts]),
        )
