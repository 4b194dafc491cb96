"""Which live nodes are earthed, and the least capped vector of a network (docs/DEFINITIONS.md, *earthed within*)."""

from __future__ import annotations

import functools
from collections.abc import Iterable, Sequence
from typing import NamedTuple, Optional

from referee.case import Case, Element, Live, Stand
from referee.certificate import ENTRY
from referee.graph import graph_of, reached_from
from referee.linear import eliminate

CAP = ENTRY.most + 1
# Of how many networks it is remembered what was found: the runs of a trial come back to the same ones.
MOST_REMEMBERED = 64
# How far a start of the least capped vector is below what floats say of it.
SLACK = 1e-7
MOST_ROUNDS = 60
# Over how many turns of rises it is looked whether they can be made again.
MOST_TURNS = 3


class Earthed(NamedTuple):
    """The first live node without a chain of standing elements to earth, or None; and which nodes are live."""

    node: Optional[int]
    live: Live


@functools.lru_cache(MOST_REMEMBERED)
def unearthed(case: Case, stand: Stand) -> Earthed:
    graph = graph_of(len(case.nodes), case.elements, stand)
    earthings = [element.start for element, stands in zip(case.elements, stand) if stands and element.end is None]
    reached = set(reached_from(graph, earthings))
    node = next((node for node, is_live in enumerate(graph.live) if is_live and node not in reached), None)
    return Earthed(node, tuple(graph.live))


class End(NamedTuple):
    """A standing element as it is seen from one of its ends: the other end, its weight and its resistance."""

    other: int
    weight: int
    resistance: int


class Capped:
    """The rows of a network, and a vector that is raised to the least capped one.

    An entry is raised only where its row asks for it, the others being what they are. So a vector that is not above the
    least capped one stays so.
    """

    def __init__(self, size: int, elements: Sequence[Element], stand: Sequence[bool]) -> None:
        # The elements at each node. Earth has the place behind all nodes, and an entry of 0.
        self.earth = size
        self.rows: list[list[End]] = [[] for _ in range(size)]
        for element, stands in zip(elements, stand):
            if stands:
                self.add(element.start, self.earth if element.end is None else element.end, element)
        self.live = [node for node in range(size) if self.rows[node]]
        # By how much an entry that is 1 more raises its row at most.
        self.gains = [sum(-(-weight // resistance) for _, weight, resistance in row) for row in self.rows]
        self.vector = [1 if row else 0 for row in self.rows] + [0]
        self.rises: dict[int, int] = {}
        self.bounds: dict[int, int] = {}

    def add(self, start: int, end: int, element: Element) -> None:
        self.rows[start].append(End(end, element.weight, element.resistance))
        if end != self.earth:
            self.rows[end].append(End(start, element.weight, element.resistance))

    def row(self, node: int) -> int:
        """The row of a node, each part rounded down."""
        vector, above = self.vector, self.vector[node] - 1
        return sum([weight * (above - vector[other]) // resistance for other, weight, resistance in self.rows[node]])

    def raise_node(self, node: int) -> bool:
        """Raises the entry of a node as far as its row surely asks for; whether it does ask."""
        row, gain = self.row(node), self.gains[node]
        if row >= 0 or self.vector[node] == CAP:
            return False
        rise = -(row // gain)
        self.vector[node] = min(CAP, self.vector[node] + rise)
        self.rises[node] = self.rises.get(node, 0) + rise
        # What the row is below, without its rounding, at the last of the entries that are passed.
        bound = row + len(self.rows[node]) + (rise - 1) * gain
        self.bounds[node] = max(bound, self.bounds.get(node, bound))
        return True

    def turn(self, is_waiting: list[bool]) -> bool:
        """Raises each waiting node once; whether any rises."""
        has_risen = False
        for node in self.live:
            if is_waiting[node]:
                is_waiting[node] = self.raise_node(node)
                if is_waiting[node]:
                    has_risen = True
                    for other, _, _ in self.rows[node]:
                        is_waiting[other] = True
        return has_risen

    def raise_all(self) -> None:
        """Raises entries until no row asks for more."""
        is_waiting, turns = [True] * (self.earth + 1), 0
        while self.turn(is_waiting):
            turns += 1
            times = min(self.times(node) for node in self.rises)
            if times > 0:
                self.repeat(times)
                is_waiting = [True] * (self.earth + 1)
            if times > 0 or turns == MOST_TURNS:
                turns, self.rises, self.bounds = 0, {}, {}

    def raise_to(self, known: Iterable[int]) -> None:
        for node, entry in enumerate(known):
            self.vector[node] = max(self.vector[node], entry)

    def repeat(self, times: int) -> None:
        for node, rise in self.rises.items():
            self.vector[node] += times * rise

    def times(self, node: int) -> int:
        """How often the node surely rises again as it did in the turns that are looked at, where the others do.

        With each entry moved by its rise, a row without its rounding moves by the row of the rises, and the rounding
        only lowers it. So as long as `bounds` and that movement together are not above 0, each rise is asked for again.
        """
        rise, bound = self.rises[node], self.bounds[node]
        moves = [
            -(-weight * (rise - self.rises.get(other, 0)) // resistance)
            for other, weight, resistance in self.rows[node]
        ]
        if bound > 0:
            return 0
        most = (CAP - self.vector[node]) // rise
        return min(most, -bound // sum(moves)) if sum(moves) > 0 else most

    def start(self) -> None:
        """Raises the vector to one that is surely not above the least capped one: what the rows ask for without their
        rounding, in floats and a little less."""
        capped: set[int] = set()
        for turn in range(MOST_ROUNDS):
            try:
                walks = self.walks(capped)
            except ZeroDivisionError:
                return
            if turn == 0:
                changed = capped = {node for node in self.live if walks[node] >= CAP}
            else:
                changed = {node for node in capped if self.asked(node, capped, walks) < CAP}
                capped = capped - changed
            if not changed:
                break
        else:
            return
        for node in self.live:
            most = CAP - 2 if node in capped else CAP
            walk = CAP if node in capped else walks[node]
            self.vector[node] = max(1, min(most, int(walk * (1 - SLACK) - 1.5)))

    def asked(self, node: int, capped: set[int], walks: dict[int, float]) -> float:
        inflow = sum(
            weight / resistance * (0 if other == self.earth else CAP if other in capped else walks[other])
            for other, weight, resistance in self.rows[node]
        )
        return 1 + inflow / sum(weight / resistance for _, weight, resistance in self.rows[node])

    def walks(self, capped: set[int]) -> dict[int, float]:
        """What the rows of the nodes that are not capped ask for, by node."""
        free = [node for node in self.live if node not in capped]
        places = {node: place for place, node in enumerate(free)}
        weights: list[dict[int, float]] = [{} for _ in free]
        earths, side = [0.0] * len(free), [0.0] * len(free)
        for node, place in places.items():
            for other, weight, resistance in self.rows[node]:
                conductance = weight / resistance
                side[place] += conductance
                if other == self.earth:
                    earths[place] += conductance
                elif other in places:
                    there = places[other]
                    weights[place][there] = weights[place].get(there, 0.0) + conductance
                else:
                    earths[place] += conductance
                    side[place] += conductance * CAP
        solution = eliminate(weights, earths, [side], 0.0)[0] if free else []
        return {node: solution[place] for node, place in places.items()}


def least_vector(
    size: int, elements: Sequence[Element], stand: Sequence[bool], known: Iterable[int] = ()
) -> tuple[int, ...]:
    """The least capped vector, by whole-number arithmetic: an entry for each node, 0 for a dead one. `known` is one that
    it is surely not below, or nothing."""
    capped = Capped(size, elements, stand)
    capped.start()
    capped.raise_to(known)
    capped.raise_all()
    return tuple(capped.vector[:size])


@functools.lru_cache(MOST_REMEMBERED)
def least_capped(case: Case, stand: Stand) -> tuple[int, ...]:
    return least_vector(len(case.nodes), case.elements, stand)


def unresolved(case: Case, stand: Stand) -> Optional[int]:
    """The first node whose entry in the least capped vector is past all that a network may have, or None."""
    vector = least_capped(case, stand)
    return vector.index(CAP) if CAP in vector else None
