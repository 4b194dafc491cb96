"""The exact values of the steps of a run: of one field, or of a storm over its epochs.

A quantity is linear in the fields of its step. So each network is solved once for each base field, one to the north
and one to the east for all zones or for each zone, and a step has its coefficients of these.
"""

from __future__ import annotations

from collections import Counter
from collections.abc import Sequence
from dataclasses import dataclass
from typing import Callable, NamedTuple, Optional

from referee.case import Case, Live, Stand
from referee.outcome import Epoch, Outcome
from referee.solution import Solution
from referee.storm import Step, StormRow
from referee.values import Quantity, Value, value


class Standing(NamedTuple):
    """One network of a run: its solution for the base fields, and what stands and is live in it."""

    solution: Solution
    stand: Stand
    live: Live


class BaseField(NamedTuple):
    """The field of 1 to the north or to the east, in one zone, or in all zones for None."""

    zone: Optional[int]
    to_east: int


# The parts of a step's field in the base fields; and a quantity by its network and the place of its item, or None where
# the item has none in that network.
Coefficients = tuple[int, ...]
QuantityOf = Callable[[int, int], Optional[Quantity]]


@dataclass(frozen=True)
class Entry:
    """A quantity at all steps with one network and one field: the value in floats, how great its parts are, and at how
    many steps."""

    quantity: Quantity
    coefficients: Coefficients
    about: float
    scale: float
    count: int


class Study:
    """The steps of a run, counted from 1.

    `storm_steps` are its steps with their rows, `by_zone` says whether the rows are for zones, and `exactly` that each
    solution is to be exact where an enclosure didn't decide.
    """

    def __init__(
        self, case: Case, epochs: Sequence[Epoch], storm_steps: Sequence[Step], by_zone: bool, exactly: bool
    ) -> None:
        self.case = case
        self.found: dict[tuple[str, int, int], Optional[Quantity]] = {}
        zones: list[Optional[int]] = [None]
        if by_zone:
            zones = [*case.zones_of_lines()]
        self.base_fields = [BaseField(zone, to_east) for zone in zones for to_east in (0, 1)]
        self.networks: list[Standing] = []
        self.network_at: list[int] = []
        self.solve(epochs, exactly)
        self.fields = [self.zone_fields(step) for step in storm_steps]
        self.coefficients = [
            tuple(fields[zone][to_east] for zone, to_east in self.base_fields) for fields in self.fields
        ]
        self.counts = Counter(zip(self.network_at, self.coefficients))

    @staticmethod
    def of_field(case: Case, epochs: Sequence[Epoch], north: int, east: int, exactly: bool) -> Study:
        """The one step of a field for all zones."""
        return Study(case, epochs, [Step(0, [StormRow(0, None, north, east)])], False, exactly)

    @staticmethod
    def of_event(case: Case, stand: Stand, live: Live, strength: int, exactly: bool) -> Study:
        """The two steps of an event's field, to the north and to the east."""
        steps = [Step(0, [StormRow(0, None, strength, 0)]), Step(1, [StormRow(1, None, 0, strength)])]
        return Study(case, [Epoch(1, 2, stand, live)], steps, False, exactly)

    @staticmethod
    def of_outcome(outcome: Outcome, exactly: bool) -> Study:
        return Study(outcome.case, outcome.epochs, outcome.storm.steps, outcome.storm.by_zone, exactly)

    def solve(self, epochs: Sequence[Epoch], exactly: bool) -> None:
        volts = [self.case.element_volts(zone, 1 - to_east, to_east) for zone, to_east in self.base_fields]
        known: dict[Stand, int] = {}
        for first, last, stand, live in epochs:
            if stand not in known:
                known[stand] = len(self.networks)
                solution = Solution(len(self.case.nodes), self.case.elements, stand, volts, exactly)
                self.networks.append(Standing(solution, stand, live))
            self.network_at += [known[stand]] * (last + 1 - first)

    def zone_fields(self, step: Step) -> dict[Optional[int], tuple[int, int]]:
        """The field of each zone at a step, and under None that of the last row for all zones."""
        places: list[Optional[int]] = [None, *range(len(self.case.zones))]
        fields = dict.fromkeys(places, (0, 0))
        for _, zone, north, east in step.rows:
            for place in fields if zone is None else [zone]:
                fields[place] = (north, east)
        return fields

    # Quantities of a network; None where the item has none in it.

    def node(self, network: int, node: int) -> Optional[Quantity]:
        solution, _, live = self.networks[network]
        return solution.potential(node) if live[node] else None

    def element(self, network: int, element: int) -> Optional[Quantity]:
        solution, stand, _ = self.networks[network]
        return solution.current(element) if stand[element] else None

    def effective(self, network: int, transformer: int) -> Quantity:
        high_volts = self.case.transformers[transformer].high_volts
        return self.networks[network].solution.effective(self.case.windings[transformer], high_volts)

    def has_winding(self, network: int, transformer: int) -> bool:
        """Whether a winding of the transformer stands."""
        return any(self.networks[network].stand[element] for element, _ in self.case.windings[transformer])

    def has_winding_at(self, step: int, transformer: int) -> bool:
        return self.has_winding(self.network_at[step - 1], transformer)

    def effective_at(self, step: int, transformer: int) -> Value:
        """The exact effective current at a step."""
        exact = self.at(step, self.effective, transformer)
        assert exact is not None
        return exact

    def at(self, step: int, quantity: QuantityOf, place: int) -> Optional[Value]:
        """The exact value at a step, where `quantity` is one of the three methods above."""
        network = self.network_at[step - 1]
        key = quantity.__name__, network, place
        if key not in self.found:
            self.found[key] = quantity(network, place)
        found = self.found[key]
        return None if found is None else value(found, self.coefficients[step - 1])

    def over_steps(self, quantity: QuantityOf, place: int) -> list[Entry]:
        """The entries of a quantity over the steps at which the item has one."""
        found: dict[int, Optional[tuple[Quantity, list[float]]]] = {}
        entries = []
        for (network, coefficients), count in self.counts.items():
            if network not in found:
                own = quantity(network, place)
                found[network] = None if own is None else (own, own.floats())
            there = found[network]
            if there is not None:
                exact, floats = there
                parts = [factor * number for factor, number in zip(coefficients, floats)]
                entries.append(Entry(exact, coefficients, sum(parts), sum(abs(part) for part in parts), count))
        return entries
