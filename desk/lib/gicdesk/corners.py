"""Combinations of grounds, each at an end of its range, with which the worst current of a unit is great or small.

They are looked for in floating-point numbers: a corner that is found is confirmed by a screen of its own, and nothing is said
of those that aren't. A current is a complex number, with the one in the field to the north and the one in the field to the east.
"""

import dataclasses
from collections.abc import Iterable, Mapping, Sequence

from .cases import Row
from .reports import Element, Field, Volts
from .sparse import Factored

MICRO = 1e6
NANO = 1e9
PHASES = 3
GROUND, LINE, NEUTRAL = "ground", "line", "neutral"  # roles of elements
MOST_TURNS = 12  # of all grounds at once, and then of single ones
MOST_TRIED = 24  # grounds that are turned by themselves, those that matter most
BETTER = 1e-9  # a gain that isn't one of rounding


@dataclasses.dataclass(frozen=True)
class Range:
    """The least and the most of a ground, and what the case has, in micro-ohm."""

    least: int
    given: int
    most: int


def range_of(ground: int, percent: int) -> Range:
    """The resistances of a ground within a tolerance, as the program takes them."""
    least = max(1000, ground * (100 - percent) // 100)
    return Range(least, ground, min(1_000_000_000, -(-ground * (100 + percent) // 100)))


@dataclasses.dataclass(frozen=True)
class Link:
    """A standing element that is no ground."""

    start: str
    end: str
    siemens: float
    volts: complex = 0j


def shares_of(unit: Row) -> dict[str, float]:
    """What part each winding of a unit has in its effective current."""

    def volts(key: str) -> float:
        value = unit.value(f"{key}_volts")
        return float(value) if isinstance(value, int) else 0.0

    high, low, third = volts("high"), volts("low"), volts("third")
    parts = {"high": high, "low": low, "series": high - low, "common": low, "third": third}
    return {role: part / high for role, part in parts.items()}


def stands(element: Element, opened: set[tuple[str, str, str]]) -> bool:
    kind = element.role if element.role in (GROUND, LINE, NEUTRAL) else "winding"
    return (kind, element.name, element.role if kind == "winding" else "") not in opened


@dataclasses.dataclass(frozen=True)
class State:
    """The network with grounds of some resistances: a unit's current, the potentials, and how the current goes with each ground."""

    factored: Factored
    potentials: Mapping[str, complex]
    sources: Mapping[str, complex]
    current: complex

    def slope(self, ground: str) -> float:
        """How the worst current goes with the conductance of a ground."""
        towards = (self.current.conjugate() * self.potentials[ground]).real
        return self.sources[ground].real * towards / (abs(self.current) or 1.0)

    def worst_with(self, ground: str, more: float) -> float:
        """The worst current with so much more conductance of a ground."""
        own = self.factored.solved({ground: 1 + 0j})[ground].real
        return abs(self.current + self.sources[ground] * more * self.potentials[ground] / (1 + more * own))


class Model:
    """The standing network of the program's reports, with the ranges of its grounds."""

    def __init__(self, elements: Sequence[Element], volts: tuple[Volts, Volts], field: Field, ranges: Mapping[str, Range]) -> None:
        opened = {(item.kind, item.name, item.role) for item in field.items if item.state in ("open", "blocked")}
        self.standing = [element for element in elements if stands(element, opened)]
        grounds = [element.name for element in self.standing if element.role == GROUND]
        self.ranges = {name: ranges[name] for name in grounds}
        self.links = []
        for element in self.standing:
            if element.role != GROUND:
                north, east = (one.lines[element.name] if element.role == LINE else 0 for one in volts)
                siemens = element.times * MICRO / element.micro_ohm
                self.links.append(Link(element.start, element.end, siemens, complex(north, east) / NANO))

    def weights(self, unit: Row) -> list[tuple[Link, float]]:
        """The windings of a unit with their parts of the current of one phase."""
        shares = shares_of(unit)
        named = (element for element in self.standing if element.role != GROUND)
        pairs = zip(self.links, named)
        return [
            (link, shares[element.role] / PHASES)
            for link, element in pairs
            if element.name == unit.name and element.role in shares
        ]

    def right(self, links: Iterable[tuple[Link, complex]]) -> dict[str, complex]:
        """What these voltages inject into the nodes."""
        found: dict[str, complex] = {}
        for link, volts in links:
            for node, sign in ((link.start, -1), (link.end, 1)):
                found[node] = found.get(node, 0j) + sign * link.siemens * volts
        return found

    def state(self, grounds: Mapping[str, int], windings: Sequence[tuple[Link, float]]) -> State:
        rows: dict[str, dict[str, float]] = {}

        def add(node: str, other: str, siemens: float) -> None:
            row = rows.setdefault(node, {})
            row[other] = row.get(other, 0.0) + siemens

        for link in self.links:
            for node, other in ((link.start, link.end), (link.end, link.start)):
                add(node, node, link.siemens)
                add(node, other, -link.siemens)
        for name, micro_ohm in grounds.items():
            add(name, name, MICRO / micro_ohm)
        factored = Factored(rows)
        potentials = factored.solved(self.right((link, link.volts) for link in self.links))
        sources = factored.solved(self.right((link, complex(share)) for link, share in windings))
        current = sum(share * link.siemens * (potentials[link.start] - potentials[link.end]) for link, share in windings)
        return State(factored, potentials, sources, complex(current))

    def corner(self, state: State, is_great: bool) -> dict[str, int]:
        """Each ground at the end that makes the current of a state greater, or smaller."""
        return {
            name: one.least if (state.slope(name) > 0) == is_great else one.most for name, one in self.ranges.items()
        }

    def effects(self, unit: Row) -> dict[str, float]:
        """How much each ground alone moves the worst current of a unit over its range."""
        state = self.state({name: one.given for name, one in self.ranges.items()}, self.weights(unit))
        near = {name: abs(state.slope(name)) * (MICRO / one.least - MICRO / one.most) for name, one in self.ranges.items()}
        for name in sorted(near, key=near.__getitem__, reverse=True)[:MOST_TRIED]:
            one = self.ranges[name]
            ends = [state.worst_with(name, MICRO / end - MICRO / one.given) for end in (one.least, one.most)]
            near[name] = max(*ends, abs(state.current)) - min(*ends, abs(state.current))
        return near

    def search(self, unit: Row, is_great: bool) -> dict[str, int]:
        """The corner with the greatest worst current of a unit, or with the least one, as far as turning finds it: all grounds by
        their slopes while that helps, and then one at a time."""
        windings = self.weights(unit)
        sign = 1 if is_great else -1
        grounds = {name: one.given for name, one in self.ranges.items()}
        state = self.state(grounds, windings)
        for _ in range(MOST_TURNS):
            turned = self.corner(state, is_great)
            after = self.state(turned, windings)
            if turned == grounds or sign * (abs(after.current) - abs(state.current)) < BETTER:
                break
            grounds, state = turned, after
        for _ in range(MOST_TURNS):
            gain, name = max(self.gains(state, grounds, sign), default=(0.0, ""))
            if gain < BETTER:
                break
            one = self.ranges[name]
            grounds[name] = one.most if grounds[name] != one.most else one.least
            state = self.state(grounds, windings)
        return grounds

    def gains(self, state: State, grounds: Mapping[str, int], sign: int) -> Iterable[tuple[float, str]]:
        """What turning each ground alone to its other end brings, for those that matter most."""
        for name in sorted(grounds, key=lambda name: -abs(state.slope(name)) / grounds[name])[:MOST_TRIED]:
            one = self.ranges[name]
            other = one.most if grounds[name] != one.most else one.least
            yield sign * (state.worst_with(name, MICRO / other - MICRO / grounds[name]) - abs(state.current)), name
