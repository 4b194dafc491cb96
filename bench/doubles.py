"""The network of a case in arrays of doubles: conductances, what a field induces, and what flows. It refuses nothing.

It needs numpy, and takes sparse matrices where scipy is there too. What is read is right only of a case that the program
accepts.
"""

from __future__ import annotations

import sys
import tomllib
from pathlib import Path
from typing import NamedTuple, TypeAlias

import numpy as np
from numpy.typing import NDArray

from referee.case import LIMITS, MICRO_OHMS, Case, Element, Transformer, lists_of, resolve_references
from referee.words import Refusal

try:
    from scipy.sparse import csc_matrix
    from scipy.sparse.linalg import splu
except ImportError:
    splu = None

Array: TypeAlias = NDArray[np.float64]


class Item(NamedTuple):
    """How a line of a report begins, and the element that it is of."""

    head: str
    element: int


class Quantities(NamedTuple):
    """In each base field the potentials in mV, the currents in mA and the effective currents in mA. A dead node has a potential
    of 0."""

    potentials: Array
    currents: Array
    effective: Array


def head_of(element: Element) -> str:
    if element.kind == "transformer":
        return f"winding {element.name} {element.role}"
    return f"{element.kind} {element.name}"


class Doubles:
    """The conductances of a case and the nodes between which they are; earth has the place behind all nodes."""

    def __init__(self, case: Case) -> None:
        self.case = case
        self.items = [Item(head_of(element), place) for place, element in enumerate(case.elements)]
        earth = len(case.nodes)
        self.starts = np.array([element.start for element in case.elements], dtype=int)
        self.ends = np.array([earth if element.end is None else element.end for element in case.elements], dtype=int)
        self.conductances = np.array([element.paths * MICRO_OHMS / element.resistance for element in case.elements])

    def induced(self, by_zone: bool) -> Array:
        """The nanovolts of each element in each base field of 1 mV/km: to the north and to the east of each zone, or of
        all zones together."""
        factors = [zone.factor for zone in self.case.zones]
        volts = np.zeros((len(self.starts), max(2, 2 * len(factors)) if by_zone else 2))
        for line, element in self.case.line_element.items():
            for part in self.case.lines[line].parts:
                at = 2 * part.zone if by_zone else 0
                volts[element, at] += part.north * factors[part.zone]
                volts[element, at + 1] += part.east * factors[part.zone]
        return volts

    def quantities(self, volts: Array) -> Quantities:
        """What comes of these nanovolts of each element."""
        size = len(self.case.nodes)
        flows = self.conductances[:, None] * volts
        sides = np.zeros((size + 1, volts.shape[1]))
        np.add.at(sides, self.starts, -flows)
        np.add.at(sides, self.ends, flows)
        potentials = np.vstack([self.solve(sides[:size]), np.zeros((1, volts.shape[1]))])
        currents = (self.conductances[:, None] * (potentials[self.starts] - potentials[self.ends]) + flows) / 1e6
        effective = np.zeros((len(self.case.transformers), volts.shape[1]))
        for place, (unit, windings) in enumerate(zip(self.case.transformers, self.case.windings)):
            for element, weight in windings:
                effective[place] += weight / (3 * unit.high_volts) * currents[element]
        return Quantities(potentials[:size] / 1e6, currents, effective)

    def solve(self, sides: Array) -> Array:
        """The potentials for some right-hand sides, by sparse factors or, without scipy, on a full matrix."""
        size, inner = len(self.case.nodes), self.ends < len(self.case.nodes)
        dead = np.setdiff1d(np.arange(size), np.concatenate([self.starts, self.ends]))
        start, end, between = self.starts[inner], self.ends[inner], self.conductances[inner]
        rows = np.concatenate([self.starts, end, start, end, dead])
        columns = np.concatenate([self.starts, end, end, start, dead])
        values = np.concatenate([self.conductances, between, -between, -between, np.ones(len(dead))])
        if splu is not None:
            # (the matrix is symmetric and its diagonal is never the smaller one, so no pivots are looked for)
            matrix = csc_matrix((values, (rows, columns)), shape=(size, size))
            ordered = {"permc_spec": "MMD_AT_PLUS_A", "diag_pivot_thresh": 0.0, "options": {"SymmetricMode": True}}
            potentials: Array = splu(matrix, **ordered).solve(sides)
            return potentials
        matrix = np.zeros((size, size))
        np.add.at(matrix, (rows, columns), values)
        return np.linalg.solve(matrix, sides)


def read_doubles(path: str) -> Doubles:
    """The network of a file, read by Python's own reader; a line and status 1 where it is no case."""
    try:
        document = tomllib.loads(Path(path).read_text())
        rows = {name: document.get(name, []) for name in LIMITS}
        resolve_references(rows)
        return Doubles(Case(lists_of(rows)))
    except (OSError, ValueError, KeyError, TypeError, Refusal) as error:
        sys.exit(f"{path}: {error!r}")


def verdict(unit: Transformer, current: float, threshold: float) -> str:
    return "outside" if unit.is_outside else "reaches" if current >= threshold else "below"
