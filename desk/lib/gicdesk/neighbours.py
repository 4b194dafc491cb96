"""Which units of a case an open question can change: those of the part in which it lies, or within three lines of what it asks about.

A current changes with all of its network. What a question about a ground or a line changes is felt some lines away, and further off
it is small against the width of what anybody knows of a network.
"""

import collections
import dataclasses
import functools
from collections.abc import Iterable, Mapping, Sequence
from typing import Any

from .reports import Question

REACH = 3  # lines
LOW_VOLTS = 60_000  # below it a part of units alone is one of a kind that is asked about once
WINDINGS = ("high", "low", "third")
Rows = Sequence[Mapping[str, Any]]


class Groups:
    """Names that hang together."""

    def __init__(self) -> None:
        self.first: dict[str, str] = {}

    def of(self, name: str) -> str:
        while self.first.get(name, name) != name:
            self.first[name] = self.first.get(self.first[name], self.first[name])
            name = self.first[name]
        return name

    def join(self, one: str, other: str) -> None:
        self.first.setdefault(one, one)
        self.first.setdefault(other, other)
        self.first[self.of(other)] = self.of(one)


@dataclasses.dataclass(frozen=True)
class Graph:
    """The rows of a case as they hang together."""

    case: Mapping[str, Any]

    def rows(self, name: str) -> Rows:
        found: Rows = self.case.get(name, [])
        return found

    @functools.cached_property
    def station_of_bus(self) -> dict[str, str]:
        return {row["name"]: row["substation"] for row in self.rows("bus")}

    @functools.cached_property
    def station_of_unit(self) -> dict[str, str]:
        return {row["name"]: self.station_of_bus[row["high"]] for row in self.rows("transformer") if "high" in row}

    @functools.cached_property
    def ends(self) -> dict[str, tuple[str, str]]:
        """The stations that each line joins."""
        buses = self.station_of_bus
        return {row["name"]: (buses[row["from"]], buses[row["to"]]) for row in self.rows("line")}

    @functools.cached_property
    def beside(self) -> dict[str, set[str]]:
        """The stations that lines lead to from each; series capacitors carry nothing."""
        found: dict[str, set[str]] = collections.defaultdict(set)
        for row in self.rows("line"):
            start, end = self.ends[row["name"]]
            if not row.get("blocked", False):
                found[start].add(end)
                found[end].add(start)
        return found

    @functools.cached_property
    def zones(self) -> dict[str, set[str]]:
        """The stations at the lines of each zone."""
        found: dict[str, set[str]] = collections.defaultdict(set)
        for row in self.rows("line"):
            for part in row.get("part", [row]):
                found[part["zone"]].update(self.ends[row["name"]])
        return found

    @functools.cached_property
    def groups(self) -> Groups:
        """The nodes that elements join: buses, stations, and neutrals by the names of units."""
        groups = Groups()
        for row in self.rows("line"):
            if not row.get("blocked", False):
                groups.join(row["from"], row["to"])
        for row in self.rows("transformer"):
            if "high" not in row:
                continue
            station = self.station_of_unit[row["name"]]
            neutral = row["name"] if "neutral" in row else station
            for side in WINDINGS:
                if side in row:
                    groups.join(neutral, row[side])
            if row.get("neutral", "blocked") != "blocked":
                groups.join(neutral, station)
        return groups

    @functools.cached_property
    def units_in(self) -> dict[str, list[str]]:
        """The units of each part, by the node that stands for it."""
        found: dict[str, list[str]] = collections.defaultdict(list)
        for row in self.rows("transformer"):
            if "high" in row:
                found[self.groups.of(row["high"])].append(row["name"])
        return found

    def stations(self, name: str) -> set[str]:
        """The stations of a row of any list."""
        if name in self.ends:
            return set(self.ends[name])
        if name in self.zones:
            return self.zones[name]
        found = self.station_of_bus.get(name) or self.station_of_unit.get(name)
        return {found} if found else {name}

    def near(self, names: Iterable[str]) -> set[str]:
        """The units within three lines of any of these rows, and those among them."""
        rows = set(names)
        stations = {station for name in rows for station in self.stations(name)}
        edge = stations
        for _ in range(REACH):
            edge = {other for station in edge for other in self.beside[station]} - stations
            stations |= edge
        return {unit for unit, station in self.station_of_unit.items() if station in stations} | rows

    def part(self, node: str) -> list[str]:
        """The units of the part of a node; none of the greatest part, which a part beside it changes at places that nobody knows."""
        root = self.groups.of(node)
        most = max(self.units_in, key=lambda one: len(self.units_in[one]), default=root)
        return [] if root == most else self.units_in[root]

    def changed_by(self, question: Question) -> set[str]:
        """The units that the answer to a finding of the review can change."""
        return set(self.part(question.name)) if question.kind == "part" else self.near([question.name])


def is_low(graph: Graph, question: Question) -> bool:
    """Whether a finding is a part of units of two voltages below 60 kV, without a line."""
    if question.kind != "part":
        return False
    root = graph.groups.of(question.name)
    units = set(graph.units_in.get(root, []))
    with_line = {graph.groups.of(row["from"]) for row in graph.rows("line") if not row.get("blocked", False)}
    rows = [row for row in graph.rows("transformer") if row["name"] in units]
    return bool(rows) and root not in with_line and all(row["high_volts"] < LOW_VOLTS for row in rows)


def low_parts(graph: Graph, questions: Sequence[Question]) -> tuple[list[Question], list[Question]]:
    """The findings that are parts of low voltages, where there are several, and the others."""
    low = [question for question in questions if is_low(graph, question)]
    if len(low) < 2:
        return [], list(questions)
    return low, [question for question in questions if question not in low]


def low_text(graph: Graph, low: Sequence[Question]) -> str:
    """One question for all parts of low voltages."""
    units = [unit for question in low for unit in graph.units_in[graph.groups.of(question.name)]]
    more = f" and {len(units) - 2} more" if len(units) > 2 else ""
    named = ", ".join(units[:2]) if more else " and ".join(units[:2])
    return (
        f"{len(low)} parts of the network have no line, and {len(units)} units in them, {named}{more}, have voltages below "
        f"{LOW_VOLTS // 1000} kV: is a line or a bus tie missing?"
    )
