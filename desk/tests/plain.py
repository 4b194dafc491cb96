"""A plain solver for direct currents in doubles, by Gauss elimination: for tests, and by nothing of the program."""

import math
from collections.abc import Callable
from typing import Any

Case = dict[str, Any]  # a case as TOML has it
Currents = dict[str, tuple[float, float]]  # of each transformer in a field to the north and to the east, A per phase


def solved(matrix: list[list[float]], right: list[list[float]]) -> list[list[float]]:
    """The solutions for several right sides, which stand behind each row; with the greatest pivot of each column."""
    size = len(matrix)
    rows = [[*row, *sides] for row, sides in zip(matrix, right)]
    for column in range(size):
        pivot = max(range(column, size), key=lambda row: abs(rows[row][column]))
        rows[column], rows[pivot] = rows[pivot], rows[column]
        first = rows[column]
        for row in rows[column + 1 :]:
            factor = row[column] / first[column]
            if factor:
                for place in range(column, len(row)):
                    row[place] -= factor * first[place]
    for column in reversed(range(size)):
        rows[column] = [value / rows[column][column] for value in rows[column]]
        for row in rows[:column]:
            for place in range(size, len(row)):
                row[place] -= row[column] * rows[column][place]
    return [row[size:] for row in rows]


class Network:
    """The nodes of a case, and the conductances between them for the three phases together."""

    def __init__(self, case: Case) -> None:
        self.case = case
        self.station = {bus["name"]: bus["substation"] for bus in case["bus"]}
        self.links: list[tuple[str, str | None, float, tuple[float, float]]] = []  # from, to, siemens, volts

    def link(self, start: str, end: str | None, ohm: float, volts: tuple[float, float] = (0.0, 0.0)) -> int:
        self.links.append((start, end, 1 / ohm, volts))
        return len(self.links) - 1

    def currents(self) -> list[list[float]]:
        """The current of each link in its direction, for both fields."""
        ends = [node for start, end, _, _ in self.links for node in (start, end) if node is not None]
        places = {node: place for place, node in enumerate(dict.fromkeys(ends))}
        matrix = [[0.0] * len(places) for _ in places]
        right = [[0.0, 0.0] for _ in places]
        for start, end, siemens, volts in self.links:
            for node, other, sign in ((start, end, -1), (end, start, 1)):
                if node is not None:
                    place = places[node]
                    matrix[place][place] += siemens
                    if other is not None:
                        matrix[place][places[other]] -= siemens
                    for side in (0, 1):
                        right[place][side] += sign * siemens * volts[side]
        found = solved(matrix, right)
        potential = {node: found[place] for node, place in places.items()}
        zero = [0.0, 0.0]
        return [
            [
                siemens * (volts[side] + potential[start][side] - (zero if end is None else potential[end])[side])
                for side in (0, 1)
            ]
            for start, end, siemens, volts in self.links
        ]


def effective_currents(case: Case, scale: Callable[[str], float], field: float = 8.0) -> Currents:
    """The effective currents of the transformers in a field to the north and in one to the east, of V/km; scale is
    alpha times beta of a zone."""
    network = Network(case)
    for row in case["substation"]:
        if "ground" in row:
            network.link(row["name"], None, row["ground"] / 1e6)
    for row in case["line"]:
        if not row.get("blocked"):
            parts = [(scale(part["zone"]) * field / 1000, part) for part in row.get("part", [row])]
            north, east = (sum(factor * part[way] for factor, part in parts) for way in ("north", "east"))
            network.link(row["from"], row["to"], row["resistance"] / 3e6, (north, east))
    windings: dict[str, list[tuple[int, float]]] = {}  # of each unit its windings, each with its share
    for row in case["transformer"]:
        windings[row["name"]] = unit_windings(network, row)
    currents = network.currents()

    def effective(links: list[tuple[int, float]], side: int) -> float:
        return sum((currents[link][side] * share / 3 for link, share in links), 0.0)

    return {name: (effective(links, 0), effective(links, 1)) for name, links in windings.items()}


def unit_windings(network: Network, row: dict[str, Any]) -> list[tuple[int, float]]:
    if row["kind"] == "delta-delta":
        return []
    neutral = network.station[row["high"]]
    if "neutral" in row:
        neutral = f"neutral {row['name']}"
        if row["neutral"] != "blocked":
            network.link(neutral, network.station[row["high"]], row["neutral"] / 1e6)
    ratio = row.get("low_volts", 0) / row["high_volts"]
    if row["kind"] == "auto":
        series = network.link(row["high"], row["low"], row["series_resistance"] / 3e6)
        common = network.link(row["low"], neutral, row["common_resistance"] / 3e6)
        return [(series, 1 - ratio), (common, ratio)]
    links = [(network.link(row["high"], neutral, row["high_resistance"] / 3e6), 1.0)]
    if row["kind"] == "wye-wye":
        links.append((network.link(row["low"], neutral, row["low_resistance"] / 3e6), ratio))
    return links


def worst(currents: tuple[float, float]) -> float:
    return math.hypot(*currents)
