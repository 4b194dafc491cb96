"""Which nodes are live, and which of them standing elements join."""

from __future__ import annotations

from collections.abc import Iterable, Sequence
from typing import NamedTuple

from referee.case import Element


class Graph(NamedTuple):
    """For each node the nodes at the other ends of its standing elements, and whether it is live."""

    neighbours: list[list[int]]
    live: list[bool]


def graph_of(size: int, elements: Sequence[Element], stand: Sequence[bool]) -> Graph:
    graph = Graph([[] for _ in range(size)], [False] * size)
    for element, stands in zip(elements, stand):
        if stands:
            graph.live[element.start] = True
            if element.end is not None:
                graph.live[element.end] = True
                graph.neighbours[element.start].append(element.end)
                graph.neighbours[element.end].append(element.start)
    return graph


def reached_from(graph: Graph, starts: Iterable[int]) -> list[int]:
    """These nodes and all that hang together with one of them."""
    waiting = list(starts)
    seen, nodes = set(waiting), []
    while waiting:
        node = waiting.pop()
        nodes.append(node)
        for other in graph.neighbours[node]:
            if other not in seen:
                seen.add(other)
                waiting.append(other)
    return nodes


def split_into_parts(size: int, elements: Sequence[Element], stand: Sequence[bool]) -> list[list[int]]:
    """The nodes that standing elements join, each list from its least node on, in the order of these."""
    graph, parts = graph_of(size, elements, stand), []
    seen: set[int] = set()
    for start in range(size):
        if graph.live[start] and start not in seen:
            parts.append(reached_from(graph, [start]))
            seen.update(parts[-1])
    return parts
