"""Certificates: their reader and their check, in whole numbers (docs/FORMATS.md, *The certificate*)."""

from __future__ import annotations

from collections.abc import Callable, Sequence
from typing import NamedTuple, Optional

from referee.case import MICRO_OHMS, ROW_UNITS, Case
from referee.values import Interval
from referee.words import RANGES, Range, Refusal, read_wide

COUNT = Range(0, 65535)
FIELD = RANGES["north"]
ENTRY = Range(1, 4096)
GUESS = Range(-(2**95), 2**95)
RADIUS = Range(0, 2**126)
MOST_RESIDUAL = 2**110
GRAINS_PER_NANOVOLT = 2**36
GRAINS_PER_MILLIVOLT = 10**6 * GRAINS_PER_NANOVOLT


class Node(NamedTuple):
    """What a certificate says of a live node: its entry in the bound vector, its guess and its radius in grains."""

    entry: int
    guess: int
    radius: int

    def millivolts(self) -> Interval:
        """The narrowest whole ends of what it says of the potential, in mV."""
        low, high = self.guess - self.radius, self.guess + self.radius
        return Interval(low // GRAINS_PER_MILLIVOLT, -(-high // GRAINS_PER_MILLIVOLT))


class Certificate(NamedTuple):
    """The field in mV/km, and for each node of the network its numbers, or None for a dead one."""

    north: int
    east: int
    nodes: list[Optional[Node]]


def refusal(rule: str, row: int) -> Refusal:
    return Refusal(13, f"gicstudy: cert: {rule} in row {row}")


class Rows:
    """The rows of a text, each as its words; a row that is not there, or has no line feed, is of no shape."""

    def __init__(self, content: bytes) -> None:
        *self.rows, self.rest = content.split(b"\n")

    def words(self, row: int) -> list[bytes]:
        """The words of a row from row 1 on, each a byte or more."""
        words = self.rows[row - 1].split(b" ") if row <= len(self.rows) else [b""]
        if b"" in words:
            raise refusal("shape", row)
        return words

    def has_more(self, row: int) -> bool:
        return len(self.rows) > row or self.rest != b""


def read_numbers(texts: Sequence[bytes], ranges: Sequence[Range], row: int) -> list[int]:
    numbers = []
    for text, bounds in zip(texts, ranges):
        number = read_wide(text, bounds)
        if number is None:
            raise refusal("number", row)
        numbers.append(number)
    return numbers


def read_head(rows: Rows, count: int) -> tuple[int, int]:
    """The field of the second row."""
    words = rows.words(2)
    if len(words) != 6 or words[0::2] != [b"nodes", b"north", b"east"]:
        raise refusal("shape", 2)
    told, north, east = read_numbers(words[1::2], (COUNT, FIELD, FIELD), 2)
    if told != count:
        raise refusal("number", 2)
    return north, east


def read_node(rows: Rows, row: int, name: str, is_live: bool) -> Optional[Node]:
    """What the row of a node says of it."""
    words = rows.words(row)
    is_dead = len(words) == 3 and words[2] == b"dead"
    if words[0] != b"cert" or not (is_dead or len(words) == 5):
        raise refusal("shape", row)
    node = None if is_dead else Node(*read_numbers(words[2:], (ENTRY, GUESS, RADIUS), row))
    if words[1] != name.encode() or is_live == is_dead:
        raise refusal("node", row)
    return node


def read_certificate(content: bytes, case: Case, live: Sequence[bool]) -> Certificate:
    """The certificate that the bytes are, for the live nodes; or a Refusal by the first rule of reading."""
    rows = Rows(content)
    if rows.words(1) != [b"certificate"]:
        raise refusal("shape", 1)
    north, east = read_head(rows, len(case.nodes))
    nodes = [read_node(rows, 3 + place, name, live[place]) for place, name in enumerate(case.nodes)]
    last = 3 + len(case.nodes)
    if rows.words(last) != [b"end"]:
        raise refusal("shape", last)
    if rows.has_more(last):
        raise refusal("shape", last + 1)
    return Certificate(north, east, nodes)


class Ends(NamedTuple):
    """A standing element as it is seen from one of its ends: the other end, and the voltage counted away from here."""

    other: Optional[int]
    paths: int
    resistance: int
    volts: int


def ends_at_nodes(case: Case, stand: Sequence[bool], volts: Sequence[int]) -> list[list[Ends]]:
    """For each node the standing elements that end at it."""
    ends: list[list[Ends]] = [[] for _ in case.nodes]
    for element, stands, voltage in zip(case.elements, stand, volts):
        if stands:
            ends[element.start].append(Ends(element.end, element.paths, element.resistance, voltage))
            if element.end is not None:
                ends[element.end].append(Ends(element.start, element.paths, element.resistance, -voltage))
    return ends


def row_of(ends: Sequence[Ends], entries: Sequence[int], node: int) -> int:
    """The row of a node, each part rounded down."""
    return sum(
        end.paths * MICRO_OHMS * ROW_UNITS * (entries[node] - (0 if end.other is None else entries[end.other]) - 1)
        // end.resistance
        for end in ends
    )


def residual_of(ends: Sequence[Ends], guesses: Sequence[int], node: int) -> int:
    """The greater absolute value of the current that leaves a node, rounded down and rounded up part by part."""
    low = high = 0
    for end in ends:
        drop = guesses[node] - (0 if end.other is None else guesses[end.other]) + end.volts * GRAINS_PER_NANOVOLT
        current = end.paths * MICRO_OHMS * 2**8 * drop
        low += current // end.resistance
        high -= -current // end.resistance
    return max(abs(low), abs(high))


def step_of(ends: Sequence[Ends], residual: int) -> int:
    """How far a sweep could move a node's guess, rounded up."""
    conductance = sum(end.paths * MICRO_OHMS * ROW_UNITS // end.resistance for end in ends)
    return -(-4096 * residual // conductance)


def check_certificate(
    case: Case,
    stand: Sequence[bool],
    live: Sequence[bool],
    volts: Sequence[int],
    nodes: Sequence[Optional[Node]],
) -> int:
    """The step of a certificate that passes, in grains; or a Refusal by the first rule of checking."""

    def refuse_first(rule: str, is_broken: Callable[[int], bool]) -> None:
        node = next((node for node in live_nodes if is_broken(node)), None)
        if node is not None:
            raise Refusal(13, f"gicstudy: cert: {rule} at node {case.nodes[node]}")

    ends = ends_at_nodes(case, stand, volts)
    live_nodes = [node for node in range(len(case.nodes)) if live[node]]
    entries = [0 if node is None else node.entry for node in nodes]
    guesses = [0 if node is None else node.guess for node in nodes]
    refuse_first("row", lambda node: row_of(ends[node], entries, node) < 0)
    residuals = {node: residual_of(ends[node], guesses, node) for node in live_nodes}
    refuse_first("residual", lambda node: residuals[node] > MOST_RESIDUAL)
    step = max((step_of(ends[node], residuals[node]) for node in live_nodes), default=0)
    radii = [0 if node is None else node.radius for node in nodes]
    refuse_first("radius", lambda node: radii[node] < entries[node] * step)
    return step
