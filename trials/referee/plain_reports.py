"""The reports that can be written in one way only, line by line as their words (docs/FORMATS.md)."""

from __future__ import annotations

from collections.abc import Iterator

from referee.findings import Words, lines_of
from referee.outcome import Outcome


def volts_lines(outcome: Outcome) -> Iterator[Words]:
    case, north, east = outcome.case, outcome.asked.north, outcome.asked.east
    yield "volts",
    yield "north", north, "east", east
    for place, line in enumerate(case.lines):
        yield "line", line.name, case.line_volts(place, north, east)
    yield "end",


def list_lines(outcome: Outcome) -> Iterator[Words]:
    case = outcome.case
    yield "list",
    yield "nodes", len(case.nodes), "elements", len(case.elements)
    for element in case.elements:
        end = "*" if element.end is None else case.nodes[element.end]
        ends = case.nodes[element.start], end
        yield "element", element.name, element.role, *ends, element.paths, element.resistance
    yield "end",


def check_lines(outcome: Outcome) -> Iterator[Words]:
    yield "check",
    for name, is_live in zip(outcome.case.nodes, outcome.live):
        yield "node", name, "live" if is_live else "dead"
    yield "live", sum(outcome.live)
    yield "end",


def recheck_lines(outcome: Outcome) -> Iterator[Words]:
    certificate = outcome.certificate
    yield "recheck",
    yield "north", certificate.north, "east", certificate.east
    for name, node in zip(outcome.case.nodes, certificate.nodes):
        if node is not None:
            yield "node", name, *node.millivolts()
    yield "end",


def review_lines(outcome: Outcome) -> Iterator[Words]:
    yield from lines_of(outcome.case)


PLAIN_REPORTS = {
    "volts": volts_lines,
    "list": list_lines,
    "check": check_lines,
    "recheck": recheck_lines,
    "review": review_lines,
}
