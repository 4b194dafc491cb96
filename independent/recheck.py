#!/usr/bin/env python3
"""Rechecks a certificate of gicstudy, exactly and without the program.

    python3 independent/recheck.py --case=FILE --cert=FILE [--switch=FILE]

Where the certificate passes, the potentials that it shows are printed, and the status is 0. Where it is refused, one
line on the error stream names the first rule that it breaks, and the status is 13. Where the case, the switchings or
their files are refused there is a line and a status too (`rules.py`). All of this is as `gicstudy recheck` has it for
the same files. README.md says what it shows, and what it takes for granted.
"""

import argparse
import os
import re
import signal
import sys
from collections.abc import Iterable, Sequence
from fractions import Fraction
from math import ceil, floor
from typing import Any, NamedTuple

from network import Branch, Network, Node, crowded_node, elements_of, open_items
from rules import (CANNOT_WRITE, CASE, OUT_OF_MEMORY, REFUSED, USAGE, Case, Record, Refused, bytes_of, read_case,
                   read_switchings)

Numbers = dict[Node, int]  # a number for each live node
GRAIN = 2**36  # grains in a nanovolt
MILLIVOLT = 10**6 * GRAIN  # grains in a millivolt


def refused(words: str) -> Refused:
    """The certificate breaks a rule: the words say which, and where."""
    return Refused(REFUSED, f"cert: {words}")


# The certificate: what its text says ----------------------------------------------------------------------------------

class Certificate(NamedTuple):
    """A field in mV/km, and three numbers for each live node."""
    north: int
    east: int
    entries: Numbers  # V, without a unit
    guesses: Numbers  # X, in grains
    radii: Numbers  # RADIUS, in grains


def read(text: bytes, network: Network) -> Certificate:
    """The certificate that a text is. At each row its form, then its numbers, then its node decide."""
    lines = text.split(b"\n")  # what stands behind the last line feed comes last, and is no line
    nodes = network.nodes
    words_of(lines, 1, "certificate")
    head = words_of(lines, 2, "nodes COUNT north N east E")
    _, north, east = numbers_of(head, 2, (len(nodes), len(nodes)), (-20000, 20000), (-20000, 20000))
    numbers: dict[Node, list[int]] = {}
    for row, node in enumerate(nodes, 3):
        name, *rest = words_of(lines, row, "cert NAME V X RADIUS", "cert NAME dead")
        if rest:
            numbers[node] = numbers_of(rest, row, (1, 4096), (-(2**95), 2**95), (0, 2**126))
        if name != node.encode() or (node in numbers) != (node in network.leaving):
            raise refused(f"node in row {row}")
    last = len(nodes) + 3
    words_of(lines, last, "end")
    if lines[last:] != [b""]:
        raise refused(f"shape in row {last + 1}")
    entries, guesses, radii = ({node: three[place] for node, three in numbers.items()} for place in range(3))
    return Certificate(north, east, entries, guesses, radii)


def words_of(lines: list[bytes], row: int, *forms: str) -> list[bytes]:
    """The words of a row that stand for the capitals of a form, if the row is there and has one of the forms."""
    words = lines[row - 1].split(b" ") if row < len(lines) else []
    for form in (form.encode().split() for form in forms):
        pairs = list(zip(words, form))
        if len(words) == len(form) and all(word and (part.isupper() or word == part) for word, part in pairs):
            return [word for word, part in pairs if part.isupper()]
    raise refused(f"shape in row {row}")


def numbers_of(words: list[bytes], row: int, *ranges: tuple[int, int]) -> list[int]:
    """The numbers that words of a row are: a sign or none, 1 to 38 digits, and each in its range."""
    for word, (least, most) in zip(words, ranges, strict=True):
        if not re.fullmatch(rb"[-+]?[0-9]{1,38}", word) or not least <= int(word) <= most:
            raise refused(f"number in row {row}")
    return [int(word) for word in words]


# The check: whether the certificate passes ----------------------------------------------------------------------------

def row_sum(node: Node, ends: list[Branch], entries: Numbers) -> int:
    """How far the entry of a node is above those of its neighbours, weighed by conductance, in 2^-20 siemens."""
    rises = [(end.element.conductance, entries[node] - entries.get(end.other, 0)) for end in ends]
    return sum(floor(2**20 * conductance * (rise - 1)) for conductance, rise in rises)


def residual(node: Node, ends: list[Branch], certificate: Certificate) -> int:
    """The current that leaves a node under the guesses and must be 0: how much it is at most, in 2^-44 nanoampere."""
    guesses, field = certificate.guesses, (certificate.north, certificate.east)
    drops = [guesses[node] - guesses.get(end.other, 0) + GRAIN * end.voltage(*field) for end in ends]
    currents = [2**8 * end.element.conductance * drop for end, drop in zip(ends, drops)]
    return max(abs(sum(floor(current) for current in currents)), abs(sum(ceil(current) for current in currents)))


def own_conductance(ends: list[Branch]) -> int:
    """How much a node conducts at least, in 2^-20 siemens."""
    return sum(floor(2**20 * end.element.conductance) for end in ends)


def check(network: Network, certificate: Certificate) -> None:
    """Refuses a certificate that doesn't pass: the first rule that is broken, at the first live node that breaks it."""
    live = {node: network.leaving[node] for node in network.nodes if node in network.leaving}
    for node, ends in live.items():  # the entries are a bound vector
        if row_sum(node, ends, certificate.entries) < 0:
            raise refused(f"row at node {node}")
    residuals = {node: residual(node, ends, certificate) for node, ends in live.items()}
    for node in live:  # no guess is hopelessly off
        if residuals[node] > 2**110:
            raise refused(f"residual at node {node}")
    step = max((ceil(Fraction(4096 * residuals[node], own_conductance(live[node]))) for node in live), default=0)
    for node in live:  # each radius makes up for the step
        if certificate.radii[node] < certificate.entries[node] * step:
            raise refused(f"radius at node {node}")


# The whole ------------------------------------------------------------------------------------------------------------

def recheck(case: Case, switchings: Iterable[Record], text: bytes) -> str:
    """The report: what the certificate shows of each live node's potential, rounded outward to millivolts."""
    network = Network(case, elements_of(case), open_items(switchings))
    certificate = read(text, network)
    check(network, certificate)
    lines = ["recheck", f"north {certificate.north} east {certificate.east}"]
    for node, guess in certificate.guesses.items():
        low, high = (Fraction(guess + side * certificate.radii[node], MILLIVOLT) for side in (-1, 1))
        lines.append(f"node {node} {floor(low)} {ceil(high)}")
    return "\n".join([*lines, "end", ""])


def check_degrees(case: Case) -> None:
    """Refuses a case where too many elements end at a node, whether they stand or not."""
    node = crowded_node(case, elements_of(case))
    if node is not None:
        raise Refused(CASE, f"case: degree at node {node}")


def file_bytes(name: str, what: str) -> bytes:
    """All bytes of a file."""
    return bytes_of(name, f"cannot read {what}", f"too long: {what}")


class Once(argparse.Action):
    """An option that may be given once."""

    def __call__(
        self,
        parser: argparse.ArgumentParser,
        namespace: argparse.Namespace,
        values: str | Sequence[Any] | None,
        option_string: str | None = None,
    ) -> None:
        if getattr(namespace, self.dest) is not None:
            raise Refused(USAGE, "usage: words")
        setattr(namespace, self.dest, values)


def report_of(words: list[str]) -> str:
    """Reads the files that the words name, in the order in which the program does, and rechecks."""
    options = argparse.ArgumentParser(usage="recheck.py --case=FILE --cert=FILE [--switch=FILE]", allow_abbrev=False)
    for option in ("--case", "--cert", "--switch"):
        options.add_argument(option, action=Once, required=option != "--switch")
    try:
        files = options.parse_args(words)
    except OSError:  # its line can't be written
        raise Refused(USAGE, "usage: words") from None
    case = read_case(file_bytes(files.case, "case"))
    check_degrees(case)
    switchings = read_switchings(file_bytes(files.switch, "switch"), case) if files.switch is not None else []
    return recheck(case, switchings, file_bytes(files.cert, "cert"))


def main(words: list[str]) -> int:
    """Writes the report or the fault line, and answers the status."""
    try:
        report = report_of(words)
    except Refused as fault:
        return told(str(fault), fault.status)
    except MemoryError:
        return told("out of memory", OUT_OF_MEMORY)
    if sys.stdout is None:
        return told("cannot write", CANNOT_WRITE)
    try:
        sys.stdout.write(report)
        sys.stdout.flush()
    except OSError:
        os.dup2(os.open(os.devnull, os.O_WRONLY), 1)  # what is left is written to nowhere
        return told("cannot write", CANNOT_WRITE)
    return 0


def told(line: str, status: int) -> int:
    """Writes the fault line, where there is an error stream that takes it, and answers the status."""
    try:
        sys.stderr.write(f"gicstudy: {line}\n")
        sys.stderr.flush()
    except OSError:
        os.dup2(os.open(os.devnull, os.O_WRONLY), 2)  # what is left is written to nowhere
    return status


if __name__ == "__main__":
    signal.signal(signal.SIGINT, signal.SIG_DFL)
    sys.stderr = sys.stderr or open(os.devnull, "w")
    sys.exit(main(sys.argv[1:]))
