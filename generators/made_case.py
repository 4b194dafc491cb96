#!/usr/bin/env python3
"""Writes a made network of SIZE substations, each with a ground, one bus and one delta-wye transformer, joined by lines
in a tree: 2 SIZE nodes and 3 SIZE - 1 elements. Every such network is earthed within 448.

    python3 generators/made_case.py [SIZE] [SEED] > made.toml

SIZE is 1000 and SEED is 7 where they are not given. It is the network that `make` makes of them.
"""

from __future__ import annotations

import sys
from collections.abc import Iterator

import paths  # noqa: F401 - it finds the modules below

from referee.case import Case, make_case


def rows(case: Case) -> Iterator[str]:
    """The tables of a made case."""
    yield from (f'[[zone]]\nname = "{zone.name}"\nlatitude = {zone.latitude}\nbeta = {zone.beta}' for zone in case.zones)
    yield from (f'[[substation]]\nname = "{row.name}"\nground = {row.ground}' for row in case.substations)
    for bus in case.buses:
        yield f'[[bus]]\nname = "{bus.name}"\nsubstation = "{case.substations[bus.substation].name}"'
    for line in case.lines:
        (part,) = line.parts
        yield (
            f'[[line]]\nname = "{line.name}"\nfrom = "{case.buses[line.start].name}"\nto = "{case.buses[line.end].name}"\n'
            f'zone = "{case.zones[part.zone].name}"\nresistance = {line.resistance}\n'
            f"north = {part.north}\neast = {part.east}"
        )
    for unit in case.transformers:
        yield (
            f'[[transformer]]\nname = "{unit.name}"\nkind = "{unit.kind}"\nhigh_volts = {unit.high_volts}\n'
            f'high = "{case.buses[unit.buses["high"]].name}"\nhigh_resistance = {unit.resistances["high"]}'
        )


def text(size: int, seed: int) -> str:
    """The text of the case of this number of substations."""
    return "\n".join(["format = 1", *rows(make_case(seed, size)), ""])


def main(words: list[str]) -> None:
    size, seed = [int(word) for word in words[:2]] + [1000, 7][len(words[:2]) :]
    print(text(size, seed), end="")


if __name__ == "__main__":
    main(sys.argv[1:])
