#!/usr/bin/env python3
"""Writes a case at every limit: 256 zones, 1024 substations, 3072 buses, 8192 lines and 3584 transformers, each of
which has a neutral resistor, so 7680 nodes and 19968 elements. The numbers belong to no real network.

    python3 generators/limit_case.py [SUBSTATIONS] [GROUND] > limit.toml
    python3 generators/limit_case.py --format-3 [SUBSTATIONS] [GROUND] [PARTS] > limit.toml

A smaller number of substations, 128, 256 or 512, makes all else smaller in proportion, but for the zones. GROUND is
the resistance of all grounds in micro-ohm; where it is not given, they differ, from 0.1 to 0.8 ohm. The greater it is,
the further are the nodes from earth. The same text comes at every call: the numbers follow from the places, and no
clock and no chance is used.

With --format-3 it is at every limit of that format: 256 zones, 4096 substations, 12288 buses, 24576 lines, each in 16
parts (or in as many as PARTS says), and 8192 transformers, each with three windings and a neutral resistor, so 24576
nodes and 61440 elements; at the first bus 256 elements end.
"""

from __future__ import annotations

import sys
from collections.abc import Callable, Iterator

import paths  # noqa: F401 - it finds the modules below

from generators.case_text import Row, case_text
from referee.case import LIMITS, LIMITS_3, MOST_ENDS

ZONES, LEVELS = LIMITS["zone"], 3


def text(substations: int = LIMITS["substation"], ground: int | None = None) -> str:
    """The text of the case of format 2."""
    return "\n".join([*rows(substations, ground), ""])


def rows(substations: int, ground: int | None) -> Iterator[str]:
    """Its tables."""

    def bus(substation: int, level: int) -> str:
        return f"bus-{substation % substations}-{level % LEVELS}"

    yield "format = 2"
    for zone in range(ZONES):
        yield f'[[zone]]\nname = "zone-{zone}"\nlatitude = {4000 + 8 * zone}\nbeta = {1 + zone % 150}'
    for place in range(substations):
        yield f'[[substation]]\nname = "station-{place}"\nground = {ground or 100000 + 700 * place}'
    for place in range(LEVELS * substations):
        station = place // LEVELS
        yield f'[[bus]]\nname = "{bus(station, place)}"\nsubstation = "station-{station}"'
    for place in range(8 * substations):
        # a ring through all substations at each level, and chords of growing length across it
        station, lap = place % substations, place // substations
        other = station + 1 + lap * lap * 7
        yield (
            f'[[line]]\nname = "line-{place}"\nfrom = "{bus(station, lap)}"\nto = "{bus(other, lap)}"\n'
            f'zone = "zone-{station % ZONES}"\nresistance = {1000000 + 37 * place}\n'
            f"north = {place * 11 % 200001 - 100000}\neast = {place * 17 % 200001 - 100000}"
        )
    for place in range(7 * substations // 2):
        # autotransformers and wye-wye units by turns, between two levels of a substation
        station, level = place % substations, place // substations
        kind, first, second = (
            ("auto", "series", "common") if place % 2 else ("wye-wye", "high", "low")
        )
        yield (
            f'[[transformer]]\nname = "unit-{place}"\nkind = "{kind}"\nhigh_volts = 500000\nlow_volts = 345000\n'
            f'high = "{bus(station, level)}"\nlow = "{bus(station, level + 1)}"\n'
            f"{first}_resistance = {50000 + place}\n{second}_resistance = {70000 + place}\n"
            f"neutral = {500000 + place}"
        )


def lists_3(substations: int = LIMITS_3["substation"], ground: int | None = None, parts: int = 16) -> dict[str, list[Row]]:
    """The lists of the case of format 3."""

    def bus(substation: int, level: int) -> str:
        return f"b{substation % substations}-{level % LEVELS}"

    lists: dict[str, list[Row]] = {
        "zone": [{"name": f"z{zone}", "scale": 200 + 5 * zone} for zone in range(ZONES)],
        "substation": [
            {"name": f"s{place}", "ground": ground or 100000 + 700 * place % 716800} for place in range(substations)
        ],
        "bus": [
            {"name": bus(place // LEVELS, place), "substation": f"s{place // LEVELS}"}
            for place in range(LEVELS * substations)
        ],
        "transformer": [unit_3(place, substations, bus) for place in range(2 * substations)],
    }
    # Rings and chords as in format 2. Some of the last ones begin at the first bus, up to the limit of what ends there.
    lines = [line_3(place, substations, bus, parts) for place in range(6 * substations)]
    hub = bus(0, 0)
    room = MOST_ENDS - sum(hub in (row["from"], row["to"]) for row in lines) - ends_of_units(hub, lists["transformer"])
    for row in [row for row in reversed(lines) if hub not in (row["from"], row["to"])][:room]:
        row["from"] = hub
    return lists | {"line": lines}


def line_3(place: int, substations: int, bus: Callable[[int, int], str], parts: int) -> Row:
    station, lap = place % substations, place // substations
    spans = [
        {
            "zone": f"z{(station + part) % ZONES}",
            "north": (place + part) * 11 % 1000,
            "east": (place + part) * 17 % 199 - 99,
        }
        for part in range(parts)
    ]
    return {
        "name": f"l{place}",
        "from": bus(station, lap),
        "to": bus(station + 1 + lap * lap * 7, lap),
        "resistance": 100000 + 37 * place,
        "part": spans,
    }


def unit_3(place: int, substations: int, bus: Callable[[int, int], str]) -> Row:
    station, level = place % substations, place // substations
    kind, first, second = ("auto-wye", "series", "common") if place % 2 else ("wye-wye-wye", "high", "low")
    return {
        "name": f"u{place}",
        "kind": kind,
        "high_volts": 500000,
        "low_volts": 345000,
        "third_volts": 34500,
        "high": bus(station, level),
        "low": bus(station, level + 1),
        "third": bus(station, level + 2),
        f"{first}_resistance": 50000 + place,
        f"{second}_resistance": 70000 + place,
        "third_resistance": 90000 + place,
        "neutral": 500000 + place,
    }


def ends_of_units(bus: str, units: list[Row]) -> int:
    """How many windings end at a bus; at the low bus of an autotransformer two do."""
    return sum(
        (unit["high"] == bus) + (unit["low"] == bus) * (1 + ("series_resistance" in unit)) + (unit["third"] == bus)
        for unit in units
    )


def main(words: list[str]) -> None:
    numbers = [word for word in words if word != "--format-3"]
    if len(numbers) > 2 + ("--format-3" in words) or not all(word.isdecimal() and int(word) for word in numbers):
        sys.exit("usage: limit_case.py [SUBSTATIONS] [GROUND], or --format-3 [SUBSTATIONS] [GROUND] [PARTS]")
    if "--format-3" not in words:
        print(text(*map(int, numbers)), end="")
        return
    lists = lists_3(*map(int, numbers))
    if any(row["from"] == row["to"] for row in lists["line"]):
        sys.exit("limit_case.py: with this number of substations a chord ends where it begins")
    print(case_text(3, lists), end="")


if __name__ == "__main__":
    main(sys.argv[1:])
