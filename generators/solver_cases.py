#!/usr/bin/env python3
"""Writes the cases that bench/solver.sh times into a folder, each as NAME.toml.

    python3 generators/solver_cases.py crates/gic_examples/data/realistic.txt FOLDER

The realistic case is taken from the examples of the repository. The numbers of all cases belong to no real network.
"""

from __future__ import annotations

import sys
from collections.abc import Iterator
from pathlib import Path

import paths  # noqa: F401 - it finds the modules below

from generators import limit_case, made_case

ZONE = 'format = 1\nzone = [{ name = "Z", latitude = 6000, beta = 100 }]\n'


def substation(name: str, ground: int) -> str:
    return f'[[substation]]\nname = "{name}"\nground = {ground}\n'


def bus(name: str, station: str) -> str:
    return f'[[bus]]\nname = "{name}"\nsubstation = "{station}"\n'


def line(name: str, start: str, end: str, resistance: int) -> str:
    ends = f'[[line]]\nname = "{name}"\nfrom = "{start}"\nto = "{end}"\nzone = "Z"\n'
    return ends + f"resistance = {resistance}\nnorth = 100000\neast = 0\n"


def transformer(name: str, at: str, resistance: int) -> str:
    kind = f'[[transformer]]\nname = "{name}"\nkind = "delta-wye"\nhigh_volts = 345000\n'
    return kind + f'high = "{at}"\nhigh_resistance = {resistance}\n'


def loop(number: str, ground: int, resistance: int, winding: int) -> str:
    """Two grounds, a transformer at each, and a line between them."""
    parts = [substation(end + number, ground) for end in "AB"]
    parts += [bus(end.lower() + number, end + number) for end in "AB"]
    parts += [line("L" + number, "a" + number, "b" + number, resistance)]
    parts += [transformer("T" + end + number, end.lower() + number, winding) for end in "AB"]
    return "".join(parts)


def row(buses: int) -> str:
    """A ground of 1 ohm at one end, and 240 siemens from each node to the next: the walk of 8 buses is 3905."""
    parts = [substation("S", 1000000), transformer("T", "b0", 12500), bus("b0", "S")]
    for place in range(1, buses):
        parts += [bus(f"b{place}", "S"), line(f"L{place}", f"b{place - 1}", f"b{place}", 12500)]
    return "".join(parts)


def chain(stations: int, ground: int) -> str:
    """Substations in a row, each with a weak ground and a transformer, and strong lines from each to the next."""
    parts = []
    for place in range(stations):
        parts += [substation(f"S{place}", ground), bus(f"b{place}", f"S{place}"), transformer(f"T{place}", f"b{place}", 150000)]
        if place:
            parts.append(line(f"L{place}", f"b{place - 1}", f"b{place}", 100000))
    return "".join(parts)


def draws(count: int, least: int, most: int) -> Iterator[int]:
    """A number of numbers from `least` up to `most`, the same on each machine."""
    state = 1
    for _ in range(count):
        state = (6364136223846793005 * state + 1442695040888963407) % 2**64
        yield least + (state >> 33) % (most - least)


def grid(side: int, each: int, ground: int, resistance: int, units: bool) -> str:
    """Buses in a square grid, three a substation, joined by lines of up to twice the resistance. At each so-manieth bus
    stands a transformer over a ground; with `units`, one at each other bus as well, over a substation without one."""
    count = side * side
    ohms = draws(2 * count, resistance, 2 * resistance)
    parts = []
    for place in range(count):
        station = place // 3
        if place % 3 == 0:
            grounded = any((place + i) % each == 0 for i in range(3))
            parts.append(substation(f"S{station}", ground) if grounded else f'[[substation]]\nname = "S{station}"\n')
        parts.append(bus(f"b{place}", f"S{station}"))
        if units or place % each == 0:
            parts.append(transformer(f"T{place}", f"b{place}", 300000))
    for place in range(count):
        others = ([place + 1] if (place + 1) % side else []) + ([place + side] if place + side < count else [])
        parts += [line(f"L{place}-{other}", f"b{place}", f"b{other}", next(ohms)) for other in others]
    return "".join(parts)


def realistic(path: Path) -> str:
    """The lines of the file `realistic` in a script of examples."""
    script = path.read_text().split("file realistic\n")[1].split("\nfile ")[0]
    return "".join(line[2:] for line in script.splitlines(keepends=True) if line.startswith("| "))


def cases(source: Path) -> Iterator[tuple[str, str]]:
    """The name and the text of each case; texts of tables end without a line feed."""
    yield "p", ZONE + loop("", 1000000, 3000000, 300000)
    yield "realistic", realistic(source)
    yield "ps", ZONE + "".join(loop(str(i), 5000000, 269970000, 15000) for i in range(20))
    for stations in 10, 100, 1000:
        yield f"made-{2 * stations}", made_case.text(stations, 7).removesuffix("\n")
    yield "row", ZONE + row(8)
    yield "chain", ZONE + chain(1000, 38000000)
    yield "grid", ZONE + grid(55, 10, 1000000, 1000000, False)
    yield "grid-far", ZONE + grid(55, 10, 20000000, 1000000, False)
    yield "grid-units", ZONE + grid(55, 10, 1000000, 1000000, True)
    yield "limit", limit_case.text().removesuffix("\n")
    yield "far-small", limit_case.text(128, 4165000).removesuffix("\n")
    yield "far", limit_case.text(1024, 3900000).removesuffix("\n")


def main(source: str, folder: str) -> None:
    for name, text in cases(Path(source)):
        Path(folder, f"{name}.toml").write_text(text)


if __name__ == "__main__":
    main(*sys.argv[1:3])
