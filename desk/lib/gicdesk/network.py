"""What a case says beside the reports: its stations, lines and rated voltages, and where the stations lie.

The program has taken the case, so its rules hold here.
"""

import collections
import dataclasses
import functools
import tomllib
from collections.abc import Iterable
from typing import Any

from .findings import Finding, shown
from .places import degrees_between
from .records import Record, read_table

PLACE_HEADS = ("name", "latitude", "longitude")
Place = tuple[float, float]  # metres to the north and to the east
Degrees = tuple[float, float]  # a latitude and a longitude


@dataclasses.dataclass(frozen=True)
class Link:
    """A line between two substations, with its span in metres."""

    name: str
    start: str
    end: str
    span: tuple[int, int]
    blocked: bool


@dataclasses.dataclass(frozen=True)
class Network:
    zones: list[str]
    stations: list[str]
    links: list[Link]
    station_of: dict[str, str]  # of each transformer with a bus
    volts: dict[str, int]  # the rated voltage of each transformer's high side
    names: frozenset[str] = frozenset()  # of all rows


def span_of(row: dict[str, Any]) -> tuple[int, int]:
    """The span of a line, the sum of its parts where it has some."""
    parts = row.get("part") or [row]
    return sum(part["north"] for part in parts), sum(part["east"] for part in parts)


@functools.lru_cache(maxsize=1)
def read_case(data: bytes) -> dict[str, Any] | None:
    """A case that the program has taken; None where it is written in TOML 1.1, which Python doesn't read. What is read once is kept,
    and nobody changes it."""
    try:
        return tomllib.loads(data.decode("utf-8-sig"))
    except (tomllib.TOMLDecodeError, UnicodeDecodeError):
        return None


def network_of(data: bytes) -> Network | None:
    """The network of a case that the program has taken; None where it isn't read."""
    case = read_case(data)
    if case is None:
        return None
    buses = {row["name"]: row["substation"] for row in case.get("bus", [])}
    units = case.get("transformer", [])
    links = [
        Link(row["name"], buses[row["from"]], buses[row["to"]], span_of(row), row.get("blocked", False))
        for row in case.get("line", [])
    ]
    return Network(
        [row["name"] for row in case.get("zone", [])],
        [row["name"] for row in case.get("substation", [])],
        links,
        {row["name"]: buses[row["high"]] for row in units if "high" in row},
        {row["name"]: row["high_volts"] for row in units},
        frozenset(row["name"] for rows in case.values() if isinstance(rows, list) for row in rows),
    )


def degrees_in(at: Record, column: str, most: int) -> float:
    number = at.number(column)
    if abs(number) > most:
        at.wrong(column, f"it is {at.text(column)}, and not -{most} to {most} degrees")
        return 0.0
    return float(number)


def read_degrees(
    file: str, stations: Iterable[str], findings: list[Finding], data: bytes | None = None
) -> dict[str, Degrees]:
    """The latitudes and longitudes of the stations of a table. Names that the case doesn't have are left out, and so are
    rows without a place. `data` is what it holds, where it has been read already."""
    wanted = set(stations)
    found: dict[str, Degrees] = {}
    for at in read_table(file, PLACE_HEADS, findings, None, data):
        name = at.text("name")
        if not (at.text("latitude") or at.text("longitude")):
            continue
        degrees = degrees_in(at, "latitude", 90), degrees_in(at, "longitude", 360)
        if name in found:
            at.wrong("name", f"{shown(name)} stands in the table already; leave one of the two")
        elif name in wanted:
            found[name] = degrees
    if not found and not findings:
        findings.append(Finding(file, "it has none of the case's substations; is it the table of another case?", 1))
    return found


def in_metres(places: dict[str, Degrees]) -> dict[str, Place]:
    """The places from the first one on."""
    first = next(iter(places.values()), (0.0, 0.0))
    return {name: degrees_between(first, degrees) for name, degrees in places.items()}


def laid_out(network: Network, known: dict[str, Place]) -> tuple[dict[str, Place], int]:
    """A place for each station that a line leads to or that is known, and how many parts were set beside the others.

    From the places that are known, and else from the first station, each line leads to the next place by its span. A
    part that no line joins with what is placed comes to the east of it."""
    neighbours: dict[str, list[tuple[str, float, float]]] = collections.defaultdict(list)
    for link in network.links:
        if link.start != link.end:
            north, east = link.span
            neighbours[link.start].append((link.end, north, east))
            neighbours[link.end].append((link.start, -north, -east))
    placed = dict(known)
    walk(neighbours, placed, list(placed))
    parts = 0
    for name in network.stations:
        if name not in placed and name in neighbours:
            part: dict[str, Place] = {name: (0.0, 0.0)}
            walk(neighbours, part, [name])
            if placed:
                parts += 1
                part = beside(placed, part)
            placed |= part
    return placed, parts


def walk(neighbours: dict[str, list[tuple[str, float, float]]], placed: dict[str, Place], begin: list[str]) -> None:
    """Gives a place to all that hangs together with the stations to begin with."""
    waiting = collections.deque(begin)
    while waiting:
        name = waiting.popleft()
        for other, north, east in neighbours.get(name, []):
            if other not in placed:
                placed[other] = (placed[name][0] + north, placed[name][1] + east)
                waiting.append(other)


def beside(placed: dict[str, Place], part: dict[str, Place]) -> dict[str, Place]:
    """The part moved to the east of what is placed, with its north end at the same height."""
    norths, easts = zip(*placed.values())
    part_norths, part_easts = zip(*part.values())
    gap = max(max(easts) - min(easts), max(norths) - min(norths), 10_000) / 10
    move = max(norths) - max(part_norths), max(easts) + gap - min(part_easts)
    return {name: (north + move[0], east + move[1]) for name, (north, east) in part.items()}
