"""A case as the GMD data of PowerModels: the network of direct currents that the program lists, with the voltages of its lines
in one field.

All resistances are those of the three phases together, in ohm, grounds are siemens, and voltages volts. A branch carries
(v_from + br_v - v_to) / br_r.
"""

import dataclasses
import json
import tomllib
from collections.abc import Mapping
from typing import Any

from .findings import Finding, Refused, refuse
from .losses import bus_numbers
from .network import read_degrees
from .powermodels_form import CONFIGS, FIELD, WINDINGS
from .progress import Progress
from .reports import Element, Elements, Volts
from .study import Request, Runs

Row = dict[str, int | float | str]
Table = dict[str, Row]

# A third winding is a branch alone.
THREE_WINDINGS = {"wye-wye-wye": "wye-wye", "auto-wye": "auto"}
NONE = -1


@dataclasses.dataclass(frozen=True)
class Asked:
    """The field in mV/km, and the tables beside the case, where there are any."""

    north: int
    east: int
    names: str | None
    places: str | None


@dataclasses.dataclass(frozen=True)
class Data:
    """The tables, each row by its index from 1 on."""

    gmd_bus: Table
    gmd_branch: Table
    branch_gmd: Table
    bus_gmd: Table
    field: tuple[int, int]  # to the north and to the east, in mV/km

    @property
    def text(self) -> str:
        tables = dataclasses.asdict(self)
        north, east = tables.pop("field")
        return json.dumps(tables | {FIELD: {"north": north, "east": east}}, indent=1) + "\n"


def indexed(rows: list[Row]) -> Table:
    return {str(place): {"index": place, **row} for place, row in enumerate(rows, 1)}


def ohms(element: Element) -> float:
    """The resistance of all phases of an element together."""
    return element.micro_ohm / element.times / 1e6


def node_rows(elements: list[Element], numbers: Mapping[str, int]) -> list[Row]:
    """The nodes at which elements end, with what leads from each to the earth."""
    grounds: dict[str, float] = {}
    for element in elements:
        for node in (element.start, element.end):
            if node != "*":
                grounds.setdefault(node, 0.0)
        if element.end == "*":
            grounds[element.start] += 1 / ohms(element)
    return [
        {"name": name, "status": 1, "g_gnd": siemens, "parent_index": numbers.get(name, NONE)}
        for name, siemens in grounds.items()
    ]


def data_of(
    case: Mapping[str, list[dict[str, Any]]],
    elements: list[Element],
    volts: Mapping[str, int],
    numbers: Mapping[str, int],
    places: Mapping[str, tuple[float, float]],
    field: tuple[int, int],
) -> Data:
    nodes = node_rows(elements, numbers)
    index = {str(row["name"]): place for place, row in enumerate(nodes, 1)}
    branches = [element for element in elements if element.end != "*"]
    rows: list[Row] = [
        {
            "name": f"{one.name} {one.role}",
            "f_bus": index[one.start],
            "t_bus": index[one.end],
            "br_status": 1,
            "br_r": ohms(one),
            "br_v": volts[one.name] / 1e9 if one.role == "line" else 0.0,
            "parent_index": NONE,
        }
        for one in branches
    ]
    of_winding = {(one.name, one.role): place for place, one in enumerate(branches, 1)}
    units: list[Row] = []
    for unit in case.get("transformer", []):
        kind = THREE_WINDINGS.get(unit["kind"], unit["kind"])
        if kind in CONFIGS:
            row: Row = {"name": unit["name"], "type": "xfmr", "config": CONFIGS[kind]}
            row |= {key: of_winding.get((unit["name"], role), NONE) for role, key in WINDINGS.items()}
            row |= {f"{end[:2]}_kv": unit[f"{end}_volts"] / 1000 for end in ("high", "low") if f"{end}_volts" in unit}
            ends = {"hi_bus": unit.get("high", ""), "lo_bus": unit.get("low", "")}
            units.append(row | {key: numbers.get(bus, NONE) for key, bus in ends.items()})
    at = [
        (bus, places[bus["substation"]]) for bus in case.get("bus", []) if bus["name"] in index and bus["substation"] in places
    ]
    named = [(bus["name"], place) for bus, place in at]
    where: list[Row] = [{"name": name, "parent_index": numbers.get(name, NONE), "lat": lat, "lon": lon} for name, (lat, lon) in named]
    return Data(indexed(nodes), indexed(rows), indexed(units), indexed(where), field)


def make_data(request: Request, asked: Asked) -> Data:
    """The data of a case that the program takes, of its `list` and its `volts`."""
    findings: list[Finding] = []
    with Progress(2) as progress:
        runs = Runs(request, progress)
        elements = runs.report(Elements, "list", "list").elements
        lines = runs.report(Volts, "volts", "volts", f"--north={asked.north}", f"--east={asked.east}").lines
    request.program.look_for_change()
    try:
        case = tomllib.loads(request.data("case").decode("utf-8-sig"))
    except (tomllib.TOMLDecodeError, UnicodeDecodeError):
        words = "it is in TOML 1.1, which the desk doesn't read; write the case without what only TOML 1.1 has"
        raise refuse(request.case, words) from None
    numbers = {} if asked.names is None else bus_numbers(asked.names, request.data("names"), findings)
    stations = [row["name"] for row in case.get("substation", [])]
    places = {} if asked.places is None else read_degrees(asked.places, stations, findings, request.data("places"))
    if findings:
        raise Refused(findings)
    return data_of(case, elements, lines, numbers, places, (asked.north, asked.east))
