"""The network that a case stands for: its nodes, its elements, what a field induces in them, and which of them stand.

Both checkers look at a network by it. It is written from docs/FORMATS.md (*The case*, *The report of `list`*, *The
report of `volts`*, *Switchings*), for cases that break no rule of `rules.py`.
"""

from collections import Counter, defaultdict
from collections.abc import Iterable, Iterator
from fractions import Fraction
from functools import cached_property
from typing import NamedTuple

from rules import Case, Record, Row

Node = str | None  # a node by its name: a substation, a bus, or the transformer whose neutral it is; None is earth
EARTH: Node = None  # remote earth, where grounds end; it is no node of a case
ZERO = Fraction(0)
MOST_ENDS = 256  # elements that may end at one node
# Latitudes in hundredths of a degree, each with the scaling alpha, in tenths, of a zone up to there.
ALPHA = [(4000, 1), (4500, 2), (5000, 3), (5400, 5), (5600, 6), (5700, 7), (5800, 8), (5900, 9), (9000, 10)]


class Element(NamedTuple):
    """A ground, a line, a winding or a neutral device: a conductor from one node to another one, or to earth."""

    label: str  # how its line in a report of `field` begins
    item: str  # what is switched with it: a row by its name, or a neutral resistor by its label
    start: Node
    end: Node
    conductance: Fraction  # of all its parallel paths, in siemens; 0 if it is blocked, and then it never stands
    induced: tuple[int, int] = (0, 0)  # its nanovolts in a field of 1 mV/km to the north, and to the east
    volts: int = 0  # of a winding: how much its current counts in the effective one

    def voltage(self, north: int, east: int) -> int:
        """What a field in mV/km induces in it, in nanovolts; it drives current from its start to its end."""
        return north * self.induced[0] + east * self.induced[1]


class Branch(NamedTuple):
    """An element as it leaves one of the nodes at which it ends."""

    element: Element
    other: Node  # the other end
    way: int  # 1 at the start of the element, -1 at its end

    def voltage(self, north: int, east: int) -> int:
        """What a field in mV/km induces in it, counted away from the node, in nanovolts."""
        return self.way * self.element.voltage(north, east)


class Role(NamedTuple):
    """A winding that a transformer may have."""

    name: str
    start: str  # the side at whose bus it begins
    end: str = ""  # the side at whose bus it ends, where that isn't the neutral


ROLES = (Role("high", "high"), Role("series", "high", "low"), Role("low", "low"), Role("common", "low"),
         Role("third", "third"))
SIDES = ("high", "low", "third")


# Nodes and elements ---------------------------------------------------------------------------------------------------

def nodes_of(case: Case) -> list[str]:
    """The substations, the buses, and the neutral nodes in the order of their transformers."""
    neutrals = [unit for unit in case["transformer"] if "neutral" in unit]
    return [row["name"] for row in [*case["substation"], *case["bus"], *neutrals]]


def elements_of(case: Case) -> list[Element]:
    """All elements, in the order of their lines in a report of `field`."""
    station_of = {bus["name"]: bus["substation"] for bus in case["bus"]}
    units = [(unit, station_of[buses[0]]) for unit in case["transformer"] if (buses := buses_of(unit))]
    windings = [winding for unit, station in units for winding in windings_of(unit, station)]
    return [*grounds_of(case), *lines_of(case), *windings, *neutral_devices(units)]


def buses_of(unit: Row) -> list[str]:
    """The buses of a transformer's sides, the high one first."""
    return [unit[side] for side in SIDES if side in unit]


def grounds_of(case: Case) -> Iterator[Element]:
    """The grounds of substations."""
    for row in case["substation"]:
        if "ground" in row:
            yield Element(f"ground {row['name']}", row["name"], row["name"], EARTH, siemens(1, row["ground"]))


def lines_of(case: Case) -> Iterator[Element]:
    """The lines, with what is induced in all parts of each."""
    factor = {zone["name"]: factor_of(zone) for zone in case["zone"]}
    for row in case["line"]:
        parts = row.get("part", [row])
        north, east = (sum(part[way] * factor[part["zone"]] for part in parts) for way in ("north", "east"))
        conductance = ZERO if row.get("blocked", False) else siemens(3, row["resistance"])
        yield Element(f"line {row['name']}", row["name"], row["from"], row["to"], conductance, (north, east))


def windings_of(unit: Row, station: str) -> Iterator[Element]:
    """The windings of a transformer in this substation."""
    neutral = unit["name"] if "neutral" in unit else station
    for role in ROLES:
        if resistance := unit.get(f"{role.name}_resistance"):
            end = unit[role.end] if role.end else neutral
            volts = unit[f"{role.start}_volts"] - (unit[f"{role.end}_volts"] if role.end else 0)
            label = f"winding {unit['name']} {role.name}"
            yield Element(label, unit["name"], unit[role.start], end, siemens(3, resistance), volts=volts)


def neutral_devices(units: list[tuple[Row, str]]) -> Iterator[Element]:
    """The neutral resistors of transformers, and what blocks a neutral; each with its substation."""
    for unit, station in units:
        if device := unit.get("neutral"):
            label = neutral_item(unit["name"])
            yield Element(label, label, unit["name"], station, ZERO if device == "blocked" else siemens(1, device))


def siemens(paths: int, resistance: int) -> Fraction:
    """The conductance of parallel paths (one a phase, or one for all), each of this resistance in micro-ohm."""
    return Fraction(paths * 10**6, resistance)


def factor_of(zone: Row) -> int:
    """Alpha times beta of a zone, in thousandths."""
    scale: int = zone["scale"] if "scale" in zone else alpha(zone["latitude"]) * zone["beta"]
    return scale


def alpha(latitude: int) -> int:
    """The scaling by geomagnetic latitude, in tenths. The latitude is in hundredths of a degree."""
    return next(tenths for most, tenths in ALPHA if latitude <= most)


def crowded_node(case: Case, elements: list[Element]) -> Node:
    """The first node at which too many elements end, whether they are open or not; none if there is none."""
    ends = Counter(node for element in elements if element.conductance for node in (element.start, element.end))
    return next((node for node in nodes_of(case) if ends[node] > MOST_ENDS), None)


# What stands ----------------------------------------------------------------------------------------------------------

def neutral_item(name: str) -> str:
    """The item that the neutral resistor of a transformer is."""
    return f"neutral {name}"


def open_items(records: Iterable[Record]) -> set[str]:
    """The items that switchings leave open. Every row is in force, and the last one that names an item decides."""
    found: set[str] = set()
    for _, name, action in records:
        item = neutral_item(name) if action in ("block", "unblock") else name
        found = found | {item} if action in ("open", "block") else found - {item}
    return found


class Network:
    """The elements that stand in a case while these items are open."""

    def __init__(self, case: Case, elements: list[Element], switched_off: set[str]) -> None:
        self.case, self.elements, self.switched_off = case, elements, switched_off
        self.nodes = nodes_of(case)  # in node order
        self.of_item: dict[str, list[Element]] = defaultdict(list)  # the standing elements
        self.leaving: dict[Node, list[Branch]] = defaultdict(list)  # by a live node, or earth
        for element in elements:
            if element.conductance and element.item not in switched_off:
                self.of_item[element.item].append(element)
                self.leaving[element.start].append(Branch(element, element.end, 1))
                self.leaving[element.end].append(Branch(element, element.start, -1))

    @cached_property
    def islands(self) -> list[list[Node]]:
        """The live nodes; those of one list are joined by other ways than earth."""
        found: list[list[Node]] = []
        seen = {EARTH}
        for node in self.nodes:
            if node in self.leaving and node not in seen:
                found.append(self.island(node, seen))
        return found

    def island(self, node: Node, seen: set[Node]) -> list[Node]:
        """The nodes that are joined with this one, which are seen then."""
        seen.add(node)
        found = [node]
        for one in found:  # it grows meanwhile
            more = {branch.other for branch in self.leaving[one]} - seen
            seen |= more
            found += more
        return found

    @cached_property
    def unearthed(self) -> Node:
        """The first live node from which no chain of standing elements leads to earth; none if there is none."""
        grounded = {branch.other for branch in self.leaving.get(EARTH, [])}
        return next((island[0] for island in self.islands if grounded.isdisjoint(island)), None)
