"""The case: its reader, its nodes and elements, the voltages of its lines, and made cases (docs/FORMATS.md, *The case*
and *The made case*)."""

from __future__ import annotations

import functools
import re
from collections.abc import Sequence
from typing import Any, NamedTuple, Optional, Union

from referee import toml_reader
from referee.toml_reader import TomlTable, TomlValue
from referee.words import Range, Refusal

NAME = re.compile(rb"[A-Za-z0-9_.-]{1,32}\Z")
MOST_ENDS = 256
OHM = Range(1000, 1000000000)
VOLT = Range(1000, 2000000)
SPAN = Range(-1000000, 1000000)
# How many cases are remembered by their bytes: the runs of a trial come back to the same ones.
MOST_REMEMBERED = 4
# The lists, in their order, with how many rows each may have in formats 1 and 2, and in format 3.
LIMITS = {"zone": 256, "substation": 1024, "bus": 3072, "line": 8192, "transformer": 3584}
LIMITS_3 = {"zone": 256, "substation": 4096, "bus": 12288, "line": 24576, "transformer": 8192}
# What a value of the document has to be: a whole number in a range, or what a word names (`is_value`).
ValueKind = Union[Range, str]
# The parts of a line in parts: how many at least and at most, and what each has.
PARTS = Range(2, 16)
PART: dict[bytes, ValueKind] = {b"zone": "name", b"north": SPAN, b"east": SPAN}


class Key(NamedTuple):
    """A key of a row, what its value is, and whether it is required."""

    name: str
    kind: ValueKind
    is_required: bool = True


# The keys of each list in their order.
FIELDS = {
    "zone": [Key("name", "name"), Key("latitude", Range(0, 9000)), Key("beta", Range(1, 150))],
    "substation": [Key("name", "name"), Key("ground", OHM, False)],
    "bus": [Key("name", "name"), Key("substation", "name")],
    "line": [
        Key("name", "name"),
        Key("from", "name"),
        Key("to", "name"),
        Key("zone", "name"),
        Key("resistance", OHM),
        Key("north", SPAN),
        Key("east", SPAN),
        Key("blocked", "boolean", False),
    ],
}
FIELDS_3 = FIELDS | {
    "zone": [
        Key("name", "name"),
        Key("latitude", Range(0, 9000), False),
        Key("beta", Range(1, 150), False),
        Key("scale", Range(1, 1500), False),
    ],
    "line": [
        key._replace(is_required=key.is_required and key.name not in ("zone", "north", "east"))
        for key in FIELDS["line"]
    ]
    + [Key("part", "parts", False)],
    "substation": FIELDS["substation"] + [Key("tolerance", Range(0, 90), False)],
}
# In format 3 the keys of these groups that a row has are those of one group.
Choices = tuple[set[bytes], ...]
CHOICES: dict[str, Choices] = {
    "zone": ({b"latitude", b"beta"}, {b"scale"}),
    "substation": (set(), {b"ground"}, {b"ground", b"tolerance"}),
    "line": ({b"zone", b"north", b"east"}, {b"part"}),
}
# The keys of each kind of transformer behind `kind`, `name` and `high_volts`; all are required.
KINDS: dict[bytes, list[Key]] = {
    b"delta-wye": [Key("high", "name"), Key("high_resistance", OHM)],
    b"wye-wye": [
        Key("high", "name"),
        Key("low", "name"),
        Key("low_volts", VOLT),
        Key("high_resistance", OHM),
        Key("low_resistance", OHM),
    ],
    b"auto": [
        Key("high", "name"),
        Key("low", "name"),
        Key("low_volts", VOLT),
        Key("series_resistance", OHM),
        Key("common_resistance", OHM),
    ],
    b"delta-delta": [],
}
THIRD = [Key("third", "name"), Key("third_volts", VOLT), Key("third_resistance", OHM)]
KINDS_3 = KINDS | {
    b"wye-wye-wye": KINDS[b"wye-wye"] + THIRD,
    b"auto-wye": KINDS[b"auto"] + THIRD,
    b"reactor": KINDS[b"delta-wye"],
}
# The windings of each kind in their order, and the side from which each runs to another side, or to the neutral.
ROLES: dict[str, tuple[str, ...]] = {
    "delta-wye": ("high",),
    "wye-wye": ("high", "low"),
    "auto": ("series", "common"),
    "delta-delta": (),
    "wye-wye-wye": ("high", "low", "third"),
    "auto-wye": ("series", "common", "third"),
    "reactor": ("high",),
}
ENDS = {
    "high": ("high", None),
    "low": ("low", None),
    "series": ("high", "low"),
    "common": ("low", None),
    "third": ("third", None),
}
SIDES = ("high", "low", "third")
# The kinds without an effective current: it is 0 0 wherever it is told.
NO_CURRENT = ("delta-delta", "reactor")
# A transformer is assessed where its first side is rated above this.
ASSESSED_ABOVE = 200000
# What each reference of a list refers to.
REFERENCES = {
    "bus": [("substation", "substation")],
    "line": [("from", "bus"), ("to", "bus"), ("zone", "zone")],
    "transformer": [(side, "bus") for side in SIDES],
}
# Alpha in tenths up to each latitude in degrees.
ALPHA = ((40, 1), (45, 2), (50, 3), (54, 5), (56, 6), (57, 7), (58, 8), (59, 9), (60, 10))
# A row of a list while the case is read: its values by their keys, with texts in place of bytes.
Row = dict[str, Any]
# For each element of a case whether it stands, and for each node whether it is live.
Stand = tuple[bool, ...]
Live = tuple[bool, ...]


class Format(NamedTuple):
    """What a case of a format may say."""

    limits: dict[str, int]
    fields: dict[str, list[Key]]
    choices: dict[str, Choices]
    kinds: dict[bytes, list[Key]]
    has_neutral: bool


FORMATS = {
    1: Format(LIMITS, FIELDS, {}, KINDS, False),
    2: Format(LIMITS, FIELDS, {}, KINDS, True),
    3: Format(LIMITS_3, FIELDS_3, CHOICES, KINDS_3, True),
}


class Zone(NamedTuple):
    """A zone, which has a latitude and a beta, or a scale."""

    name: str
    latitude: Optional[int]
    beta: Optional[int]
    scale: Optional[int] = None

    @property
    def factor(self) -> int:
        """Alpha times beta, in thousandths."""
        if self.latitude is None or self.beta is None:
            assert self.scale is not None
            return self.scale
        return alpha_tenths(self.latitude) * self.beta


class Substation(NamedTuple):
    """A substation, whose ground may have a tolerance of its own, in per cent."""

    name: str
    ground: Optional[int]
    tolerance: Optional[int] = None


class Bus(NamedTuple):
    name: str
    substation: int


class Part(NamedTuple):
    """A part of a line: the place of its zone, and its span."""

    zone: int
    north: int
    east: int


class Line(NamedTuple):
    """A line between two buses; one that isn't in parts is its own only part."""

    name: str
    start: int
    end: int
    resistance: int
    parts: Sequence[Part]
    is_blocked: bool = False


class Transformer(NamedTuple):
    """A transformer: its buses and rated voltages by side, the resistances of its windings by role, and of its neutral
    resistor, where it has one. One with a neutral but no resistor there has a neutral that is blocked."""

    name: str
    kind: str
    buses: dict[str, int]
    volts: dict[str, int]
    resistances: dict[str, int]
    has_neutral: bool = False
    neutral: Optional[int] = None

    @property
    def high_volts(self) -> int:
        return self.volts["high"]

    @property
    def loss_factor(self) -> int:
        """What its current is multiplied by in the loss: its first rated voltage in kV, rounded down."""
        return self.high_volts // 1000

    @property
    def has_current(self) -> bool:
        """Whether it has an effective current."""
        return self.kind not in NO_CURRENT

    @property
    def is_outside(self) -> bool:
        """Whether it is not assessed."""
        return self.high_volts <= ASSESSED_ABOVE or not self.has_current


class Lists(NamedTuple):
    """The five lists of a case, with places in place of references."""

    zones: list[Zone]
    substations: list[Substation]
    buses: list[Bus]
    lines: list[Line]
    transformers: list[Transformer]


class Item(NamedTuple):
    """What can be switched or is an element: a kind, and a place in its list."""

    kind: str
    place: int


# How many micro-ohms an ohm has, and of how many units a row counts.
MICRO_OHMS = 10**6
ROW_UNITS = 2**20


class Element(NamedTuple):
    """An element between two nodes, or from one to earth, and what it is an element of."""

    start: int
    end: Optional[int]
    paths: int
    resistance: int
    kind: str
    place: int
    role: str
    name: str

    @property
    def item(self) -> Item:
        return Item(self.kind, self.place)

    @property
    def weight(self) -> int:
        """Its paths in units of a row, which are divided by its resistance."""
        return self.paths * MICRO_OHMS * ROW_UNITS


class Winding(NamedTuple):
    """The element of a winding, and its weight in the effective current."""

    element: int
    weight: int


class Case:
    """The five lists of a case, and the nodes and elements that they stand for.

    `line_element` and `neutral_element` tell the element of a line and of a neutral resistor, `neutral_node` the
    neutral node of a transformer, and `windings` for each transformer that has an effective current its windings.
    """

    def __init__(self, lists: Lists) -> None:
        self.zones, self.substations, self.buses, self.lines, self.transformers = lists
        self.nodes = [row.name for row in self.substations] + [row.name for row in self.buses]
        self.neutral_node: dict[int, int] = {}
        for place, unit in enumerate(self.transformers):
            if unit.has_neutral:
                self.neutral_node[place] = len(self.nodes)
                self.nodes.append(unit.name)
        self.elements: list[Element] = []
        self.line_element: dict[int, int] = {}
        self.neutral_element: dict[int, int] = {}
        self.add_earthings()
        self.add_lines()
        self.windings = [self.add_windings(place, unit) for place, unit in enumerate(self.transformers)]
        self.add_resistors()

    def add(self, element: Element) -> int:
        """The number of the new element."""
        self.elements.append(element)
        return len(self.elements) - 1

    def of_kind(self, kind: str) -> list[int]:
        """The numbers of the elements of a kind."""
        return [number for number, element in enumerate(self.elements) if element.kind == kind]

    def bus_node(self, bus: int) -> int:
        return len(self.substations) + bus

    def ground_grid(self, unit: Transformer) -> int:
        """The substation of a transformer that has a side."""
        return self.buses[next(iter(unit.buses.values()))].substation

    def add_earthings(self) -> None:
        for place, row in enumerate(self.substations):
            if row.ground is not None:
                self.add(Element(place, None, 1, row.ground, "ground", place, "ground", row.name))

    def add_lines(self) -> None:
        for place, line in enumerate(self.lines):
            if not line.is_blocked:
                start, end = self.bus_node(line.start), self.bus_node(line.end)
                added = self.add(Element(start, end, 3, line.resistance, "line", place, "line", line.name))
                self.line_element[place] = added

    def add_windings(self, place: int, unit: Transformer) -> list[Winding]:
        """Adds the windings of a transformer; it tells those of its effective current."""
        added = []
        for role in ROLES[unit.kind]:
            side, other = ENDS[role]
            start = self.bus_node(unit.buses[side])
            if other is None:
                end = self.neutral_node.get(place, self.ground_grid(unit))
            else:
                end = self.bus_node(unit.buses[other])
            element = Element(start, end, 3, unit.resistances[role], "transformer", place, role, unit.name)
            added.append(Winding(self.add(element), unit.volts[side] - (0 if other is None else unit.volts[other])))
        return added if unit.has_current else []

    def add_resistors(self) -> None:
        for place, unit in enumerate(self.transformers):
            if unit.neutral is not None:
                start, end = self.neutral_node[place], self.ground_grid(unit)
                added = self.add(Element(start, end, 1, unit.neutral, "neutral", place, "neutral", unit.name))
                self.neutral_element[place] = added

    def all_stand(self) -> Stand:
        return (True,) * len(self.elements)

    def line_volts(self, line: int, north: int, east: int, zone: Optional[int] = None) -> int:
        """The voltage of a line in nanovolts, in a field in mV/km in one zone, or in all zones for None."""
        return sum(
            (north * part.north + east * part.east) * self.zones[part.zone].factor
            for part in self.lines[line].parts
            if zone is None or part.zone == zone
        )

    def element_volts(self, zone: Optional[int], north: int, east: int) -> list[int]:
        """The voltage of each element in a field in one zone, or in all zones for None."""
        volts = [0] * len(self.elements)
        for line, element in self.line_element.items():
            volts[element] = self.line_volts(line, north, east, zone)
        return volts

    def zones_of_lines(self) -> list[int]:
        """The zones in which a part of a line that has an element lies, in their order."""
        return sorted({part.zone for line in self.line_element for part in self.lines[line].parts})


def alpha_tenths(latitude: int) -> int:
    """Alpha in tenths at a latitude in hundredths of a degree."""
    return next((tenths for degrees, tenths in ALPHA if latitude <= degrees * 100), 10)


def refusal(rule: str) -> Refusal:
    return Refusal(5, "gicstudy: case: " + rule)


def is_value(value: TomlValue, kind: ValueKind) -> bool:
    """Whether a value of the document is of a kind and in its range."""
    if isinstance(kind, Range):
        return type(value) is int and kind.has(value)
    if kind == "name":
        return type(value) is bytes and NAME.match(value) is not None
    if kind == "boolean":
        return type(value) is bool
    if kind == "neutral":
        return value == b"blocked" if type(value) is bytes else is_value(value, OHM)
    if kind == "parts":
        return type(value) is list and are_parts(value)
    return kind == "any"


def is_part(value: TomlValue) -> bool:
    return (
        isinstance(value, dict)
        and value.keys() == PART.keys()
        and all(is_value(value[key], kind) for key, kind in PART.items())
    )


def are_parts(values: list[TomlValue]) -> bool:
    """Whether these are the parts of a line, but for the names of zones that aren't there."""
    if not PARTS.has(len(values)) or not all(is_part(part) for part in values):
        return False
    parts: list[Row] = [plain(part) for part in values]
    return all(sum(abs(part[way]) for part in parts) <= SPAN.most for way in ("north", "east"))


def transformer_fields(row: TomlTable, rules: Format, where: str) -> list[Key]:
    """The keys of a transformer's row, which are those of its kind."""
    if b"kind" not in row:
        raise refusal(f"key in {where}")
    kind = row[b"kind"]
    if type(kind) is not bytes or kind not in rules.kinds:
        raise refusal(f"value in {where} field kind")
    keys = [Key("kind", "any"), Key("name", "name"), Key("high_volts", VOLT), *rules.kinds[kind]]
    has_neutral = rules.has_neutral and kind != b"delta-delta"
    return keys + ([Key("neutral", "neutral", False)] if has_neutral else [])


def has_one_choice(row: TomlTable, choices: Choices) -> bool:
    """Whether the keys of these groups that the row has are those of one group."""
    return row.keys() & set().union(*choices) in choices


def plain(value: TomlValue) -> Any:
    """A value of the document with texts in place of bytes."""
    if isinstance(value, dict):
        return {key.decode(): plain(item) for key, item in value.items()}
    if isinstance(value, list):
        return [plain(item) for item in value]
    return value.decode() if isinstance(value, bytes) else value


def read_row(name: str, number: int, value: TomlValue, rules: Format) -> Row:
    """The table of one row."""
    where = f"{name} row {number}"
    if not isinstance(value, dict):
        raise refusal(f"key in {where}")
    keys = transformer_fields(value, rules, where) if name == "transformer" else rules.fields[name]
    names = {key.name.encode() for key in keys}
    lacks = any(key.is_required and key.name.encode() not in value for key in keys)
    if lacks or any(key not in names for key in value):
        raise refusal(f"key in {where}")
    if name in rules.choices and not has_one_choice(value, rules.choices[name]):
        raise refusal(f"key in {where}")
    for key in keys:
        if key.name.encode() in value and not is_value(value[key.name.encode()], key.kind):
            raise refusal(f"value in {where} field {key.name}")
    row: Row = plain(value)
    return row


def read_rows(document: TomlTable) -> dict[str, list[Row]]:
    """The rows of each list, each looked at by itself."""
    allowed = {b"format"} | {name.encode() for name in LIMITS}
    if any(key not in allowed for key in document) or b"format" not in document:
        raise refusal("key in case row 0")
    format_number = document[b"format"]
    if type(format_number) is not int or format_number not in FORMATS:
        raise refusal("value in case row 0 field format")
    rules, rows = FORMATS[format_number], {}
    for name, most in rules.limits.items():
        items = document.get(name.encode(), [])
        if not isinstance(items, list):
            raise refusal(f"key in {name} row 0")
        if len(items) > most:
            raise refusal(f"too many in {name}")
        rows[name] = [read_row(name, number, row, rules) for number, row in enumerate(items, 1)]
    return rows


def refuse_repeated_names(rows: dict[str, list[Row]]) -> None:
    seen = set()
    for name in LIMITS:
        for number, row in enumerate(rows[name], 1):
            if row["name"] in seen:
                raise refusal(f"duplicate name in {name} row {number}")
            seen.add(row["name"])


def resolve_references(rows: dict[str, list[Row]]) -> None:
    """Puts places in place of names."""
    places = {name: {row["name"]: place for place, row in enumerate(rows[name])} for name in LIMITS}

    def resolve(table: Row, key: str, target: str, told: str) -> None:
        if table[key] not in places[target]:
            raise refusal(f"unknown name in {told}")
        table[key] = places[target][table[key]]

    for name, references in REFERENCES.items():
        for number, row in enumerate(rows[name], 1):
            for key, target in references:
                if key in row:
                    resolve(row, key, target, f"{name} row {number} field {key}")
            for part in row.get("part", []):
                resolve(part, "zone", "zone", f"{name} row {number} field part")


def part_of(row: Row) -> Part:
    return Part(row["zone"], row["north"], row["east"])


def line_of(row: Row) -> Line:
    parts = [part_of(part) for part in row.get("part", [row])]
    return Line(row["name"], row["from"], row["to"], row["resistance"], parts, row.get("blocked", False))


def transformer_of(row: Row) -> Transformer:
    buses = {side: row[side] for side in SIDES if side in row}
    volts = {side: row[side + "_volts"] for side in SIDES if side + "_volts" in row}
    resistances = {role: row[role + "_resistance"] for role in ROLES[row["kind"]]}
    neutral = row.get("neutral")
    resistor = neutral if isinstance(neutral, int) else None
    return Transformer(row["name"], row["kind"], buses, volts, resistances, neutral is not None, resistor)


def lists_of(rows: dict[str, list[Row]]) -> Lists:
    """The lists of rows whose references are places."""
    return Lists(
        [Zone(row["name"], row.get("latitude"), row.get("beta"), row.get("scale")) for row in rows["zone"]],
        [Substation(row["name"], row.get("ground"), row.get("tolerance")) for row in rows["substation"]],
        [Bus(row["name"], row["substation"]) for row in rows["bus"]],
        [line_of(row) for row in rows["line"]],
        [transformer_of(row) for row in rows["transformer"]],
    )


def refuse_wrong_sides(lists: Lists) -> None:
    for number, line in enumerate(lists.lines, 1):
        if line.start == line.end:
            raise refusal(f"same ends in line row {number}")
    units = list(enumerate(lists.transformers, 1))
    for number, unit in units:
        if len(set(unit.buses.values())) < len(unit.buses):
            raise refusal(f"same ends in transformer row {number}")
    for number, unit in units:
        if len({lists.buses[bus].substation for bus in unit.buses.values()}) > 1:
            raise refusal(f"apart in transformer row {number}")
    for number, unit in units:
        if max(unit.volts.values()) > unit.high_volts:
            raise refusal(f"voltage order in transformer row {number}")


def refuse_great_degrees(case: Case) -> None:
    ends = [0] * len(case.nodes)
    for element in case.elements:
        ends[element.start] += 1
        if element.end is not None:
            ends[element.end] += 1
    for node, count in enumerate(ends):
        if count > MOST_ENDS:
            raise refusal("degree at node " + case.nodes[node])


@functools.lru_cache(MOST_REMEMBERED)
def read_case(content: bytes) -> Case:
    """The case that the bytes are, or a Refusal by the first rule that they break."""
    try:
        document = toml_reader.parse(content)
    except toml_reader.Refused:
        raise refusal("not toml") from None
    rows = read_rows(document)
    refuse_repeated_names(rows)
    resolve_references(rows)
    lists = lists_of(rows)
    refuse_wrong_sides(lists)
    case = Case(lists)
    refuse_great_degrees(case)
    return case


class Draws:
    """The generator of made cases."""

    def __init__(self, seed: int) -> None:
        self.state = seed

    def below(self, limit: int) -> int:
        self.state = (1664525 * self.state + 1013904223) % 2**32
        return self.state // 65536 % limit


def make_case(seed: int, size: int) -> Case:
    """The made case of a seed and a number of sites."""
    draws = Draws(seed)
    lists = Lists([Zone("Z", 6000, 100)], [], [], [], [])
    for place in range(size):
        lists.substations.append(Substation(f"S{place}", 100000 + 1000 * draws.below(900)))
        lists.buses.append(Bus(f"B{place}", place))
        winding = 100000 + 1000 * draws.below(400)
        lists.transformers.append(
            Transformer(f"T{place}", "delta-wye", {"high": place}, {"high": 345000}, {"high": winding})
        )
        if place:
            start = place - 1 - draws.below(min(place, 8))
            resistance = 1000000 + 1000 * draws.below(4000)
            north, east = (100 * (draws.below(2001) - 1000) for _ in range(2))
            lists.lines.append(Line(f"L{place}", start, place, resistance, [Part(0, north, east)]))
    return Case(lists)
