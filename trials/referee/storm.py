"""Storms and switchings, and what stands under switchings (docs/FORMATS.md, *The storm* and *Switchings*)."""

from __future__ import annotations

import re
from collections.abc import Iterator, Mapping, Sequence
from typing import NamedTuple, Optional

from referee.case import Case, Item, Stand
from referee.words import RANGES, Range, Refusal, read_decimal

MOST_STORM_ROWS = 20000
MOST_SWITCHINGS = 4096
TIME = Range(0, 4294967295)
FIELD = RANGES["north"]
COMMA, QUOTE = b",", b'"'
LINE_ENDS = re.compile(rb"[\n\r]*")
PLAIN = re.compile(rb"[^,\n\r]*")


class Records:
    """The records of a text: fields between commas, quotes doubled within quotes, nothing trimmed, no blank record."""

    def __init__(self, content: bytes) -> None:
        self.content = content[3:] if content[:3] == b"\xef\xbb\xbf" else content
        self.place = 0

    def next_byte(self) -> bytes:
        return self.content[self.place : self.place + 1]

    def take(self, pattern: re.Pattern[bytes]) -> bytes:
        """The bytes from here on that are of a pattern, which no bytes are of too."""
        taken = pattern.match(self.content, self.place)
        assert taken is not None
        self.place = taken.end()
        return taken.group()

    def quoted(self) -> bytes:
        """What stands within quotes, up to the closing one or the end of the text."""
        parts = []
        self.place += 1
        while True:
            end = self.content.find(QUOTE, self.place)
            if end < 0:
                parts.append(self.content[self.place :])
                self.place = len(self.content)
                return b"".join(parts)
            parts.append(self.content[self.place : end])
            self.place = end + 1
            if self.next_byte() != QUOTE:
                return b"".join(parts)
            parts.append(QUOTE)
            self.place += 1

    def field(self) -> bytes:
        """A field in quotes, or none, and what stands behind it; a quote there is a byte as others are."""
        quoted = self.quoted() if self.next_byte() == QUOTE else b""
        return quoted + self.take(PLAIN)

    def __iter__(self) -> Iterator[list[bytes]]:
        while True:
            self.take(LINE_ENDS)
            if not self.next_byte():
                return
            fields = [self.field()]
            while self.next_byte() == COMMA:
                self.place += 1
                fields.append(self.field())
            yield fields


class StormRow(NamedTuple):
    """A row of a storm; its zone is a place, or None for all zones."""

    time: int
    zone: Optional[int]
    north: int
    east: int


class Step(NamedTuple):
    """The rows of one time."""

    time: int
    rows: list[StormRow]


class Storm(NamedTuple):
    by_zone: bool
    steps: list[Step]


def storm_refusal(rule: str) -> Refusal:
    return Refusal(6, "gicstudy: storm: " + rule)


def read_storm_row(
    number: int, record: list[bytes], by_zone: bool, zones: Mapping[bytes, Optional[int]], latest: Optional[int]
) -> StormRow:
    """One row behind a row of the time `latest`, or None for the first row."""
    if len(record) != (4 if by_zone else 3):
        raise storm_refusal(f"shape in row {number}")
    values = []
    for key, text, bounds in (("time", record[0], TIME), ("north", record[-2], FIELD), ("east", record[-1], FIELD)):
        value = read_decimal(text, bounds)
        if value is None:
            raise storm_refusal(f"number in row {number} field {key}")
        values.append(value)
    time, north, east = values
    if by_zone and record[1] not in zones:
        raise storm_refusal(f"zone in row {number}")
    if latest is not None and (time < latest if by_zone else time <= latest):
        raise storm_refusal(f"order in row {number}")
    return StormRow(time, zones[record[1]] if by_zone else None, north, east)


def read_storm(content: bytes, case: Case) -> Storm:
    """The storm that the bytes are, or a Refusal by the first rule that they break."""
    records = iter(Records(content))
    head = next(records, None)
    by_zone = head == [b"time", b"zone", b"north", b"east"]
    if not by_zone and head != [b"time", b"north", b"east"]:
        raise storm_refusal("shape in row 0")
    zones: dict[bytes, Optional[int]] = {zone.name.encode(): place for place, zone in enumerate(case.zones)}
    zones[b"*"] = None
    steps: list[Step] = []
    for number, record in enumerate(records, 1):
        if number > MOST_STORM_ROWS:
            raise storm_refusal("too many")
        row = read_storm_row(number, record, by_zone, zones, steps[-1].time if steps else None)
        if not steps or steps[-1].time != row.time:
            steps.append(Step(row.time, []))
        steps[-1].rows.append(row)
    if not steps:
        raise storm_refusal("empty")
    return Storm(by_zone, steps)


class Switching(NamedTuple):
    """From `time` on the item is open or closed."""

    time: int
    item: Item
    opens: bool


class Action(NamedTuple):
    """Whether an action opens, and the items that it may have by their names."""

    opens: bool
    items: dict[bytes, Item]


def switch_refusal(rule: str) -> Refusal:
    return Refusal(7, "gicstudy: switch: " + rule)


def devices(case: Case) -> list[tuple[Item, str]]:
    """Each line and each transformer with its name."""
    lines = [(Item("line", place), row.name) for place, row in enumerate(case.lines)]
    return lines + [(Item("transformer", place), row.name) for place, row in enumerate(case.transformers)]


def switchable(case: Case) -> dict[bytes, Action]:
    """The actions by their words."""
    items = {case.elements[number].name.encode(): case.elements[number].item for number in case.of_kind("ground")}
    items |= {name.encode(): item for item, name in devices(case)}
    resistors = {case.elements[number].name.encode(): case.elements[number].item for number in case.of_kind("neutral")}
    return {
        b"open": Action(True, items),
        b"close": Action(False, items),
        b"block": Action(True, resistors),
        b"unblock": Action(False, resistors),
    }


def read_switchings(content: bytes, case: Case) -> list[Switching]:
    """The switchings that the bytes are, or a Refusal by the first rule that they break."""
    records = iter(Records(content))
    if next(records, None) != [b"time", b"item", b"action"]:
        raise switch_refusal("shape in row 0")
    actions = switchable(case)
    switchings: list[Switching] = []
    for number, record in enumerate(records, 1):
        if number > MOST_SWITCHINGS:
            raise switch_refusal("too many")
        if len(record) != 3:
            raise switch_refusal(f"shape in row {number}")
        time = read_decimal(record[0], TIME)
        if time is None:
            raise switch_refusal(f"number in row {number}")
        if switchings and time < switchings[-1].time:
            raise switch_refusal(f"order in row {number}")
        if record[2] not in actions:
            raise switch_refusal(f"action in row {number}")
        opens, items = actions[record[2]]
        if record[1] not in items:
            raise switch_refusal(f"item in row {number}")
        switchings.append(Switching(time, items[record[1]], opens))
    return switchings


def standing(case: Case, switchings: Sequence[Switching], taken_out: Optional[Item] = None) -> Stand:
    """Whether each element stands; `taken_out` is an item that is open besides."""
    is_open = {switching.item: switching.opens for switching in switchings}
    if taken_out is not None:
        is_open[taken_out] = True
    return tuple(not is_open.get(element.item, False) for element in case.elements)
