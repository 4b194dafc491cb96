"""The rules that the files of a network keep: one table of them, and the questions whether a row keeps them.

Both checkers read a case and switchings by it. What is told of the first rule that is broken, and in which order they
are looked at, is here as the program has it (docs/FORMATS.md, *The case* and *Switchings*); `recheck.py` tells it so.
`judge.py` tells the same rules row by row and in words of its own, which stand in `reasons.py`.
"""

import csv
import functools
import io
import re
import tomllib
from collections import Counter
from collections.abc import Iterator
from typing import Any, NamedTuple

Document = dict[str, Any]  # what a text of TOML says
Row = dict[str, Any]  # a row of a list of a case
Case = dict[str, list[Row]]  # the five lists of a case
Record = list[str]  # a row of switchings: a time, the name of an item, and an action
USAGE, UNREADABLE, CANNOT_WRITE, CASE, SWITCH, TOO_LONG, OUT_OF_MEMORY, REFUSED = 2, 3, 4, 5, 7, 10, 11, 13  # statuses
LONGEST = 2**24  # bytes of a file
MOST_SWITCHINGS = 4096
LATEST = 2**32 - 1  # seconds
NAME = re.compile("[A-Za-z0-9_.-]{1,32}")


class Refused(Exception):
    """A file breaks a rule: the status, and the words that say which rule, and where."""

    def __init__(self, status: int, words: str) -> None:
        super().__init__(words)
        self.status = status


def bytes_of(name: str, unreadable: str, too_long: str) -> bytes:
    """All bytes of a file, or one of the two lines."""
    try:
        with open(name, "rb") as file:
            found = file.read(LONGEST + 1)
    except (OSError, ValueError):
        raise Refused(UNREADABLE, unreadable) from None
    if len(found) > LONGEST:
        raise Refused(TOO_LONG, too_long)
    return found


# The table ------------------------------------------------------------------------------------------------------------

class Reference(NamedTuple):
    """The name of a row of a list."""

    of_list: str


Allowed = range | type[object] | Reference  # a number of a range, a value of a type, or a reference
Fields = dict[str, Allowed]
MOST_ROWS = {"zone": 256, "substation": 1024, "bus": 3072, "line": 8192, "transformer": 3584}
MOST_ROWS_3 = {"zone": 256, "substation": 4096, "bus": 12288, "line": 24576, "transformer": 8192}  # in format 3
OHMS, VOLTS, METRES = range(1000, 10**9 + 1), range(1000, 2 * 10**6 + 1), range(-(10**6), 10**6 + 1)
PARTS = range(2, 17)  # how many a line in parts has
BUS, ZONE = Reference("bus"), Reference("zone")
UNIT: Fields = {"name": str, "kind": str, "high_volts": VOLTS}
ONE_SIDE: Fields = {**UNIT, "high": BUS, "high_resistance": OHMS, "neutral": OHMS}
TWO_SIDES: Fields = {**UNIT, "high": BUS, "low": BUS, "low_volts": VOLTS, "neutral": OHMS}
THREE_SIDES: Fields = {**TWO_SIDES, "third": BUS, "third_volts": VOLTS, "third_resistance": OHMS}
WYE: Fields = {"high_resistance": OHMS, "low_resistance": OHMS}
AUTO: Fields = {"series_resistance": OHMS, "common_resistance": OHMS}
KINDS: dict[str, Fields] = {
    "delta-wye": ONE_SIDE,
    "wye-wye": {**TWO_SIDES, **WYE},
    "auto": {**TWO_SIDES, **AUTO},
    "delta-delta": UNIT,
    "wye-wye-wye": {**THREE_SIDES, **WYE},
    "auto-wye": {**THREE_SIDES, **AUTO},
    "reactor": ONE_SIDE,
}
PART: Fields = {"zone": ZONE, "north": METRES, "east": METRES}
# What a row of a list, or a transformer of a kind, has under each key. `neutral` may also be the word `blocked`.
FIELDS: dict[str, Fields] = KINDS | {
    "zone": {"name": str, "latitude": range(9001), "beta": range(1, 151), "scale": range(1, 1501)},
    "substation": {"name": str, "ground": OHMS, "tolerance": range(91)},
    "bus": {"name": str, "substation": Reference("substation")},
    "line": {"name": str, "from": BUS, "to": BUS, "zone": ZONE, "resistance": OHMS, "north": METRES, "east": METRES,
             "blocked": bool, "part": list},
}
# The order in which the program looks at the fields of a transformer.
ORDER = ("kind", "name", "high_volts", "high", "low", "low_volts", "high_resistance", "low_resistance",
         "series_resistance", "common_resistance", "third", "third_volts", "third_resistance", "neutral")
# The fields of these groups that a row has are those of one group.
CHOICES: dict[str, list[set[str]]] = {
    "zone": [{"latitude", "beta"}, {"scale"}],
    "substation": [set(), {"ground"}, {"ground", "tolerance"}],
    "line": [{"zone", "north", "east"}, {"part"}],
}
OPTIONAL = {"ground", "tolerance", "blocked", "neutral"}.union(*CHOICES["zone"], *CHOICES["line"])
# The first format that has a key or a kind, where it isn't the first one.
SINCE = {"neutral": 2, "scale": 3, "part": 3, "tolerance": 3, "wye-wye-wye": 3, "auto-wye": 3, "reactor": 3}


# A row by itself ------------------------------------------------------------------------------------------------------

def is_format(value: Any) -> bool:
    """Whether this is a format of cases."""
    return type(value) is int and value in (1, 2, 3)


def most_rows(of_list: str, version: int) -> int:
    """How many rows a list has at most."""
    return (MOST_ROWS_3 if version == 3 else MOST_ROWS)[of_list]


def is_kind(value: Any, version: int) -> bool:
    """Whether a format has this kind of transformer."""
    return type(value) is str and value in KINDS and SINCE.get(value, 1) <= version


@functools.cache
def fields_of(of: str, version: int) -> Fields:
    """What a row of a list, or a transformer of a kind, may have in a format."""
    return {field: allowed for field, allowed in FIELDS[of].items() if SINCE.get(field, 1) <= version}


def has_one_choice(of: str, row: Row) -> bool:
    """Whether the fields of these groups that a row has are those of one group."""
    choices = CHOICES.get(of, [set()])
    return row.keys() & set().union(*choices) in choices


def is_of_type(value: Any, field: str, allowed: Allowed) -> bool:
    """Whether a field may have such a value, a list or a name being of any form."""
    if isinstance(allowed, range):
        return (type(value) is int and value in allowed) or (field == "neutral" and value == "blocked")
    return type(value) is (str if isinstance(allowed, Reference) else allowed)


def is_value(value: Any, field: str, allowed: Allowed) -> bool:
    """Whether a field may have this value."""
    if not is_of_type(value, field, allowed):
        return False
    if allowed is list:
        return not any(part_reasons(value))
    return isinstance(allowed, range) or allowed is bool or NAME.fullmatch(value) is not None


def part_reasons(parts: list[Any]) -> Iterator[str]:
    """What is wrong with the parts of a line."""
    if len(parts) not in PARTS:
        yield "too few parts, or too many"
    for part in parts:
        if type(part) is not dict or part.keys() != PART.keys():
            yield "another part than it may have"
        for field, allowed in PART.items():
            if not is_of_type(part[field], field, allowed):
                yield f"part: {field} is not what it may be"
        if not NAME.fullmatch(part["zone"]):
            yield "part: no name of a zone"
    for field in ("north", "east"):
        if sum(abs(part[field]) for part in parts) > METRES[-1]:
            yield "its parts are too long together"


# Rows beside each other -----------------------------------------------------------------------------------------------

def lists_of(document: Document) -> Case:
    """The five lists of a case."""
    return {of_list: document.get(of_list, []) for of_list in MOST_ROWS}


class Together:
    """What the rows of a case have to be for each other, where each of them keeps its own rules."""

    def __init__(self, case: Case) -> None:
        self.times = Counter(row["name"] for rows in case.values() for row in rows)
        self.names = {of_list: {row["name"] for row in rows} for of_list, rows in case.items()}
        self.station_of = {bus["name"]: bus["substation"] for bus in case["bus"]}

    def unknown_names(self, of_list: str, row: Row) -> Iterator[tuple[str, str]]:
        """The references of a row that no row has as its name: their fields, and the lists that they mean."""
        for field, allowed in FIELDS[row.get("kind", of_list)].items():
            if isinstance(allowed, Reference) and field in row and row[field] not in self.names[allowed.of_list]:
                yield field, allowed.of_list
        if any(part["zone"] not in self.names["zone"] for part in row.get("part", [])):
            yield "part", "zone"

    def is_apart(self, row: Row) -> bool:
        """Whether the buses of a transformer are in more than one substation."""
        return "kind" in row and len({self.station_of[bus] for bus in buses_of(row)}) > 1


def buses_of(row: Row) -> list[str]:
    """The buses at which a line or a transformer ends."""
    return [row[side] for side in ("from", "to", "high", "low", "third") if side in row]


def has_same_ends(row: Row) -> bool:
    """Whether two ends of a line or a transformer are at one bus."""
    return len(set(buses_of(row))) < len(buses_of(row))


def is_out_of_order(row: Row) -> bool:
    """Whether a side of a transformer has a higher voltage than its high side."""
    return "kind" in row and max(row.get("low_volts", 0), row.get("third_volts", 0)) > row["high_volts"]


# The case, as the program tells its faults ----------------------------------------------------------------------------

def read_case(text: bytes) -> Case:
    """The case that a text is. What it says of each row, name and reference has been looked at, but no degrees."""
    try:
        document = tomllib.loads(text.decode("utf-8-sig"))
    except (ValueError, RecursionError):
        raise Refused(CASE, "case: not toml") from None
    for fault in case_faults(document):
        raise Refused(CASE, f"case: {fault}")
    return lists_of(document)


def case_faults(document: Document) -> Iterator[str]:
    """What is wrong with a case. Each rule is looked at only where the ones before it are kept."""
    if "format" not in document or not document.keys() <= {"format", *MOST_ROWS}:
        yield "key in case row 0"
    if not is_format(document["format"]):
        yield "value in case row 0 field format"
    for of_list, rows in lists_of(document).items():
        yield from list_faults(of_list, rows, document["format"])
    yield from faults_together(lists_of(document))


def list_faults(of_list: str, rows: Any, version: int) -> Iterator[str]:
    """What is wrong with the form of a list and of its rows."""
    if type(rows) is not list:
        yield f"key in {of_list} row 0"
    if len(rows) > most_rows(of_list, version):
        yield f"too many in {of_list}"
    for number, row in enumerate(rows, 1):
        for fault, field in row_faults(of_list, row, version):
            yield f"{fault} in {of_list} row {number}" + (f" field {field}" if field else "")


def row_faults(of_list: str, row: Any, version: int) -> Iterator[tuple[str, str]]:
    """What is wrong with the form of a row, and in which field where it is one."""
    is_unit = of_list == "transformer"
    if type(row) is not dict or (is_unit and "kind" not in row):
        yield "key", ""
    if is_unit and not is_kind(row["kind"], version):
        yield "value", "kind"
    fields = fields_of(row["kind"] if is_unit else of_list, version)
    if not fields.keys() - OPTIONAL <= row.keys() <= fields.keys() or not has_one_choice(of_list, row):
        yield "key", ""
    for field in ORDER if is_unit else fields:
        if field in row and not is_value(row[field], field, fields[field]):
            yield "value", field


def faults_together(case: Case) -> Iterator[str]:
    """What is wrong with rows beside each other."""
    rows = [(of_list, number, row) for of_list in case for number, row in enumerate(case[of_list], 1)]
    together = Together(case)
    taken: set[str] = set()
    for of_list, number, row in rows:
        if row["name"] in taken:
            yield f"duplicate name in {of_list} row {number}"
        taken.add(row["name"])
    for of_list, number, row in rows:
        for field, _ in together.unknown_names(of_list, row):
            yield f"unknown name in {of_list} row {number} field {field}"
    rules = (("same ends", has_same_ends), ("apart", together.is_apart), ("voltage order", is_out_of_order))
    for fault, is_broken in rules:
        for of_list, number, row in rows:
            if is_broken(row):
                yield f"{fault} in {of_list} row {number}"


# Switchings, as the program tells their faults ------------------------------------------------------------------------

HEADS = ["time", "item", "action"]


def records_of(text: str) -> list[Record]:
    """The records of a comma-separated text that aren't empty, the heads among them."""
    return [record for record in csv.reader(io.StringIO(text, newline="")) if record]


def read_switchings(text: bytes, case: Case) -> list[Record]:
    """The records behind the heads."""
    csv.field_size_limit(LONGEST)
    records = records_of(text.removeprefix(b"\xef\xbb\xbf").decode("utf-8", "surrogateescape"))
    for fault in switching_faults(records, case):
        raise Refused(SWITCH, f"switch: {fault}")
    return records[1:]


def switching_faults(records: list[Record], case: Case) -> Iterator[str]:
    """What is wrong with the records of switchings. Each rule is looked at only where the ones before it are kept."""
    if not records or records[0] != HEADS:
        yield "shape in row 0"
    items = items_of(case)
    last = 0
    for row, record in enumerate(records[1:], 1):
        if row > MOST_SWITCHINGS:
            yield "too many"
        if len(record) != 3:
            yield f"shape in row {row}"
        time, name, action = record
        if not is_time(time):
            yield f"number in row {row}"
        if int(time) < last:
            yield f"order in row {row}"
        if action not in items:
            yield f"action in row {row}"
        if name not in items[action]:
            yield f"item in row {row}"
        last = int(time)


def is_time(word: str) -> bool:
    """Whether a word is a number of seconds."""
    return re.fullmatch("[-+]?[0-9]{1,18}", word) is not None and 0 <= int(word) <= LATEST


def items_of(case: Case) -> dict[str, set[str]]:
    """The names that each action may have."""
    switched = {row["name"] for of_list in ("line", "transformer") for row in case[of_list]}
    switched |= {row["name"] for row in case["substation"] if "ground" in row}
    resistors = {row["name"] for row in case["transformer"] if type(row.get("neutral")) is int}
    return {"open": switched, "close": switched, "block": resistors, "unblock": resistors}
