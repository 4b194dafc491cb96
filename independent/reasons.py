"""What `judge.py` tells of a case or of switchings that break a rule.

The rules are those of `rules.py`. They are looked at row by row here, and the first one that is broken is told in a
reason for people, where `rules.py` has the line of the program.
"""

import csv
import tomllib
from collections.abc import Iterator
from typing import Any

import rules
from rules import CASE, SWITCH, Case, Document, Record, Refused, Row


def read_case(text: bytes) -> Case:
    """The lists of a case that breaks no rule; no degrees have been looked at."""
    try:
        document = tomllib.loads(text.decode("utf-8-sig"))
    except (ValueError, RecursionError):
        raise Refused(CASE, "case: no TOML 1.0 in UTF-8") from None
    for reason in case_reasons(document):
        raise Refused(CASE, f"case: {reason}")
    return rules.lists_of(document)


def case_reasons(document: Document) -> Iterator[str]:
    """What is wrong with a case. Each rule is looked at only where the ones before it are kept."""
    version = document.get("format", 0)
    if not rules.is_format(version):
        yield "format is not 1, 2 or 3"
    if not document.keys() <= {"format", *rules.MOST_ROWS}:
        yield "a key that it may not have"
    for of_list, rows in rules.lists_of(document).items():
        if type(rows) is not list or len(rows) > rules.most_rows(of_list, version):
            yield f"{of_list}: no list, or too many rows"
        for number, row in enumerate(rows, 1):
            for reason in row_reasons(of_list, row, version):
                yield f"{of_list} row {number}: {reason}"
    yield from reasons_together(rules.lists_of(document))


def row_reasons(of_list: str, row: Any, version: int) -> Iterator[str]:
    """What is wrong with a row by itself."""
    if type(row) is not dict:
        yield "no table"
    is_unit = of_list == "transformer"
    if is_unit and not rules.is_kind(row.get("kind"), version):
        yield "no kind"
    fields = rules.fields_of(row["kind"] if is_unit else of_list, version)
    if not row.keys() <= fields.keys():
        yield "a key too many"
    if not rules.has_one_choice(of_list, row):
        yield "not all keys of one choice, or some of two"
    yield from value_reasons(row, fields)
    yield from rules.part_reasons(row["part"]) if "part" in row else ()
    if not rules.NAME.fullmatch(row["name"]):
        yield "no name"


def value_reasons(row: Row, fields: rules.Fields) -> Iterator[str]:
    """What is wrong with what stands under the keys of a row."""
    for field, allowed in fields.items():
        if field not in row and field not in rules.OPTIONAL:
            yield f"no {field}"
        if field in row and not rules.is_of_type(row[field], field, allowed):
            yield f"{field} is not what it may be"


def reasons_together(case: Case) -> Iterator[str]:
    """What is wrong with rows beside each other."""
    together = rules.Together(case)
    for of_list, rows in case.items():
        for row in rows:
            for reason in reasons_of_one(together, of_list, row):
                yield f"{of_list} {row['name']}: {reason}"


def reasons_of_one(together: rules.Together, of_list: str, row: Row) -> Iterator[str]:
    """What is wrong with a row beside all others."""
    if together.times[row["name"]] != 1:
        yield "another row has its name"
    for field, other in together.unknown_names(of_list, row):
        yield "a part in no zone" if field == "part" else f"{field} is no {other}"
    if rules.has_same_ends(row):
        yield "two ends at one bus"
    if together.is_apart(row):
        yield "its buses are in two substations"
    if rules.is_out_of_order(row):
        yield "its high voltage is not the highest one"


def read_switchings(text: bytes, case: Case) -> list[Record]:
    """The records behind the heads, where they break no rule."""
    try:
        first, *records = rules.records_of(text.decode("utf-8-sig")) or [[]]
    except (ValueError, csv.Error):
        raise Refused(SWITCH, "switch: no records in UTF-8") from None
    if first != rules.HEADS or len(records) > rules.MOST_SWITCHINGS:
        raise Refused(SWITCH, "switch: another first record, or too many")
    items, latest = rules.items_of(case), 0
    for number, record in enumerate(records, 1):
        time, name, action = record if len(record) == 3 else ("", "", "")
        if not rules.is_time(time) or int(time) < latest or name not in items.get(action, ()):
            raise Refused(SWITCH, f"switch: row {number} is none that may stand there")
        latest = int(time)
    return records
