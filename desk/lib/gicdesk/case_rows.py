"""The rows of a case that the program has taken, and the same case with some of them changed."""

import dataclasses
import tomllib
from collections.abc import Mapping
from typing import Any

from .cases import LISTS, Case, Field, Part, Row, short_enough
from .findings import refuse


def row_of(row: dict[str, Any]) -> Row:
    fields = []
    for key, value in row.items():
        if key == "part":
            value = tuple(Part(part["zone"], part["north"], part["east"]) for part in value)
        if key != "name":
            fields.append(Field(key, value))
    return Row(row["name"], fields)


def case_of(file: str, data: bytes) -> Case:
    """The case of a file, without its remarks."""
    try:
        case = tomllib.loads(data.decode("utf-8-sig"))
    except (tomllib.TOMLDecodeError, UnicodeDecodeError):
        raise refuse(file, "it is in TOML 1.1; write the case without what only TOML 1.1 has") from None
    return Case({name: list(map(row_of, case.get(name, []))) for name in LISTS})


def with_field(row: Row, field: Field) -> Row:
    """The row with a field in the place of the one of its key, or behind the others."""
    fields = {one.key: one for one in row.fields} | {field.key: field}
    return dataclasses.replace(row, fields=list(fields.values()))


def changed(case: Case, list_name: str, fields: Mapping[str, Field]) -> Case:
    """The case with a field for each of these rows of a list."""
    rows = [with_field(row, fields[row.name]) if row.name in fields else row for row in case.lists[list_name]]
    return Case(case.lists | {list_name: rows})


def text_of(case: Case, file: str, what: str) -> str:
    """The text of a case that is made of the one of a file."""
    return short_enough(case.text(what), file, [])
