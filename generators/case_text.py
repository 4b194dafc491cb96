"""Writes the text of a case from its lists."""

from __future__ import annotations

from collections.abc import Mapping, Sequence
from typing import Any

from referee.case import LIMITS

Row = dict[str, Any]  # the keys of a row of a list, in the order in which they are written


def value_text(value: Any) -> str:
    """A value of TOML, in as few bytes as it takes."""
    if isinstance(value, bool):
        return "true" if value else "false"
    if isinstance(value, Mapping):
        return "{" + ",".join(f"{key}={value_text(item)}" for key, item in value.items()) + "}"
    if isinstance(value, Sequence) and not isinstance(value, str):
        return "[" + ",".join(map(value_text, value)) + "]"
    return f'"{value}"' if isinstance(value, str) else str(value)


def case_text(number: int, lists: Mapping[str, Sequence[Row]]) -> str:
    """The text of a case of a format, a line for each row."""
    lines = [f"format = {number}"]
    for name in LIMITS:
        lines += [f"{name} = [", *(f"{value_text(row)}," for row in lists.get(name, [])), "]"]
    return "\n".join(lines) + "\n"
