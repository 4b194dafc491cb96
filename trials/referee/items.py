"""The lines of items that reports share, in their order (docs/FORMATS.md, the report of `field`)."""

from __future__ import annotations

from collections.abc import Iterator
from typing import NamedTuple, Optional

from referee.case import Case
from referee.values import Interval


class Key(NamedTuple):
    """What an interval is of: a `node`, an `element`, or the `effective` current of a transformer, by its place."""

    kind: str
    place: int


# The intervals of a step or of the peaks; None where the item has none.
Intervals = dict[Key, Optional[Interval]]


class ItemLine(NamedTuple):
    """The head of a line, the word that stands in place of an interval, and what the interval is of; None for one that
    never has an interval."""

    head: tuple[str, ...]
    word: str
    key: Optional[Key]


def effective_key(transformer: int) -> Key:
    return Key("effective", transformer)


def of_device(head: tuple[str, str], element: Optional[int]) -> ItemLine:
    """The line of what may be blocked, and has no element then."""
    return ItemLine(head, "blocked", None) if element is None else ItemLine(head, "open", Key("element", element))


def item_lines(case: Case) -> Iterator[ItemLine]:
    for node, name in enumerate(case.nodes):
        yield ItemLine(("node", name), "dead", Key("node", node))
    for number in case.of_kind("ground"):
        yield ItemLine(("ground", case.elements[number].name), "open", Key("element", number))
    for place, line in enumerate(case.lines):
        yield of_device(("line", line.name), case.line_element.get(place))
    for number in case.of_kind("transformer"):
        element = case.elements[number]
        yield ItemLine(("winding", element.name, element.role), "open", Key("element", number))
    for place, unit in enumerate(case.transformers):
        if unit.has_neutral:
            yield of_device(("neutral", unit.name), case.neutral_element.get(place))


def effective_lines(case: Case) -> Iterator[ItemLine]:
    for place, unit in enumerate(case.transformers):
        yield ItemLine(("effective", unit.name), "none", effective_key(place))
