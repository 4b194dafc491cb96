"""What becomes of the network without each line and each transformer (docs/FORMATS.md, the report of `outage`)."""

from __future__ import annotations

from collections.abc import Iterator
from typing import NamedTuple

from referee.case import Live, Stand
from referee.earthing import unearthed, unresolved
from referee.outcome import Outcome
from referee.storm import devices, standing


class Outage(NamedTuple):
    """An outage: the name of what is out, the words that tell why it isn't solved, if any do, and what is left."""

    name: str
    words: tuple[str, ...]
    stand: Stand
    live: Live


def outages(outcome: Outcome) -> Iterator[Outage]:
    case = outcome.case
    for item, name in devices(case):
        stand = standing(case, outcome.switchings, item)
        if stand == outcome.stand:
            yield Outage(name, ("idle",), stand, outcome.live)
            continue
        node, live = unearthed(case, stand)
        words: tuple[str, ...] = () if node is None else ("unearthed", case.nodes[node])
        if node is None:
            past = unresolved(case, stand)
            words = () if past is None else ("unresolved", case.nodes[past])
        yield Outage(name, words, stand, live)
