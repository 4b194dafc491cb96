"""Whether the two voltages of each line of GMD data fit one span, and whether spans close round loops.

In 1 V/km the voltages of a line are its span in km to the north and to the east, both times alpha and beta of its zone. So with
the places of its ends both are one multiple of what the places say; and round a loop within a zone they add up to nothing, but
for meridians, which converge: then a loop stays open to the east, and not to the north.
"""

import collections
import math
from collections.abc import Sequence

from .counts import plural
from .powermodels_reading import LineFacts

NEAR_KM, NEAR_PART = 2.0, 0.02  # a voltage fits that is this near, times the line's own alpha and beta
LOOP_KM, LOOP_PART = 2.0, 0.05
FEWEST = 3  # lines that say something together
SHOWN = 6
Pair = tuple[float, float]


def off(volts: Pair, mapped: Pair) -> tuple[float, float]:
    """The multiple of a span that is the nearest to both voltages, and how far they are off in km."""
    multiple = sum(v * m for v, m in zip(volts, mapped)) / sum(m * m for m in mapped)
    return multiple, math.hypot(*(v - multiple * m for v, m in zip(volts, mapped)))


def mapped_lines(lines: Sequence[LineFacts]) -> list[tuple[LineFacts, Pair]]:
    return [(line, line.mapped) for line in lines if line.mapped is not None and math.hypot(*line.mapped) >= 1]


def exchange_fault(lines: Sequence[LineFacts]) -> str | None:
    """Whether the voltages fit the places with the files changed over, and as they are given not."""
    pairs = mapped_lines(lines)
    if len(pairs) < FEWEST:
        return None
    given = sum(off(line.volts, mapped)[1] for line, mapped in pairs)
    changed = sum(off((line.volts[1], line.volts[0]), mapped)[1] for line, mapped in pairs)
    whole = sum(math.hypot(*line.volts) for line, _ in pairs)
    if given > 0.1 * whole and changed < 0.3 * given:
        return f"by the places of {plural(len(pairs), 'line')} the voltages are those to the east: the two files are changed over"
    return None


def misfits(lines: Sequence[LineFacts]) -> list[str]:
    """Each line whose two voltages aren't one multiple of its span by the places."""
    found = []
    for line, mapped in mapped_lines(lines):
        multiple, apart = off(line.volts, mapped)
        north, east = line.volts
        where = f"gmd_branch {line.index} ({line.name})"
        given = f"{north:g} V and {east:g} V, at {mapped[0]:.1f} km and {mapped[1]:.1f} km by its places"
        if apart > max(abs(multiple), 0.1) * (NEAR_KM + NEAR_PART * math.hypot(*mapped)):
            found.append(f"{where}: its two voltages fit no one span: {given}; is a sign wrong, or a place?")
        elif multiple < 0:
            found.append(f"{where}: its voltages are those of the line the other way: {given}; are its ends turned?")
    return found


def gaps(lines: Sequence[LineFacts]) -> list[tuple[LineFacts, Pair, float]]:
    """Of each line that closes a loop: how far the loop stays open in volts, and how long it is."""
    joined: dict[str, list[tuple[str, LineFacts, int]]] = collections.defaultdict(list)
    found = []
    for line in lines:
        way = None if line.start == line.end else path(joined, line.end, line.start)
        if line.start == line.end:
            continue
        if way is None:
            joined[line.start].append((line.end, line, 1))
            joined[line.end].append((line.start, line, -1))
            continue
        loop = [(line, 1), *way]
        north, east = (sum(sign * one.volts[side] for one, sign in loop) for side in (0, 1))
        found.append((line, (north, east), sum(math.hypot(*one.volts) for one, _ in loop)))
    return found


def path(
    joined: dict[str, list[tuple[str, LineFacts, int]]], start: str, end: str
) -> list[tuple[LineFacts, int]] | None:
    """The lines from a station to another one, each with the sign of its direction; None where no way leads there."""
    came: dict[str, tuple[str, LineFacts, int] | None] = {start: None}
    waiting = collections.deque([start])
    while waiting and end not in came:
        name = waiting.popleft()
        for other, line, sign in joined.get(name, []):
            if other not in came:
                came[other] = (name, line, sign)
                waiting.append(other)
    if end not in came:
        return None
    found = []
    step = came[end]
    while step is not None:
        name, line, sign = step
        found.append((line, sign))
        step = came[name]
    return found


def loop_notes(lines: Sequence[LineFacts]) -> list[str]:
    """The loops that stay open, and whether they do it to the wrong side."""
    found = gaps(lines)
    opened = [line.name for line, gap, length in found if max(abs(gap[0]), abs(gap[1])) > LOOP_KM + LOOP_PART * length / 2]
    notes = []
    if opened:
        more = f" and {len(opened) - SHOWN} more" if len(opened) > SHOWN else ""
        words = f"{plural(len(opened), 'loop')} of lines, closed by {', '.join(opened[:SHOWN])}{more}, stay open"
        if len(opened) == 1:
            words = f"the loop of lines that {opened[0]} closes stays open"
        notes.append(f"{words}: is a voltage wrong, or do its lines lie in zones of other alpha and beta?")
    north, east = (sum(abs(gap[side]) for _, gap, _ in found) for side in (0, 1))
    if len(found) >= FEWEST and not opened and north > 3 * east and north > 0.001 * sum(length for _, _, length in found):
        words = "loops close more nearly by the voltages to the east than by those to the north, and meridians converge, so that it"
        notes.append(f"{words} is mostly the other way: are the two files changed over?")
    return notes
