"""Storms by rule, for times and limits; `random_cases.py` has those by chance, of few steps."""

from __future__ import annotations

import math
import random
from collections.abc import Iterator, Sequence

from referee.storm import MOST_STORM_ROWS

HEAD, HEAD_BY_ZONE = "time,north,east\n", "time,zone,north,east\n"
SECONDS = 10  # from each step to the next, where fields are drawn
STRONGEST = 8000
WAVES = ((90, 2000), (700, 3000), (5200, 2500))  # the periods of a storm in seconds, and how strong each is in mV/km


def field_of(draw: random.Random) -> str:
    return f"{draw.randint(-STRONGEST, STRONGEST)},{draw.randint(-STRONGEST, STRONGEST)}"


def steady(steps: int) -> str:
    """Fields that turn from each step to the next, a second apart, without any draw."""
    return HEAD + "".join(f"{step},{step % 40001 - 20000},{20000 - step * 7 % 40001}\n" for step in range(steps))


def drawn(steps: int) -> str:
    """Another field at each step, for all zones."""
    draw = random.Random(steps)
    return HEAD + "".join(f"{SECONDS * step},{field_of(draw)}\n" for step in range(steps))


def drawn_by_zone(zones: Sequence[str], steps: int) -> str:
    """Other fields at each step, zone by zone where the rows suffice for it."""
    draw = random.Random(steps)
    named = zones if steps * len(zones) <= MOST_STORM_ROWS else ["*"]
    rows = (f"{SECONDS * step},{zone},{field_of(draw)}\n" for step in range(steps) for zone in named)
    return HEAD_BY_ZONE + "".join(rows)


def waves(steps: int, zones: Sequence[str], seed: int) -> str:
    """A storm of some waves, with noise, for all zones or, where zones are named, with waves of its own for each."""
    return (HEAD_BY_ZONE if zones else HEAD) + "".join(wave_rows(steps, zones, seed))


def wave_rows(steps: int, zones: Sequence[str], seed: int) -> Iterator[str]:
    draw = random.Random(seed)
    phases = {zone: [draw.uniform(0, 2 * math.pi) for _ in range(2 * len(WAVES))] for zone in zones or [""]}
    for step in range(steps):
        for zone, own in phases.items():
            field = [draw.randint(-300, 300), draw.randint(-300, 300)]
            for place, (period, strength) in enumerate(WAVES):
                for way in (0, 1):
                    turn = 2 * math.pi * SECONDS * step / period + own[2 * place + way]
                    field[way] += int(strength * math.sin(turn))
            yield ",".join([str(SECONDS * step), *([zone] if zones else []), *map(str, field)]) + "\n"
