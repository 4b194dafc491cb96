#!/usr/bin/env python3
"""Sets `screen` of random networks beside `field` in a dozen directions of the event's field.

    python3 bench/directions.py PROGRAM [COUNT] [SEED]

PROGRAM is the built program. COUNT networks (20) are taken from `generators/random_cases.py`, which makes the same ones for
the same SEED (1). In no direction may the absolute effective interval of a transformer lie above its worst interval, and in no
direction may it reach the threshold where `screen` says `below`. The last line tells how many intervals were compared.
"""

from __future__ import annotations

import math
import sys
import tempfile
from collections.abc import Iterator, Sequence
from pathlib import Path
from typing import Optional

from running import REFUSALS, numbers_of, program_of, run, value_of, words_in  # which finds the modules below

from generators.random_cases import write_folders
from referee.words import DEFAULT_EVENT, EVENTS

NODES = 200
DIRECTIONS = 12
Rows = list[list[str]]


def report(program: str, folder: Path, words: Sequence[str]) -> Optional[Rows]:
    """The words of each line of a report, or none where the network is refused."""
    ran = run(program, folder, words)
    if ran.status not in (0, *REFUSALS):
        sys.exit(f"directions.py: {' '.join(words)} ended with status {ran.status}")
    return ran.rows if ran.status == 0 else None


def directions(strength: int) -> Iterator[tuple[int, int]]:
    """Fields in whole mV/km, none of which is stronger."""
    for place in range(DIRECTIONS):
        angle = 2 * math.pi * place / DIRECTIONS
        yield math.trunc(strength * math.cos(angle)), math.trunc(strength * math.sin(angle))


def compare(program: str, folder: Path, words: Sequence[str]) -> tuple[int, list[tuple[object, ...]]]:
    """How many intervals were compared with worst ones, and which of them lie above."""
    screened = report(program, folder, words)
    if screened is None:
        return 0, []
    worst = {line[1]: (int(line[-2]), line[-1]) for line in screened if line[0] == "transformer"}
    compared = 0
    above: list[tuple[object, ...]] = []
    for north, east in directions(EVENTS[value_of(words, "event", DEFAULT_EVENT)].field):
        shown = report(program, folder, ["field", f"--north={north}", f"--east={east}", *words[1:]])
        if shown is None:
            sys.exit(f"directions.py: field refuses the network of {folder}, and screen doesn't")
        for line in shown:
            if line[0] == "transformer":
                compared += 1
                greatest, verdict = worst[line[1]]
                if int(line[2]) > greatest or (verdict == "below" and line[-1] == "reaches"):
                    above.append((folder, north, east, line))
    return compared, above


def main() -> None:
    program = program_of(sys.argv[1])
    count, seed = numbers_of(sys.argv[2:], 20, 1)
    networks = compared = 0
    above: list[tuple[object, ...]] = []
    with tempfile.TemporaryDirectory() as scratch:
        for folder in write_folders(Path(scratch), count, seed, NODES, "screen"):
            more, found = compare(program, folder, words_in(folder))
            networks, compared, above = networks + bool(more), compared + more, above + found
    for one in above:
        print("above", *one)
    print(f"{networks} networks solved, {compared} intervals compared, {len(above)} above the worst one")
    sys.exit(bool(above))


if __name__ == "__main__":
    main()
