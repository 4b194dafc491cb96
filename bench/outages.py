#!/usr/bin/env python3
"""Sets each outage that `outage` shows of random networks beside `screen` with a switching that opens the same item.

    python3 bench/outages.py PROGRAM [COUNT] [SEED] [NODES]

PROGRAM is the built program. COUNT networks (20) of up to NODES nodes (40) are taken from `generators/random_cases.py`,
which makes the same ones for the same SEED (1), with their switchings, widths and events. Of each outage it is looked whether `screen`
with the item opened behind these switchings says the same:

- counts: `screen` has as many transformers with each verdict, where neither side has an undecided one; else they differ
  by no more than the undecided ones of both;
- `unearthed` and `unresolved`: `screen` ends with status 8 or 9 and names the same node at step 1;
- `idle`: `screen` prints what it prints with the item as it was.

And of each transformer whether its interval can hold the greatest worst current of all these screens: none of these lies
above it, one of them reaches up to it, it is no wider than asked, and its verdict is that of its ends; `none` stands where
there is no screen. Where `outage` has no report, `screen` with the same words has to end likewise. The last line is
`N outages compared, M differ`, and M has to be 0.
"""

from __future__ import annotations

import sys
import tempfile
from collections.abc import Sequence
from pathlib import Path
from typing import Optional

from running import REFUSALS, Ran, numbers_of, program_of, run, value_of, words_in  # which finds the modules below

from generators.random_cases import NO_SWITCHINGS, write_folders
from referee.checker import VERDICTS
from referee.values import Interval
from referee.words import DEFAULT_EVENT, DEFAULT_WIDTH, EVENTS

Row = list[str]  # the words of a line


def open_item(folder: Path, item: str) -> None:
    """Writes the switchings `o`: those of the network, and behind them one that opens the item."""
    there = folder / "s"
    lines = (there.read_text() if there.exists() else NO_SWITCHINGS).splitlines()
    last = lines[-1].split(",")[0] if len(lines) > 1 else "0"
    (folder / "o").write_text("\n".join([*lines, f"{last},{item},open"]) + "\n")


def screens_like(counts: Sequence[int], rows: Sequence[Row]) -> bool:
    """Whether these counts can be those of a screen with these rows, each of which has a verdict at its end."""
    screened = [sum(row[-1] == verdict for row in rows) for verdict in VERDICTS]
    apart = [abs(one - other) for one, other in zip(counts, screened)]
    undecided = counts[2] + screened[2]
    return sum(counts) == len(rows) and apart[3] == 0 and max(apart[:2]) <= undecided


def is_greatest(line: Row, worsts: Sequence[Interval], is_outside: bool, threshold: int, width: int) -> bool:
    """Whether the line of a transformer tells the greatest of its worst currents, of which there are these intervals, and
    its verdict is `outside` where that of the network as it stands is."""
    if not worsts:
        return line[2:] == ["none"]
    if len(line) != 6 or line[2] != "worst":
        return False
    low, high = int(line[3]), int(line[4])
    at_threshold = "reaches" if threshold <= low else "below" if high < threshold else "undecided"
    holds = low <= max(high for _, high in worsts) and max(low for low, _ in worsts) <= high
    return holds and low <= high <= low + width and line[5] == ("outside" if is_outside else at_threshold)


class Comparison:
    """What was compared of one network, and what differs."""

    def __init__(self, program: str, folder: Path) -> None:
        self.program, self.folder, self.words = program, folder, words_in(folder)
        self.outages = 0
        self.different: list[tuple[object, ...]] = []

    def screen(self, switched: Optional[str] = None) -> Ran:
        """A run of `screen`, with the switchings of a file in place of those of the words."""
        words = ["screen", *self.words[1:]]
        if switched:
            words = [word for word in words if not word.startswith("--switch=")] + [f"--switch={switched}"]
        return run(self.program, self.folder, words)

    def expect(self, holds: bool, *told: object) -> None:
        if not holds:
            self.different.append((self.folder, *told))

    def outage(self, line: Row, whole: Sequence[Row]) -> list[Row]:
        """Compares one outage, and hands out the rows of its screen, or none where it has no counts."""
        self.outages += 1
        item, end = line[1], line[2]
        open_item(self.folder, item)
        ran = self.screen("o")
        report = ran.rows
        rows = [row for row in report if row[0] == "transformer"]
        if end == "below":
            counts = [int(count) for count in line[3::2]]
            is_like = ran.status == 0 and line[2::2] == [*VERDICTS] and screens_like(counts, rows)
            self.expect(is_like, line, ran.status, ran.told)
            return rows
        if end == "idle":
            self.expect(ran.status == 0 and report == whole, line, ran.status, ran.told)
        else:
            node = line[3] if len(line) == 4 else None
            is_refused = REFUSALS.get(ran.status) == end and ran.told == f"gicstudy: {end}: step 1 node {node}"
            self.expect(is_refused, line, ran.status, ran.told)
        return []

    def network(self) -> None:
        """Compares all outages of the network."""
        ran, screened = run(self.program, self.folder, ["outage", *self.words[1:]]), self.screen()
        is_like = (ran.status, ran.told) == (screened.status, screened.told) and ran.status in (0, *REFUSALS)
        self.expect(is_like, "outage", ran.status, ran.told, "screen", screened.status, screened.told)
        if ran.status or screened.status:
            return
        report, whole = ran.rows, screened.rows
        self.expect(report[0] == ["outage"] and report[1] == whole[1] and report[-1] == ["end"], report[:2], report[-1])
        threshold = EVENTS[value_of(self.words, "event", DEFAULT_EVENT)].threshold
        width = int(value_of(self.words, "width", str(DEFAULT_WIDTH)))
        worsts: dict[str, list[Interval]] = {row[1]: [] for row in whole if row[0] == "transformer"}
        outside = {row[1] for row in whole if row[0] == "transformer" and row[-1] == "outside"}
        for line in report[1:]:
            if line[0] == "outage":
                for row in self.outage(line, whole):
                    worsts[row[1]].append(Interval(int(row[-3]), int(row[-2])))
        told = [line for line in report if line[0] == "transformer"]
        self.expect([line[1] for line in told] == list(worsts), "transformers", told)
        for line in told:
            self.expect(is_greatest(line, worsts[line[1]], line[1] in outside, threshold, width), line)


def main() -> None:
    program = program_of(sys.argv[1])
    count, seed, nodes = numbers_of(sys.argv[2:], 20, 1, 40)
    networks = outages = 0
    different: list[tuple[object, ...]] = []
    with tempfile.TemporaryDirectory() as scratch:
        for folder in write_folders(Path(scratch), count, seed, nodes, "screen"):
            one = Comparison(program, folder)
            one.network()
            networks, outages, different = networks + bool(one.outages), outages + one.outages, different + one.different
    for told in different:
        print("different", *told)
    print(f"{networks} networks with outages")
    print(f"{outages} outages compared, {len(different)} differ")
    sys.exit(bool(different))


if __name__ == "__main__":
    main()
