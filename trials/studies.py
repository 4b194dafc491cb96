#!/usr/bin/env python3
"""Sets the program beside exact arithmetic: random small networks through every mode, each judged by the referee.

    python3 trials/studies.py PROGRAM [--minutes M] [--seed S] [--jobs N] [--networks N]

N networks (10000) of 2 to 40 nodes, or as many as the minutes are enough for: transformers of all kinds, neutral
devices, blocked lines, unearthed nodes; resistances in their usual range, at both ends of it, or all grounds chosen so
that the network is just within 4096 or just past it. Each has a storm, with fields by zone in most, and switchings; and
is asked for in every mode, with other widths, events and steps in detail, and its certificate is checked again. The
referee computes each exact value and says whether status, line and report are right.
"""

from __future__ import annotations

import functools
import random
from collections import Counter
from collections.abc import Sequence
from typing import NamedTuple, Optional

import shared  # which finds the modules below

from generators.networks import KINDS, first_files
from referee.faults import run_faults
from referee.outcome import predict
from referee.words import MODES


class Studied(NamedTuple):
    """A network: its kind, how its runs ended by mode and status, and the faults."""

    kind: str
    ends: Counter[tuple[str, Optional[int]]]
    faults: list[str]


def judged(command: Sequence[str], folder: str, words: Sequence[str]) -> tuple[shared.Answer, Optional[str]]:
    """How a run ended, and its first fault or None."""
    outcome = predict(shared.in_bytes(words), folder)
    answer = shared.run([*command, *words], folder)
    faults = run_faults(outcome, *answer)
    return answer, faults[0] if faults else None


def study(command: Sequence[str], item: tuple[int, str]) -> Studied:
    """All modes over one network, the first drawn that can be made so."""
    seed, kind = item
    draw, studied = random.Random(seed), Studied(kind, Counter(), [])
    with shared.scratch() as folder:
        shared.write_all(folder, first_files(draw, kind))
        shared.write(folder, "c", "certificate\n")
        for mode in sorted(MODES, key=lambda mode: mode == "recheck"):
            words = shared.words_of(mode, **shared.random_values(draw))
            answer, fault = judged(command, folder, words)
            studied.ends[mode, answer.status] += 1
            if mode == "certify" and answer.status == 0:
                shared.write(folder, "c", answer.output)
            if fault:
                studied.faults.append(f"seed {seed} {kind}: {' '.join(words)}: {fault}")
    return studied


def main() -> None:
    given = shared.arguments(__doc__, 30, [("networks", 10000)])
    faults, clock = shared.Faults(), shared.Clock(given.minutes)
    work = functools.partial(study, shared.command_of(given.program))
    items = ((given.seed * given.networks + place, KINDS[place % len(KINDS)]) for place in range(given.networks))
    made: Counter[str] = Counter()
    ends: Counter[tuple[str, Optional[int]]] = Counter()
    for studied in shared.side_by_side(given.jobs, work, items, clock):
        made[studied.kind] += 1
        ends += studied.ends
        for fault in studied.faults:
            faults.add(fault)
    for mode in MODES:
        told = (f"{count} with status {status}" for (other, status), count in sorted(ends.items()) if other == mode)
        print(f"{mode}: " + ", ".join(told))
    kinds = ", ".join(f"{made[kind]} {kind}" for kind in KINDS)
    shared.finish(faults, f"{made.total()} networks ({kinds})", f"{ends.total()} runs")


if __name__ == "__main__":
    main()
