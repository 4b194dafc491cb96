#!/usr/bin/env python3
"""Shows that the referee catches wrong reports: mutates right ones, and counts those that it still finds right.

    python3 trials/reports.py [--minutes M] [--seed S] [--jobs N] [--reports N]

N reports (2000) of random networks in every mode get one change each: a digit, a sign, a number one off, a line
dropped, doubled or moved, a verdict or another word, a name, an order of names. The reports are of exact values, so
their intervals are the narrowest. So a report with one change can still be right only where an interval got wider by
it, and the step of a loss may be another one; of `robust` where an end of an interval to the north or to the east moved,
since no exact value fixes how wide it is, and the worst one is still that of the two; of a certificate the independent
checker (`independent/recheck.py`) says whether it still passes. A change that the referee lets through and that is none
of these is a fault.
"""

from __future__ import annotations

import contextlib
import io
import os
import random
from collections import Counter
from collections.abc import Sequence
from typing import NamedTuple, Optional

import shared  # which finds the modules below

import recheck
from generators.changed_reports import CHANGES, NUMBER, Lines
from generators.networks import KINDS, first_files
from referee.faults import report_faults
from referee.outcome import predict
from referee.reference import Report
from referee.words import MODES

# Lines whose numbers are intervals or counts that may be wider.
WIDE = {"node", "ground", "line", "winding", "neutral", "effective", "transformer", "dwell", "earth", "loss", "step"}
# The places of the words in a line of `robust` that are ends of its first two intervals.
MOVING = (3, 4, 6, 7)
MOST_RADIUS = 2**31
REPORTS_A_NETWORK = 10


def roles(words: Sequence[str], mode: str) -> list[Optional[int]]:
    """For each word of a line whether it may be lower (-1), higher (1), either (0), or is fixed (None)."""
    allowed: list[Optional[int]] = [None] * len(words)
    if words[0] not in WIDE:
        return allowed
    if mode == "robust":
        return [0 if place in MOVING else None for place in range(len(words))]
    if words[0] == "step":
        return [None, None, None, None, -1, 1] if len(words) == 6 else allowed
    numbers = [place for place, word in enumerate(words) if place > 1 and NUMBER.match(word)]
    if words[0] == "loss":
        return [None, -1, 1, None, 0] if len(words) == 5 else allowed
    for low, high in zip(numbers, numbers[1:]):
        if high == low + 1 and allowed[low] is None:
            allowed[low], allowed[high] = -1, 1
    return allowed


def is_wider(before: Lines, after: Lines, mode: str) -> bool:
    """Whether the lines are the same but for intervals that got wider, or in `robust` have another end to the north or east."""
    if len(before) != len(after):
        return False
    for line, other in zip(before, after):
        words, others = line.split(" "), other.split(" ")
        if len(words) != len(others):
            return False
        for word, new, way in zip(words, others, roles(words, mode)):
            if word != new and (way is None or not NUMBER.match(new) or (int(new) - int(word)) * way < 0):
                return False
    return True


def passes(folder: str, content: str, before: Lines) -> bool:
    """Whether the independent checker accepts a certificate, with the same field, short numbers and small radii."""
    path = os.path.join(folder, "mutated")
    shared.write(folder, "mutated", content)
    told = io.StringIO()
    files = [f"--{option}={os.path.join(folder, name)}" for option, name in (("case", "p"), ("switch", "s"))]
    with contextlib.redirect_stdout(told), contextlib.redirect_stderr(told):
        status = recheck.main([*files, f"--cert={path}"])
    lines = content.split("\n")
    if status != 0 or lines[1] != before[1]:
        return False
    numbers = [word for line in lines[2:] for word in line.split(" ")[2:] if word != "dead"]
    radii = [int(line.split(" ")[4]) for line in lines[2:] if len(line.split(" ")) == 5]
    return all(str(int(number)) == number for number in numbers) and max(radii, default=0) <= MOST_RADIUS


class Mutated(NamedTuple):
    """A mutated report: its mode, what came of it, and the change, or what is told of a fault."""

    mode: str
    end: str
    told: str


def mutate_reports(draw: random.Random, folder: str, mode: str, words: Sequence[str]) -> list[Mutated]:
    """Mutates the report of one run, if it has one."""
    outcome = predict(shared.in_bytes(words), folder)
    if outcome.status != 0:
        return []
    results: list[Mutated] = []

    def add(end: str, told: str) -> None:
        results.append(Mutated(mode, end, told))

    content = Report(outcome, False).text()
    lines = content.decode().split("\n")[:-1]
    if report_faults(outcome, content):
        add("fault", f"{words}: the report of exact values is refused")
    if mode == "certify":
        shared.write(folder, "c", content)
    for _ in range(REPORTS_A_NETWORK // len(MODES) + 1):
        change = draw.choice(CHANGES)
        after = change(draw, lines)
        mutated = "\n".join(after) + "\n"
        if after == lines:
            continue
        is_caught = bool(report_faults(outcome, mutated.encode()))
        may_pass = passes(folder, mutated, lines) if mode == "certify" else is_wider(lines, after, mode)
        name = change.__name__
        if is_caught:
            add("caught though wider" if may_pass and mode != "certify" else "caught", name)
        elif may_pass:
            add("still right", name)
        else:
            different = [pair for pair in zip(lines, after) if pair[0] != pair[1]][:1]
            add("fault", f"{words}: {name} isn't caught: {different}")
        if is_caught and may_pass and mode == "certify":
            add("fault", f"{words}: {name}: a certificate that passes is caught")
    return results


def network(seed: int) -> list[Mutated]:
    """The mutated reports of one network."""
    draw = random.Random(seed)
    results: list[Mutated] = []
    with shared.scratch() as folder:
        shared.write_all(folder, first_files(draw, draw.choice(KINDS[:2])))
        shared.write(folder, "c", "certificate\n")
        for mode in sorted(MODES, key=lambda mode: mode == "recheck"):
            results += mutate_reports(draw, folder, mode, shared.words_of(mode, **shared.random_values(draw)))
    return results


def main() -> None:
    given = shared.arguments(__doc__, 10, [("reports", 2000)], has_program=False)
    faults, clock = shared.Faults(), shared.Clock(given.minutes)
    ends: Counter[str] = Counter()
    changes: Counter[tuple[str, str]] = Counter()
    items = (given.seed * given.reports + place for place in range(given.reports))
    for results in shared.side_by_side(given.jobs, network, items, clock):
        for mode, end, told in results:
            if end == "fault":
                faults.add(mode, told)
            else:
                ends[end] += 1
                changes[told, end] += 1
        if ends.total() >= given.reports:
            break
    for name in dict.fromkeys(change.__name__ for change in CHANGES):
        print(name + ": " + ", ".join(f"{changes[name, end]} {end}" for end in sorted(ends)))
    shared.finish(faults, f"{ends.total()} mutated reports", *(f"{count} {end}" for end, count in sorted(ends.items())))


if __name__ == "__main__":
    main()
