#!/usr/bin/env python3
"""Feeds mutated cases, storms, switchings and certificates to the program, and has each answer judged by the referee.

    python3 trials/readers.py PROGRAM [--minutes M] [--seed S] [--jobs N] [--runs N]

Each of the four readers gets N runs (100000), or as many as the minutes are enough for. A file begins as that of a
random network, or as a certificate of it that the program made, and is changed as `generators/changed_files.py` says: bytes, words,
numbers at their limits, lengths, nesting, lines, ends of lines, encodings. The status, the line and the report have to
be those that the referee finds right; its readers were written from the documents and not from the program.
"""

from __future__ import annotations

import functools
import itertools
import random
from collections import Counter
from collections.abc import Sequence
from typing import NamedTuple

import shared  # which finds the modules below

from generators import changed_files, random_cases
from referee.faults import run_faults
from referee.outcome import predict

BATCH = 100
NODES = 12
SEEDS_OF_FILES = 24
READERS = {"case": ("p", "list"), "storm": ("t", "study"), "switch": ("s", "check"), "cert": ("c", "recheck")}


class Fault(NamedTuple):
    """What went wrong, and the bytes that bring it."""

    told: str
    content: bytes


class Batch(NamedTuple):
    """The reader that was fed, how its runs ended, and the faults."""

    reader: str
    ends: Counter[str]
    faults: list[Fault]


def fill(draw: random.Random, folder: str, command: Sequence[str]) -> bool:
    """Writes the four files of a small random network that can be solved."""
    while True:
        made = random_cases.network(draw, draw.randint(2, NODES))
        shared.write(folder, "p", made.text)
        shared.write(folder, "t", random_cases.storm(draw, made.names("Z")).text)
        shared.write(folder, "s", random_cases.switchings(draw, made) if made.items else random_cases.NO_SWITCHINGS)
        words = [shared.words_of("study"), shared.words_of("certify")]
        if all(predict(shared.in_bytes(run), folder).status == 0 for run in words):
            return shared.certify(command, folder).status == 0


def batch(command: Sequence[str], clock: shared.Clock, item: tuple[str, int]) -> Batch:
    """Runs one batch."""
    reader, seed = item
    draw = random.Random(f"{reader} {seed}")
    ends: Counter[str] = Counter()
    faults: list[Fault] = []
    name, mode = READERS[reader]
    with shared.scratch() as folder:
        if not fill(random.Random(f"files {seed % SEEDS_OF_FILES}"), folder, command):
            return Batch(reader, ends, [Fault("the certificate isn't made", b"")])
        content = shared.read(folder, name)
        for _ in range(BATCH):
            if clock.is_over():
                break
            mutated = changed_files.mutated(draw, content, reader)
            shared.write(folder, name, mutated)
            words = shared.words_of(mode, reader == "switch" or draw.random() < 0.2)
            outcome = predict(shared.in_bytes(words), folder)
            answer = shared.run([*command, *words], folder)
            ends["accepted" if outcome.status == 0 else kind_of(outcome.line or "")] += 1
            found = run_faults(outcome, *answer)
            faults += [Fault(f"{' '.join(words)}: {found[0]}", mutated)] if found else []
    return Batch(reader, ends, faults)


def kind_of(line: str) -> str:
    """A fault line without the words that tell where."""
    return " ".join(itertools.takewhile(lambda word: word not in ("in", "at", "step"), line.split(" ")[1:]))


def keep(faults: shared.Faults, reader: str, fault: Fault) -> None:
    """Counts a fault, and keeps the bytes of the first of them."""
    faults.add(reader, fault.told)
    if faults.count <= shared.MOST_SHOWN:
        path = f"fault-{reader}-{faults.count}"
        shared.write(".", path, fault.content)
        print("  its bytes are in", path, flush=True)


def main() -> None:
    given = shared.arguments(__doc__, 20, [("runs", 100000)])
    command, faults, clock = shared.command_of(given.program), shared.Faults(), shared.Clock(given.minutes)
    batches = -(-given.runs // BATCH)
    items = ((reader, given.seed * batches + place) for place in range(batches) for reader in READERS)
    work = functools.partial(batch, command, clock)
    ends: dict[str, Counter[str]] = {reader: Counter() for reader in READERS}
    for done in shared.side_by_side(given.jobs, work, items, clock):
        ends[done.reader] += done.ends
        for fault in done.faults:
            keep(faults, done.reader, fault)
    for reader, counts in ends.items():
        print(f"{reader}: " + ", ".join(f"{count} {end}" for end, count in counts.most_common()))
    figures = (f"{reader} {counts.total()} runs with {len(counts)} kinds of answers" for reader, counts in ends.items())
    shared.finish(faults, *figures)


if __name__ == "__main__":
    main()
