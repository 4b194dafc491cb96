#!/usr/bin/env python3
"""Sets `independent/judge.py` beside the program: it shows all of a report, and nothing that was made wrong.

    python3 trials/judged.py PROGRAM [--minutes M] [--seed S] [--jobs N] [--field N] [--screen N] [--outage N]
        [--changed N]

Reports of `field` (300), `screen` (300) and `outage` (60) of random networks of 2 to 40 nodes are judged by the
certificates that the program makes, those of `outage` by `independent/outages.sh` for all items. A third of the networks
is usual, a third has its resistances at both ends of their range, and a third is just within 4096; all have switchings.
No statement may be refuted, and what is left open is printed with its reason. Then about 3000 reports with one
change each are judged: those of `reports.py`, a number that is off by much, and another verdict. The referee says
whether such a report is still right, of the width and the event that its second line names. One that is wrong may not be
shown, and one that is right not be refuted.
"""

from __future__ import annotations

import contextlib
import functools
import io
import os
import random
import re
from collections import Counter
from collections.abc import Sequence
from typing import NamedTuple, Union

import shared  # which finds the modules below

import judge
import paths
from generators.changed_reports import FURTHER_CHANGES, Lines
from generators.networks import KINDS, first_files
from referee.faults import report_faults
from referee.outcome import predict
from referee.words import DEFAULT_EVENT, EVENTS

NETWORKS = KINDS[:3]
MODES = ("field", "screen", "outage")
ENDS = {0: "shown", 13: "refused", 14: "refused", 15: "refuted", 16: "open"}
# What FORMATS fixes and the referee doesn't ask: the third interval of a screen, and the 0 0 of a unit without a winding.
FIXED = re.compile(r"refuted: .*(the others make|and 0\.0+ to 0\.0+ is shown)")
FIGURES = re.compile(r"(\d+) intervals and (\d+) verdicts shown, (\d+) refuted, (\d+) open")


class Ended(NamedTuple):
    """How the judge ended: its status, the lines of its output, and what it told on the error stream."""

    status: int
    output: list[str]
    told: str


class Figures(NamedTuple):
    """How many intervals and verdicts of reports are shown, and how many are refuted or left open."""

    intervals: int = 0
    verdicts: int = 0
    refuted: int = 0
    is_open: int = 0

    def and_those(self, other: Figures) -> Figures:
        return Figures(*(mine + its for mine, its in zip(self, other)))


class Item(NamedTuple):
    """What is judged: a report of a mode of the network of a seed and a kind, and a number of changed ones."""

    seed: int
    mode: str
    kind: str
    changed: int


class Judged(NamedTuple):
    """What came of a report: the figures of the judge, its lines of what is open, what came of changed reports (by the
    change, the judge's end, and whether the report is `right` or `wrong`), and the faults."""

    mode: str
    figures: Figures
    opened: list[str]
    ends: Counter[tuple[str, str, str]]
    faults: list[str]


def judged(folder: str, options: Sequence[str]) -> Ended:
    """How the judge ends in a folder."""
    output, told, before = io.StringIO(), io.StringIO(), os.getcwd()
    os.chdir(folder)
    try:
        with contextlib.redirect_stdout(output), contextlib.redirect_stderr(told):
            status = judge.main(["--case=p", "--switch=s", "--report=r", *options])
    finally:
        os.chdir(before)
    return Ended(status, output.getvalue().splitlines(), told.getvalue().strip())


def solved_network(
    draw: random.Random, command: Sequence[str], folder: str, mode: str, kind: str
) -> tuple[list[str], shared.Values]:
    """Writes the files of a network that has a report in a mode, and that report `r`; the words and their values."""
    while True:
        shared.write_all(folder, first_files(draw, kind))
        values = shared.random_values(draw)
        words = shared.words_of(mode, **values)
        answer = shared.run([*command, *words], folder)
        if answer.status == 0:
            shared.write(folder, "r", answer.output)
            return words, values


def certified(command: Sequence[str], folder: str, mode: str, values: shared.Values) -> list[str]:
    """Makes the certificates of a report, and tells the options of the judge that name them."""
    if mode == "outage":
        script = ["bash", str(paths.INDEPENDENT / "outages.sh"), f"--program={command[-1]}"]
        answer = shared.run([*script, "--case=p", "--switch=s", "--report=r", "--certs=certs"], folder, seconds=600)
        if answer.status != 0:
            raise RuntimeError(f"outages.sh: {answer}")
        return ["--certs=certs"]
    strength = EVENTS[str(values["event"])].field
    fields: dict[str, tuple[Union[int, str], Union[int, str]]]
    if mode == "field":
        fields = {"cert": (values["north"], values["east"])}
    else:
        fields = {"north": (strength, 0), "east": (0, strength)}
    for name, (north, east) in fields.items():
        words = shared.words_of("certify", north=north, east=east)
        answer = shared.run([*command, *words], folder)
        if answer.status != 0:
            raise RuntimeError(f"certify: {answer}")
        shared.write(folder, name, answer.output)
    return [f"--{name}={name}" for name in fields]


def faults_by_head(folder: str, mode: str, values: shared.Values, lines: Lines, content: bytes) -> list[str]:
    """The faults of a report with another second line, as one with the width and of the event that are named there."""
    words = lines[1].split(" ") if len(lines) > 1 else []
    named = dict(zip(words[::2], words[1::2]))
    thresholds = {str(event.threshold): name for name, event in EVENTS.items()}
    event = thresholds.get(named.get("threshold", ""), DEFAULT_EVENT)
    as_named: shared.Values = {**values, "width": named.get("width", "0"), "event": event}
    outcome = predict(shared.in_bytes(shared.words_of(mode, **as_named)), folder)
    return report_faults(outcome, content) if outcome.status == 0 else ["no words ask for it"]


class Trial:
    """A report in a folder, with what the judge and the referee say of it and of changed ones."""

    def __init__(self, draw: random.Random, folder: str, mode: str, words: list[str], values: shared.Values) -> None:
        self.draw, self.folder, self.mode, self.words, self.values = draw, folder, mode, words, values
        self.options: list[str] = []
        self.figures = Figures()
        self.opened: list[str] = []
        self.ends: Counter[tuple[str, str, str]] = Counter()
        self.faults: list[str] = []

    def look(self) -> bool:
        """Judges the report as it is; whether changed ones can be judged too."""
        status, output, told = judged(self.folder, self.options)
        figures = FIGURES.fullmatch(output[-1]) if output else None
        odd = [line for line in output if line.startswith("open: ") and " unresolved " not in line]
        if status not in (0, 16) or not figures or odd:
            odd += [line for line in output if "refuted: " in line]
            self.faults.append(f"status {status} {told}: {odd[:1]}")
        self.figures = Figures(*map(int, figures.groups())) if figures else Figures()
        self.opened = [line for line in output if line.startswith("open: ")]
        return status in (0, 16)

    def look_at_changed(self, count: int) -> None:
        """Judges a number of reports with one change each, but for changes that find nothing to change."""
        outcome = predict(shared.in_bytes(self.words), self.folder)
        lines = shared.read(self.folder, "r").decode().split("\n")[:-1]
        for _ in range(count):
            change = self.draw.choice(FURTHER_CHANGES)
            after = change(self.draw, lines)
            if after == lines:
                continue
            content = ("\n".join(after) + "\n").encode()
            shared.write(self.folder, "r", content)
            status, output, told = judged(self.folder, self.options)
            end = ENDS.get(status, f"status {status}")
            if after[1:2] == lines[1:2]:
                wrong = report_faults(outcome, content)
            else:
                wrong = faults_by_head(self.folder, self.mode, self.values, after, content)
            wrong = [*wrong, *filter(FIXED.match, output)]
            self.ends[change.__name__, end, "wrong" if wrong else "right"] += 1
            if bool(wrong) == (end == "shown") and end != "open" or status not in ENDS:
                pairs = [pair for pair in zip(lines, after) if pair[0] != pair[1]][:1]
                self.faults.append(f"{change.__name__}: {end} {told}, and the referee has {wrong[:1]}: {pairs}")


def report(command: Sequence[str], item: Item) -> Judged:
    """One network and its report in one mode, and changed ones."""
    seed, mode, kind, changed = item
    draw = random.Random(seed)
    with shared.scratch() as folder:
        trial = Trial(draw, folder, mode, *solved_network(draw, command, folder, mode, kind))
        try:
            trial.options = certified(command, folder, mode, trial.values)
            if trial.look():
                trial.look_at_changed(changed)
        except RuntimeError as error:
            trial.faults.append(str(error))
    label = f"seed {seed} {kind}: {' '.join(trial.words)}: "
    return Judged(
        mode, trial.figures, [label + line for line in trial.opened], trial.ends, [label + fault for fault in trial.faults]
    )


def main() -> None:
    sizes = [("field", 300), ("screen", 300), ("outage", 60), ("changed", 3000)]
    given = shared.arguments(__doc__, 60, sizes)
    # The modes are mixed, so that a run that is cut by its minutes has seen all of them.
    parts = sorted((part / getattr(given, mode), mode) for mode in MODES for part in range(getattr(given, mode)))
    share = -(-given.changed // max(1, len(parts)))
    items = [
        Item(given.seed * 10**6 + place, mode, NETWORKS[place % len(NETWORKS)], share)
        for place, (_, mode) in enumerate(parts)
    ]
    faults, clock = shared.Faults(), shared.Clock(given.minutes)
    work = functools.partial(report, shared.command_of(given.program))
    reports_of: Counter[str] = Counter()
    shown = {mode: Figures() for mode in MODES}
    ends: Counter[tuple[str, str, str]] = Counter()
    for done in shared.side_by_side(given.jobs, work, items, clock):
        reports_of[done.mode] += 1
        shown[done.mode] = shown[done.mode].and_those(done.figures)
        ends += done.ends
        for line in done.opened:
            print(line, flush=True)
        for fault in done.faults:
            faults.add(fault)
    for mode in MODES:
        intervals, verdicts, refuted, is_open = shown[mode]
        told = f"{intervals} intervals and {verdicts} verdicts shown, {refuted} refuted, {is_open} open"
        print(f"{mode}: {reports_of[mode]} reports, {told}")
    for name in dict.fromkeys(change.__name__ for change in FURTHER_CHANGES):
        found = [(end, right, count) for (other, end, right), count in sorted(ends.items()) if other == name]
        print(f"{name}: " + ", ".join(f"{count} {end} ({right})" for end, right, count in found))
    shared.finish(faults, f"{reports_of.total()} reports", f"{ends.total()} changed ones")


if __name__ == "__main__":
    main()
