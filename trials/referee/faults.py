"""What is wrong of a run: its status, its line, and each line of its report."""

from __future__ import annotations

from typing import Optional

from referee.checker import Checker
from referee.outage_checker import OutageChecker
from referee.outcome import Outcome
from referee.report_text import ReportText
from referee.robust_checker import RobustChecker
from referee.study_checker import StudyChecker
from referee.values import Tie

CHECKERS: dict[str, type[Checker]] = {"study": StudyChecker, "outage": OutageChecker, "robust": RobustChecker}


def report_faults(outcome: Outcome, output: bytes) -> list[str]:
    """The faults of a report, by enclosures, and exactly where these don't decide."""
    checker = CHECKERS.get(outcome.mode, Checker)
    try:
        return checker(outcome, ReportText(output)).run()
    except Tie:
        return checker(outcome, ReportText(output), exactly=True).run()


def run_faults(outcome: Outcome, status: Optional[int], output: bytes, told: bytes) -> list[str]:
    """What is wrong of a run that ended so: its status, its output, and what it told on the error stream."""
    if status != outcome.status:
        wanted = f"{outcome.status} ({outcome.line})" if outcome.line else str(outcome.status)
        return [f"status {status}, expected {wanted}; told {told[:100]!r}"]
    line = b"" if outcome.line is None else outcome.line.encode() + b"\n"
    faults = [] if told == line else [f"told {told[:120]!r}, expected {line!r}"]
    if outcome.status == 0:
        return faults + report_faults(outcome, output)
    return faults + ([f"status {status}, but the output has {output[:80]!r}"] if output else [])
