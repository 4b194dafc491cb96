"""Two reports of `screen` or `outage` beside each other: who changes, by how much, who crosses the threshold.

An interval holds the exact worst current, so the exact change lies from the low end afterwards less the high end before
to the high end afterwards less the low end before.
"""

import dataclasses
from collections.abc import Sequence

from .counts import plural
from .decimals import MILLI, shifted, signed
from .findings import Finding, Refused, visible
from .forms import Interval
from .reports import VERDICTS, Outage, Outcome, Screen, Unit, read_report
from .tables import Table

Compared = Screen | Outage
ASSESSED = ("below", "undecided", "reaches")
# How a verdict goes over into another, as far as it says something of the threshold.
CROSSINGS = {
    ("below", "reaches"): "up",
    ("below", "undecided"): "perhaps up",
    ("undecided", "reaches"): "perhaps up",
    ("reaches", "below"): "down",
    ("reaches", "undecided"): "perhaps down",
    ("undecided", "below"): "perhaps down",
}


@dataclasses.dataclass(frozen=True)
class Change:
    """A transformer in both reports."""

    before: Unit
    after: Unit

    @property
    def name(self) -> str:
        return self.before.name

    @property
    def by(self) -> Interval | None:
        """What the change of the exact worst current lies in; None where one of the two has no interval."""
        if self.before.value is None or self.after.value is None:
            return None
        return self.after.value - self.before.value

    @property
    def certain(self) -> bool:
        """Whether the exact worst current has changed for certain."""
        return self.by is not None and not self.by.low <= 0 <= self.by.high

    @property
    def told(self) -> bool:
        """Whether the reports tell a change at all: another interval, another verdict, or one of the two without."""
        return self.before != self.after

    @property
    def size(self) -> int:
        """How great the change may be; one without a number comes before all."""
        return 10**60 if self.by is None else max(abs(self.by.low), abs(self.by.high))

    @property
    def crossing(self) -> str:
        """Which way the transformer crosses the threshold, each verdict by its own report's; empty where it doesn't."""
        before, after = self.before.verdict, self.after.verdict
        if before != after and (before in ASSESSED) != (after in ASSESSED):
            return f"{before} to {after}"
        return CROSSINGS.get((before, after), "")


@dataclasses.dataclass(frozen=True)
class Comparison:
    """All that two reports say of each other."""

    changes: list[Change]  # of the transformers in both, the greatest first
    gone: list[Unit]  # in the report before alone
    new: list[Unit]  # in the report after alone
    outcomes: list[tuple[str, Outcome | None, Outcome | None]]  # of items whose outage ends otherwise


def compare(before: Compared, after: Compared) -> Comparison:
    units = [{unit.name: unit for unit in report.units} for report in (before, after)]
    changes = [Change(unit, units[1][name]) for name, unit in units[0].items() if name in units[1]]
    changes.sort(key=lambda change: (-change.size, change.name))
    return Comparison(
        changes,
        [unit for name, unit in units[0].items() if name not in units[1]],
        [unit for name, unit in units[1].items() if name not in units[0]],
        changed_outcomes(before, after),
    )


def changed_outcomes(before: Compared, after: Compared) -> list[tuple[str, Outcome | None, Outcome | None]]:
    """The items whose outage ends otherwise, or stands in one report alone; none where one of the two is a screen."""
    if not (isinstance(before, Outage) and isinstance(after, Outage)):
        return []
    old, new = ({outcome.item: outcome for outcome in report.outcomes} for report in (before, after))
    return [(item, old.get(item), new.get(item)) for item in {**old, **new} if old.get(item) != new.get(item)]


def read_compared(names: Sequence[str]) -> list[tuple[str, Compared]]:
    """The two reports with the words of their modes; what is wrong with either is told at once."""
    reports: list[tuple[str, Compared]] = []
    findings: list[Finding] = []
    for name in names:
        try:
            mode, report = read_report(name)
            if isinstance(report, Screen | Outage) and mode != "robust":
                reports.append((mode, report))
            else:
                words = f"it is a report of {mode}; compare takes two of screen, two of outage, or one of each"
                findings.append(Finding(name, words, 1))
        except Refused as refused:
            findings += refused.findings
    if findings:
        raise Refused(findings)
    return reports


def interval_text(value: Interval | None) -> str:
    return "none" if value is None else f"{shifted(value.low, MILLI)} to {shifted(value.high, MILLI)}"


def change_text(value: Interval | None) -> str:
    return "" if value is None else f"{signed(value.low, MILLI)} to {signed(value.high, MILLI)}"


def outcome_text(outcome: Outcome | None) -> str:
    """How an outage ends, in the words of the report."""
    if outcome is None:
        return "not there"
    if outcome.counts:
        return " ".join(f"{verdict} {many}" for verdict, many in zip(VERDICTS, outcome.counts))
    return f"{outcome.word} {outcome.node}".rstrip()


def head_facts(mode: str, report: Compared) -> dict[str, str]:
    """What the first two lines of a report say."""
    return {
        "report": mode,
        "threshold": f"{shifted(report.threshold, MILLI)} A",
        "field": f"{shifted(report.field, MILLI)} V/km",
        "width": f"{shifted(report.width, MILLI)} A",
    }


def head_text(names: Sequence[str], reports: Sequence[tuple[str, Compared]]) -> str:
    facts = [head_facts(mode, report) for mode, report in reports]
    text = ""
    for place, name, fact in zip(("before", "after"), names, facts):
        text += f"{place}: {visible(name)}: " + ", ".join(f"{key} {value}" for key, value in fact.items()) + "\n"
    for key in facts[0]:
        if facts[0][key] != facts[1][key]:
            text += f"the head lines differ: {key} {facts[0][key]} before, {facts[1][key]} after\n"
    return text


def sum_text(comparison: Comparison) -> str:
    told = [change for change in comparison.changes if change.told]
    certain = sum(change.certain for change in told)
    alike = len(comparison.changes) - len(told)
    crossings = [change.crossing for change in told]
    lines = [
        f"{plural(len(comparison.changes), 'transformer')} in both reports: {certain} changed for certain, "
        f"{len(told) - certain} perhaps, {alike} told alike",
        f"across the threshold: {crossings.count('up')} up, {crossings.count('down')} down, "
        f"{sum(word.startswith('perhaps') for word in crossings)} perhaps",
    ]
    for what, units in (("before", comparison.gone), ("after", comparison.new)):
        if units:
            lines.append(f"in the report {what} alone: {' '.join(unit.name for unit in units)}")
    return "\n".join(lines) + "\n"


def verdict_text(before: str | None, after: str) -> str:
    """A verdict, and in front of it an earlier one, where there is one and it was another."""
    return after if before in (None, after) else f"{before} to {after}"


def report_text(names: Sequence[str], reports: Sequence[tuple[str, Compared]], comparison: Comparison) -> str:
    """What is shown of a comparison: the heads, the sums, and what is told otherwise, the greatest change first."""
    text = head_text(names, reports) + sum_text(comparison)
    told = [change for change in comparison.changes if change.told]
    rows = [
        (
            change.name,
            interval_text(change.before.value),
            interval_text(change.after.value),
            change_text(change.by),
            verdict_text(change.before.verdict, change.after.verdict),
            change.crossing if " to " not in change.crossing else "",
        )
        for change in told
    ]
    if rows:
        heads = ("transformer", "before, A", "after, A", "change, A", "verdict", "crosses")
        text += "\n" + Table(heads, rows).columns(heads[1:4])
    outcomes = [(item, outcome_text(old), outcome_text(new)) for item, old, new in comparison.outcomes]
    if outcomes:
        text += "\n" + Table(("outage", "before", "after"), outcomes).columns()
    return text


def ends_or_nothing(value: Interval | None) -> tuple[str, str]:
    return ("", "") if value is None else (shifted(value.low, MILLI), shifted(value.high, MILLI))


def comparison_table(comparison: Comparison) -> Table:
    """Every transformer of either report, those in both first, and then the items whose outage ends otherwise."""
    heads = (
        "kind,name,before_low_A_per_phase,before_high_A_per_phase,before,after_low_A_per_phase,"
        "after_high_A_per_phase,after,change_low_A_per_phase,change_high_A_per_phase,crosses"
    ).split(",")
    rows: list[tuple[str, ...]] = []
    for change in comparison.changes:
        before = (*ends_or_nothing(change.before.value), change.before.verdict)
        after = (*ends_or_nothing(change.after.value), change.after.verdict)
        rows.append(("transformer", change.name, *before, *after, *ends_or_nothing(change.by), change.crossing))
    absent = ("", "", "not there")
    for unit in comparison.gone:
        there = (*ends_or_nothing(unit.value), unit.verdict)
        rows.append(("transformer", unit.name, *there, *absent, "", "", ""))
    for unit in comparison.new:
        there = (*ends_or_nothing(unit.value), unit.verdict)
        rows.append(("transformer", unit.name, *absent, *there, "", "", ""))
    for item, old, new in comparison.outcomes:
        rows.append(("outage", item, "", "", outcome_text(old), "", "", outcome_text(new), "", "", ""))
    return Table(heads, rows)
