"""Says whether a report of `robust` is right, as far as exact currents and the reference enclosures tell
(docs/FORMATS.md)."""

from __future__ import annotations

from referee.checker import VERDICTS, Checker, verdict_of
from referee.grounds import Ends, Varied, worst_of
from referee.report_text import Want
from referee.values import Interval

INTERVALS: tuple[Want, ...] = ("north", None, None, "east", None, None, "worst", None, None)


class RobustChecker(Checker):
    """The intervals to the north and to the east have to hold the currents of all networks within the tolerance that are
    tried, and may begin and end no more than the width beyond the reference enclosure; the third is made of these two."""

    def check(self) -> None:
        outcome, asked = self.outcome, self.asked
        assert asked.tolerance is not None
        self.varied = Varied(self.case, outcome.stand, asked.field, asked.tolerance)
        self.text.line("robust")
        self.text.line(
            "width", self.width, "threshold", self.threshold, "field", asked.field, "tolerance", asked.tolerance
        )
        enclosures, hulls = self.varied.enclosures(), self.varied.hulls()
        for place in range(len(self.case.transformers)):
            self.check_row(place, enclosures[place], hulls[place])
        self.text.line("end")

    def check_row(self, place: int, enclosures: list[Ends], hulls: list[Ends]) -> None:
        name = self.case.transformers[place].name
        ends, (verdict,) = self.text.line("transformer", name, *INTERVALS, VERDICTS)
        north, east, worst = (Interval(*ends[first : first + 2]) for first in (0, 2, 4))
        label = "transformer " + name
        for told, shown, enclosure, hull in zip(("north", "east"), (north, east), enclosures, hulls):
            self.check_current(shown, enclosure, hull, f"{label} {told}")
        if worst != worst_of(north, east):
            self.text.fault_here(f"{label} worst: {worst.low} {worst.high} is not that of its other two")
        if not self.varied.has_effect(place) and any(ends):
            self.text.fault_here(f"{label}: no standing winding has a weight, so each interval is 0 0")
        wanted = verdict_of(self.case.transformers[place], worst, self.threshold)
        if verdict != wanted:
            self.text.fault_here(f"{label}: verdict {verdict}, but the printed interval has {wanted}")

    def check_current(self, shown: Interval, enclosure: Ends, hull: Ends, label: str) -> None:
        low, high = shown
        if low > hull.low or high < hull.high:
            self.text.fault_here(f"{label}: {low} {high} does not hold {float(hull.low)} and {float(hull.high)}")
        if low < enclosure.low - self.width or high > enclosure.high + self.width:
            told = f"{float(enclosure.low)} {float(enclosure.high)}"
            self.text.fault_here(f"{label}: {low} {high} is more than {self.width} beyond {told}")
