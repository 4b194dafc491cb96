"""Says whether a report of `outage` is right."""

from __future__ import annotations

from collections.abc import Sequence
from typing import Optional

from referee.checker import COUNTS, VERDICTS, Checker, Counts
from referee.outages import Outage, outages
from referee.study import Study
from referee.values import Interval, Value, at_least, sum_of_squares


class OutageChecker(Checker):
    def squares(self, outage: Outage) -> list[Value]:
        """For each transformer the square of its worst current that is left without what is out."""
        study = Study.of_event(self.case, outage.stand, outage.live, self.asked.field, self.exactly)
        return [
            sum_of_squares(study.effective_at(1, transformer), study.effective_at(2, transformer))
            for transformer in range(len(self.case.transformers))
        ]

    def check_outage_line(self, name: str, squares: Sequence[Value], assessed: Sequence[int]) -> Counts:
        """Reads the counts of one outage."""
        counts = Counts(*self.text.numbers("outage", name, *COUNTS))
        label = f"outage {name}"
        if counts.outside != len(squares) - len(assessed) or sum(counts) != len(squares) or min(counts) < 0:
            self.text.fault_here(f"{label}: the counts do not add up")

        def reaching(threshold: int) -> int:
            return sum(at_least(squares[place], threshold**2) for place in assessed)

        reach = reaching(self.threshold)
        if not reaching(self.threshold + self.width) <= counts.reaches <= reach:
            self.text.fault_here(f"{label}: reaches {counts.reaches} is not right of {reach} exact ones")
        if not len(assessed) - reaching(self.threshold - self.width) <= counts.below <= len(assessed) - reach:
            self.text.fault_here(f"{label}: below {counts.below} is not right of {len(assessed) - reach} exact ones")
        return counts

    def check(self) -> None:
        assessed = [place for place, unit in enumerate(self.case.transformers) if not unit.is_outside]
        counted: list[Counts] = []
        solved: list[list[Value]] = []
        self.text.line("outage")
        self.text.line("width", self.width, "threshold", self.threshold, "field", self.asked.field)
        for outage in outages(self.outcome):
            if outage.words:
                self.text.line("outage", outage.name, *outage.words)
            else:
                solved.append(self.squares(outage))
                counted.append(self.check_outage_line(outage.name, solved[-1], assessed))
        verdicts = [self.check_outage_transformer(place, solved) for place in range(len(self.case.transformers))]
        self.text.line("end")
        reaching, undecided = sum(counts.reaches for counts in counted), sum(counts.undecided for counts in counted)
        told = verdicts.count("reaches")
        if (told > 0) != (reaching > 0) or told > reaching or verdicts.count("undecided") > undecided:
            self.text.fault("outage: the verdicts do not agree with the counts")

    def check_outage_transformer(self, place: int, solved: Sequence[Sequence[Value]]) -> Optional[str]:
        """Reads the line of one transformer over all outages; it tells the verdict."""
        name = self.case.transformers[place].name
        if not solved:
            self.text.line("transformer", name, "none")
            return None
        (low, high), (verdict,) = self.text.line("transformer", name, "worst", None, None, VERDICTS)
        squares = [outage[place] for outage in solved]
        worst, label = Interval(low, high), "transformer " + name
        self.worst(worst, squares, label)
        self.without_current(place, worst, f"{label}: it has no effective current, so the interval is 0 0")

        def reaches() -> bool:
            return any(at_least(square, self.threshold**2) for square in squares)

        self.check_verdict(worst, place, verdict, reaches, label)
        return verdict
