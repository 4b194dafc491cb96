"""Says whether a report of `study` is right: the step in detail, the peaks, and the texts of the monitors."""

from __future__ import annotations

from collections.abc import Callable, Sequence
from typing import Optional

from referee.checker import FLOAT_SLACK, VERDICTS, Checker, Test, interval_of
from referee.items import Intervals, Key, effective_key
from referee.outcome import Outcome
from referee.report_text import ReportText, Unreadable
from referee.study import Coefficients, Entry, QuantityOf, Study
from referee.values import Interval, Tie, Value, absolute, approximately, at_least, at_most, magnitude, total, value

LEAST_SLACK = 1e-300
# A network of a run, and the parts of a step's field in its base fields.
NetworkAndField = tuple[int, Coefficients]


def slack_of(entries: Sequence[Entry]) -> float:
    """How far the floats of the entries may be off."""
    return FLOAT_SLACK * max(entry.scale for entry in entries) + LEAST_SLACK


def exact_of(entry: Entry) -> Value:
    return value(entry.quantity, entry.coefficients)


def count_reaching(entries: Sequence[Entry], threshold: int) -> int:
    """At how many steps the absolute value is at least the threshold."""
    count = 0
    for entry in entries:
        if abs(abs(entry.about) - threshold) > FLOAT_SLACK * (entry.scale + abs(threshold)):
            count += entry.count if abs(entry.about) > threshold else 0
        elif at_least(absolute(exact_of(entry)), threshold):
            count += entry.count
    return count


class StudyChecker(Checker):
    def __init__(self, outcome: Outcome, text: ReportText, exactly: bool = False) -> None:
        super().__init__(outcome, text, exactly)
        self.study = Study.of_outcome(outcome, exactly)
        self.steps = outcome.storm.steps
        self.factors = [unit.loss_factor for unit in self.case.transformers]
        self.detail: Optional[Intervals] = None
        self.peaks: Intervals = {}
        self.known: dict[int, list[Entry]] = {}

    def check(self) -> None:
        self.text.line("study")
        self.text.line("width", self.width, "threshold", self.threshold, "steps", len(self.steps))
        if self.asked.detail is not None and self.asked.detail <= len(self.steps):
            self.check_detail(self.asked.detail)
        self.text.line("peaks")
        self.peaks = self.read_items(
            self.tested_items(
                lambda node: self.peak_test(self.study.node, Key("node", node)),
                lambda number: self.peak_test(self.study.element, Key("element", number)),
            ),
            "peak ",
        )
        for place, row in enumerate(self.case.transformers):
            self.check_transformer(place, row.name)
        for number, check in enumerate((self.check_dwell, self.check_earth, self.check_loss), 1):
            self.check_monitor(number, check)
        self.text.line("end")

    def check_detail(self, step: int) -> None:
        self.text.line("step", step, "time", self.steps[step - 1].time)
        for zone, row in enumerate(self.case.zones):
            north, east = self.study.fields[step - 1][zone]
            self.text.line("zone", row.name, "north", north, "east", east)
        self.detail = self.signed_items(self.study, step, "detail ")

    def detail_of(self, key: Key) -> Optional[Interval]:
        """The printed interval of an item in the step in detail, or None."""
        return None if self.detail is None else self.detail.get(key)

    def effective_entries(self, transformer: int) -> list[Entry]:
        if transformer not in self.known:
            self.known[transformer] = self.study.over_steps(self.study.effective, transformer)
        return self.known[transformer]

    # Peaks.

    def peak_test(self, quantity: QuantityOf, key: Key) -> Optional[Test]:
        """The test of a peak, or None where the item is at no step."""
        entries = self.study.over_steps(quantity, key.place)
        if not entries:
            return None

        def test(peak: Interval, label: str) -> None:
            self.check_peak(entries, key, peak, label)

        return test

    def check_peak(self, entries: Sequence[Entry], key: Key, peak: Interval, label: str) -> None:
        low, high = peak
        if low < 0:
            self.text.fault_here(f"{label}: begins below 0")
        self.interval(peak, label)
        slack = slack_of(entries)
        top = max(abs(entry.about) for entry in entries)
        best = [absolute(exact_of(entry)) for entry in entries if abs(entry.about) >= top - slack]
        if not all(at_most(exact, high) for exact in best):
            self.text.fault_here(f"{label}: {low} {high} ends below the exact peak {top}")
        elif not self.one_reaches(best, low):
            self.text.fault_here(f"{label}: {low} {high} begins above the exact peak {approximately(best[0])}")
        detail = self.detail_of(key)
        if detail is not None:
            shown = magnitude(detail)
            if low < shown.low or high < shown.high or (len(self.steps) == 1 and peak != shown):
                self.text.fault_here(f"{label}: peak {low} {high} does not agree with the detail step")

    @staticmethod
    def one_reaches(exacts: Sequence[Value], low: int) -> bool:
        """Whether one of the values is at least `low`; a Tie where that can't be said."""
        has_tie = False
        for exact in exacts:
            try:
                if at_least(exact, low):
                    return True
            except Tie:
                has_tie = True
        if has_tie:
            raise Tie
        return False

    def check_transformer(self, place: int, name: str) -> None:
        (low, high), (verdict,) = self.text.line("transformer", name, None, None, VERDICTS)
        peak, label = Interval(low, high), "peak transformer " + name
        entries = self.effective_entries(place)
        self.check_peak(entries, effective_key(place), peak, label)
        has_winding = any(self.study.has_winding(network, place) for network in range(len(self.study.networks)))
        self.without_winding(has_winding, peak, label)
        self.check_verdict(peak, place, verdict, lambda: count_reaching(entries, self.threshold) > 0, label)
        self.peaks[effective_key(place)] = peak

    # Monitors.

    def check_monitor(self, number: int, check: Callable[[], None]) -> None:
        """Reads the text of a monitor by itself."""
        (size,) = self.text.numbers("monitor", number, None)
        whole, self.text = self.text, ReportText(self.text.take(size))
        try:
            check()
            self.text.end()
        except Unreadable as unreadable:
            self.text.fault(str(unreadable))
        finally:
            own, self.text = self.text, whole
        for fault in own.faults:
            self.text.fault(f"monitor {number}: {fault}")

    def check_dwell(self) -> None:
        for place, row in enumerate(self.case.transformers):
            self.check_dwell_line(place, row.name)

    def check_dwell_line(self, place: int, name: str) -> None:
        certain, possible = self.text.numbers("dwell", name, None, None)
        entries, label = self.effective_entries(place), f"dwell {name}: {certain} {possible}"
        exact = count_reaching(entries, self.threshold)
        least = count_reaching(entries, self.threshold + self.width)
        most = count_reaching(entries, self.threshold - self.width)
        if not 0 <= certain <= exact <= possible <= len(self.steps):
            self.text.fault_here(f"{label} do not hold the exact count {exact} of {len(self.steps)}")
        if certain < least or possible > most:
            self.text.fault_here(f"{label}: the width allows {least} at least and {most} at most")
        low, high = interval_of(self.peaks, effective_key(place))
        if (certain > 0) != (low >= self.threshold) or (possible > 0) != (high >= self.threshold):
            self.text.fault_here(f"{label} do not agree with the peak {low} {high}")
        if self.detail is not None:
            # The step in detail counts where its interval reaches the threshold, and else is one that doesn't.
            for count, end in zip((certain, possible), magnitude(interval_of(self.detail, effective_key(place)))):
                reaches = end >= self.threshold
                if (reaches and count < 1) or (not reaches and count > len(self.steps) - 1):
                    self.text.fault_here(f"{label} do not agree with the detail step")

    def check_earth(self) -> None:
        for number in self.case.of_kind("ground"):
            name, entries = self.case.elements[number].name, self.study.over_steps(self.study.element, number)
            if entries:
                self.check_earth_line(Key("element", number), name, entries)
            else:
                self.text.line("earth", name, "open")

    def check_earth_line(self, key: Key, name: str, entries: Sequence[Entry]) -> None:
        earth = self.text.interval("earth", name)
        low, high = earth
        label, slack = f"earth {name}: {low} {high}", slack_of(entries)
        least, greatest = min(entry.about for entry in entries), max(entry.about for entry in entries)
        lows = [exact_of(entry) for entry in entries if entry.about <= least + slack]
        highs = [exact_of(entry) for entry in entries if entry.about >= greatest - slack]
        if low > high:
            self.text.fault_here(f"{label}: LO above HI")
        if not all(at_least(exact, low) for exact in lows) or not all(at_most(exact, high) for exact in highs):
            self.text.fault_here(f"{label} does not hold the exact range {least} {greatest}")
        if least > low + self.width + slack or greatest < high - self.width - slack:
            self.text.fault_here(f"{label} is wider than the intervals allow of {least} {greatest}")
        peak = self.peaks[key]
        if peak is not None and max(high, -low) != peak.high:
            self.text.fault_here(f"{label} does not agree with the peak {peak.low} {peak.high}")
        shown = self.detail_of(key)
        if shown is not None:
            is_one = len(self.steps) == 1 and earth != shown
            if low > shown.low or high < shown.high or is_one:
                self.text.fault_here(f"{label} does not agree with the detail step")

    def check_loss(self) -> None:
        low, high, step = self.text.numbers("loss", None, None, "step", None)
        keys = list(zip(self.study.network_at, self.study.coefficients))
        totals = self.float_totals(keys)
        top, room = max(totals.values()), sum(self.factors) * self.width
        slack = FLOAT_SLACK * top + 1e-6
        best = [self.exact_total(*key) for key, about in totals.items() if about >= top - slack]
        label = f"loss {low} {high} step {step}"
        if not all(at_most(exact, high) for exact in best):
            self.text.fault_here(f"{label}: ends below the exact greatest total {top}")
        if not any(at_least(exact, low) for exact in best):
            self.text.fault_here(f"{label}: begins above the exact greatest total {top}")
        if low > high or high > top + room + slack or low < top - room - slack:
            self.text.fault_here(f"{label}: wider than the intervals allow of {top}")
        peaks = self.weighed(self.peaks)
        if low > peaks.low or high > peaks.high:
            self.text.fault_here(f"{label}: above what the peaks allow")
        if not 1 <= step <= len(self.steps):
            self.text.fault_here(f"{label}: there is no such step")
        elif totals[keys[step - 1]] + room + slack < high:
            self.text.fault_here(f"{label}: this step cannot have the greatest high end")
        if self.detail is not None:
            self.check_loss_of_detail(Interval(low, high), step, self.weighed(self.detail), label)

    def check_loss_of_detail(self, loss: Interval, step: int, detail: Interval, label: str) -> None:
        shown = self.asked.detail
        assert shown is not None
        is_passed = detail.high == loss.high and step > shown
        is_other = step == shown and loss.high != detail.high
        if loss.low < detail.low or loss.high < detail.high or is_passed or is_other:
            self.text.fault_here(f"{label}: does not agree with the detail step, {detail.low} {detail.high}")

    def weighed(self, intervals: Intervals) -> Interval:
        """The total of the absolute values of all effective currents, by their factors."""
        sizes = [magnitude(interval_of(intervals, effective_key(place))) for place in range(len(self.factors))]
        return Interval(
            sum(factor * size.low for factor, size in zip(self.factors, sizes)),
            sum(factor * size.high for factor, size in zip(self.factors, sizes)),
        )

    def float_totals(self, keys: Sequence[NetworkAndField]) -> dict[NetworkAndField, float]:
        """The total of each network and field, in floats."""
        currents: dict[int, list[list[float]]] = {}
        totals: dict[NetworkAndField, float] = {}
        for network, coefficients in dict.fromkeys(keys):
            if network not in currents:
                quantities = [self.study.effective(network, place) for place in range(len(self.factors))]
                currents[network] = [exact.floats() for exact in quantities]
            totals[network, coefficients] = sum(
                factor * abs(sum(part * number for part, number in zip(coefficients, numbers)))
                for factor, numbers in zip(self.factors, currents[network])
            )
        return totals

    def exact_total(self, network: int, coefficients: Coefficients) -> Value:
        return total(
            [
                (factor, absolute(value(self.study.effective(network, place), coefficients)))
                for place, factor in enumerate(self.factors)
            ]
        )
