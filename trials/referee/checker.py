"""Says whether a report is right: each line against exact values (docs/FORMATS.md, the reports of the modes)."""

from __future__ import annotations

import re
from collections.abc import Callable, Iterable, Iterator, Sequence
from fractions import Fraction
from typing import NamedTuple, Optional

from referee.case import Transformer
from referee.certificate import GRAINS_PER_MILLIVOLT, Node, check_certificate, read_certificate
from referee.items import Intervals, ItemLine, Key, effective_key, effective_lines, item_lines
from referee.outcome import Outcome
from referee.plain_reports import PLAIN_REPORTS
from referee.report_text import NUMBER, ReportText, Unreadable, Want
from referee.study import Study
from referee.values import (
    NOTHING,
    Interval,
    Value,
    absolute,
    approximately,
    at_least,
    at_most,
    magnitude,
    sum_of_squares,
)
from referee.words import Refusal

VERDICTS = ("below", "reaches", "undecided", "outside")
# The numbers of units with each verdict, as a report tells them.
COUNTS: tuple[Want, ...] = tuple(word for verdict in VERDICTS for word in (verdict, None))
NUMBER_LIKE = re.compile(rb"[+-]?[0-9]+")
MOST_CERTIFIED_RADIUS = 2**31
# How far two floats of one number may differ, as a part of it.
FLOAT_SLACK = 1e-9
# What is asked of the interval of an item; it takes the label of the line besides.
Test = Callable[[Interval, str], None]


def verdict_of(unit: Transformer, interval: Interval, threshold: int) -> str:
    """The verdict of an interval of a unit's current."""
    if unit.is_outside:
        return "outside"
    return "reaches" if interval.low >= threshold else "below" if interval.high < threshold else "undecided"


class TestedLine(NamedTuple):
    """A line of an item, and the test of its interval, or None where its word has to stand."""

    line: ItemLine
    test: Optional[Test]


class Counts(NamedTuple):
    """How many units have each verdict."""

    below: int
    reaches: int
    undecided: int
    outside: int


class Checker:
    """Holds one report against the outcome of its run. With `exactly` all values are exact, and there is no Tie."""

    def __init__(self, outcome: Outcome, text: ReportText, exactly: bool = False) -> None:
        self.outcome, self.text, self.exactly = outcome, text, exactly
        self.asked, self.case = outcome.asked, outcome.case
        self.width, self.threshold = self.asked.width, self.asked.threshold

    def checks(self) -> dict[str, Callable[[], None]]:
        """The check of each mode whose reports can be written in more than one way."""
        return {
            "field": self.check_field,
            "screen": self.check_screen,
            "make": self.check_make,
            "certify": self.check_certify,
            "series": self.check_series,
        }

    def run(self) -> list[str]:
        """The faults of the report."""
        try:
            self.check()
            self.text.end()
        except Unreadable as unreadable:
            self.text.fault(str(unreadable))
        return self.text.faults

    def check(self) -> None:
        mode = self.outcome.mode
        if mode in PLAIN_REPORTS:
            for words in PLAIN_REPORTS[mode](self.outcome):
                self.text.line(*words)
        else:
            self.checks()[mode]()

    # What is asked of an interval.

    def interval(self, shown: Interval, label: str) -> None:
        low, high = shown
        if low > high:
            self.text.fault_here(f"{label}: LO {low} above HI {high}")
        if high - low > self.width:
            self.text.fault_here(f"{label}: {low} {high} is wider than {self.width}")

    def holds(self, shown: Interval, exact: Value, label: str) -> None:
        self.interval(shown, label)
        low, high = shown
        if not at_least(exact, low) or not at_most(exact, high):
            self.text.fault_here(f"{label}: {low} {high} does not hold the exact value {approximately(exact)}")

    def worst(self, shown: Interval, squares: Sequence[Value], label: str) -> None:
        """The interval holds the root of the greatest of the squares."""
        self.interval(shown, label)
        low, high = shown
        if low < 0:
            self.text.fault_here(f"{label}: begins below 0")
            return
        top = max(approximately(square) for square in squares)
        best = [square for square in squares if approximately(square) >= top * (1 - FLOAT_SLACK)]
        if not all(at_most(square, high**2) for square in best) or not any(at_least(square, low**2) for square in best):
            self.text.fault_here(f"{label}: {low} {high} does not hold the exact {top**0.5}")

    def check_verdict(
        self, shown: Interval, transformer: int, verdict: str, reaches: Callable[[], bool], label: str
    ) -> None:
        """The verdict is that of the printed interval, and true. `reaches` tells whether the exact current does."""
        wanted = verdict_of(self.case.transformers[transformer], shown, self.threshold)
        if verdict != wanted:
            self.text.fault_here(f"{label}: verdict {verdict}, but the printed interval has {wanted}")
        if verdict in ("below", "reaches") and reaches() != (verdict == "reaches"):
            self.text.fault_here(f"{label}: `{verdict}` is false of the exact current")

    def without_winding(self, has_winding: bool, shown: Interval, label: str) -> None:
        if not has_winding and shown != NOTHING:
            self.text.fault_here(f"{label}: no winding stands, so the interval is 0 0")

    def without_current(self, transformer: int, shown: Iterable[int], told: str) -> None:
        """A unit without an effective current has none of any kind."""
        if not self.case.transformers[transformer].has_current and any(shown):
            self.text.fault_here(told)

    # Lines of items.

    def tested_items(
        self, of_node: Callable[[int], Optional[Test]], of_element: Callable[[int], Optional[Test]]
    ) -> Iterator[TestedLine]:
        """Each line of a node or an element with its test, by the tests of nodes and of elements."""
        for line in item_lines(self.case):
            key = line.key
            test = None if key is None else of_node(key.place) if key.kind == "node" else of_element(key.place)
            yield TestedLine(line, test)

    def read_items(self, lines: Iterable[TestedLine], label: str = "") -> Intervals:
        """Reads the lines of items, and tells the printed interval of each key."""
        printed: Intervals = {}
        for (head, word, key), test in lines:
            shown = None
            if test is None:
                self.text.line(*head, word)
            else:
                shown = self.text.interval(*head)
                test(shown, label + " ".join(head))
            if key is not None:
                printed[key] = shown
        return printed

    def signed_items(self, study: Study, step: int, label: str = "") -> Intervals:
        """Reads the lines of one step with signs, down to the effective currents."""

        def held(exact: Optional[Value]) -> Optional[Test]:
            def test(shown: Interval, label: str) -> None:
                assert exact is not None
                self.holds(shown, exact, label)

            return None if exact is None else test

        def of_effective(transformer: int) -> Test:
            exact = study.effective_at(step, transformer)

            def test(shown: Interval, label: str) -> None:
                self.holds(shown, exact, label)
                self.without_winding(study.has_winding_at(step, transformer), shown, label)

            return test

        items = self.tested_items(
            lambda node: held(study.at(step, study.node, node)),
            lambda number: held(study.at(step, study.element, number)),
        )
        effective = (
            TestedLine(line, of_effective(place)) for place, line in enumerate(effective_lines(self.case))
        )
        return self.read_items(items, label) | self.read_items(effective, label)

    # The reports of the modes.

    def check_field(self) -> None:
        north, east = self.asked.north, self.asked.east
        study = Study.of_field(self.case, self.outcome.epochs, north, east, self.exactly)
        self.text.line("field")
        self.text.line("north", north, "east", east, "width", self.width, "threshold", self.threshold)
        printed = self.signed_items(study, 1)
        for place, unit in enumerate(self.case.transformers):
            (low, high), (verdict,) = self.text.line("transformer", unit.name, None, None, VERDICTS)
            shown, label = Interval(low, high), "transformer " + unit.name
            if shown != magnitude(interval_of(printed, effective_key(place))):
                self.text.fault_here(f"{label}: {low} {high} is not the absolute value of its effective line")
            exact = absolute(study.effective_at(1, place))
            self.holds(shown, exact, label)
            self.check_verdict(shown, place, verdict, lambda: at_least(exact, self.threshold), label)
        self.text.line("end")

    def check_screen(self) -> None:
        outcome = self.outcome
        study = Study.of_event(self.case, outcome.stand, outcome.live, self.asked.field, self.exactly)
        self.text.line("screen")
        self.text.line("width", self.width, "threshold", self.threshold, "field", self.asked.field)
        for place in range(len(self.case.transformers)):
            self.check_screen_line(study, place)
        self.text.line("end")

    def check_screen_line(self, study: Study, place: int) -> None:
        name = self.case.transformers[place].name
        intervals: tuple[Want, ...] = ("north", None, None, "east", None, None, "worst", None, None)
        ends, (verdict,) = self.text.line("transformer", name, *intervals, VERDICTS)
        to_north, to_east, worst = (Interval(*ends[first : first + 2]) for first in (0, 2, 4))
        north, east = (study.effective_at(step, place) for step in (1, 2))
        label = "transformer " + name
        self.holds(to_north, north, label + " north")
        self.holds(to_east, east, label + " east")
        square = sum_of_squares(north, east)
        self.worst(worst, [square], label + " worst")
        self.without_current(place, ends, f"{label}: it has no effective current, so each interval is 0 0")
        self.check_verdict(worst, place, verdict, lambda: at_least(square, self.threshold**2), label)

    def check_make(self) -> None:
        self.text.line("make")
        self.text.line("seed", self.asked.seed, "size", self.asked.size)
        self.text.line("nodes", len(self.case.nodes), "elements", len(self.case.elements))
        self.text.line("walk", max(self.outcome.vector))
        counts = Counts(*self.text.numbers(*COUNTS))
        self.text.line("end")
        study = Study.of_field(self.case, self.outcome.epochs, self.asked.field, 0, self.exactly)
        size = len(self.case.transformers)
        currents = [absolute(study.effective_at(1, place)) for place in range(size)]

        def reaching(threshold: int) -> int:
            return sum(at_least(current, threshold) for current in currents)

        if min(counts) < 0 or sum(counts) != size or counts.outside != 0:
            self.text.fault(f"make: the counts {tuple(counts)} are not those of {size} assessed transformers")
        reach = reaching(self.threshold)
        if not size - reaching(self.threshold - self.width) <= counts.below <= size - reach:
            self.text.fault(f"make: below {counts.below} is not right of {size - reach} exact ones")
        if not reaching(self.threshold + self.width) <= counts.reaches <= reach:
            self.text.fault(f"make: reaches {counts.reaches} is not right of {reach} exact ones")

    def check_certify(self) -> None:
        outcome, case = self.outcome, self.case
        north, east = self.asked.north, self.asked.east
        content = self.text.content
        self.text.take_all()
        try:
            certificate = read_certificate(content, case, outcome.live)
            volts = case.element_volts(None, north, east)
            check_certificate(case, outcome.stand, outcome.live, volts, certificate.nodes)
        except Refusal as refusal:
            self.text.fault(f"certify: the certificate does not pass: {refusal.line}")
            return
        if (certificate.north, certificate.east) != (north, east):
            self.text.fault("certify: its field is not that of the options")
        for word in re.split(rb"[\n ]", content):
            if NUMBER_LIKE.fullmatch(word) and not NUMBER.match(word.decode()) and word.decode() not in case.nodes:
                self.text.fault(f"certify: {word!r} is no number of the form asked")
        study = Study.of_field(case, outcome.epochs, north, east, self.exactly)
        for place, node in enumerate(certificate.nodes):
            exact = study.at(1, study.node, place)
            if node is not None and exact is not None:
                self.check_certified(node, exact, case.nodes[place])

    def check_certified(self, node: Node, exact: Value, name: str) -> None:
        if node.radius > MOST_CERTIFIED_RADIUS:
            self.text.fault(f"certify: node {name}: the radius {node.radius} is above 2^31")
        low, high = (Fraction(node.guess + way * node.radius, GRAINS_PER_MILLIVOLT) for way in (-1, 1))
        if not at_least(exact, low) or not at_most(exact, high):
            self.text.fault(f"certify: node {name} does not hold the exact potential")

    def check_series(self) -> None:
        place, steps = self.outcome.transformer, self.outcome.storm.steps
        study = Study.of_outcome(self.outcome, self.exactly)
        name = self.case.transformers[place].name
        self.text.line("series")
        self.text.line("width", self.width, "transformer", name, "steps", len(steps))
        for number, step in enumerate(steps, 1):
            shown, label = self.text.interval("step", number, "time", step.time), f"step {number}"
            self.holds(shown, study.effective_at(number, place), label)
            self.without_winding(study.has_winding_at(number, place), shown, label)
        self.text.line("end")


def interval_of(printed: Intervals, key: Key) -> Interval:
    """The interval of an item that always has one."""
    shown = printed[key]
    assert shown is not None
    return shown
