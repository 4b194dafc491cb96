"""Reports of exact values, as the program might print them.

They share with the checker what a report's lines are of (`items`, `outages`, `plain_reports`) and the rule of verdicts; each
number of a report with intervals is worked out here.
"""

from __future__ import annotations

import random
from collections.abc import Callable, Iterable, Iterator, Sequence
from fractions import Fraction
from math import ceil, floor, isqrt
from typing import NamedTuple, Optional, Union

from referee.case import Live, Stand
from referee.certificate import GRAINS_PER_MILLIVOLT, Node, check_certificate
from referee.checker import VERDICTS, interval_of, verdict_of
from referee.earthing import least_capped
from referee.grounds import Ends, Varied, root_up, worst_of
from referee.items import Intervals, Key, effective_key, effective_lines, item_lines
from referee.outages import Outage, outages
from referee.outcome import Outcome
from referee.plain_reports import PLAIN_REPORTS
from referee.study import Study
from referee.values import NOTHING, Interval, Value, magnitude, rounded_down, rounded_up, sum_of_squares


def peak(intervals: Iterable[Optional[Interval]]) -> Optional[Interval]:
    """The peak of intervals, or None where there is none."""
    sizes = [magnitude(interval) for interval in intervals if interval is not None]
    return Interval(max(size.low for size in sizes), max(size.high for size in sizes)) if sizes else None


class Worst(NamedTuple):
    """The intervals of a transformer to the north, to the east and for the worst orientation."""

    north: Interval
    east: Interval
    worst: Interval


class Report:
    def __init__(self, outcome: Outcome, has_slack: bool) -> None:
        self.outcome, self.asked, self.case = outcome, outcome.asked, outcome.case
        self.draw = random.Random(5) if has_slack else None
        self.parts: list[str] = []
        self.width, self.threshold = self.asked.width, self.asked.threshold

    def say(self, *words: Union[str, int, None]) -> None:
        self.parts.append(" ".join(str(word) for word in words) + "\n")

    def writers(self) -> dict[str, Callable[[], None]]:
        """What writes the report of each mode whose reports can be written in more than one way."""
        return {
            "field": self.say_field,
            "screen": self.say_screen,
            "make": self.say_make,
            "certify": self.say_certify,
            "study": self.say_study,
            "series": self.say_series,
            "outage": self.say_outage,
            "robust": self.say_robust,
        }

    def text(self) -> bytes:
        mode = self.outcome.mode
        if mode in PLAIN_REPORTS:
            for words in PLAIN_REPORTS[mode](self.outcome):
                self.say(*words)
        else:
            self.writers()[mode]()
        return "".join(self.parts).encode()

    # Intervals.

    def interval(self, exact: Value) -> Interval:
        """The narrowest interval of a value, or a wider one of up to the width."""
        return self.widened(rounded_down(exact), rounded_up(exact))

    def root(self, square: Value) -> Interval:
        """The same of the root of a value."""
        return self.widened(isqrt(rounded_down(square)), root_up(rounded_up(square)))

    def widened(self, low: int, high: int) -> Interval:
        if self.draw is None:
            return Interval(low, high)
        room = self.width - (high - low)
        below = self.draw.randrange(room + 1)
        return Interval(low - below, high + self.draw.randrange(room - below + 1))

    def effective(self, study: Study, step: int, transformer: int) -> Interval:
        has_winding = study.has_winding_at(step, transformer)
        return self.interval(study.effective_at(step, transformer)) if has_winding else NOTHING

    def effectives(self, study: Study, step: int) -> list[Interval]:
        return [self.effective(study, step, place) for place in range(len(self.case.transformers))]

    def view(self, study: Study, step: int) -> Intervals:
        """The intervals of one step."""
        view: Intervals = {}
        for node in range(len(self.case.nodes)):
            exact = study.at(step, study.node, node)
            view[Key("node", node)] = None if exact is None else self.interval(exact)
        for number in range(len(self.case.elements)):
            exact = study.at(step, study.element, number)
            view[Key("element", number)] = None if exact is None else self.interval(exact)
        for place, interval in enumerate(self.effectives(study, step)):
            view[effective_key(place)] = interval
        return view

    def verdict(self, place: int, interval: Interval) -> str:
        return verdict_of(self.case.transformers[place], interval, self.threshold)

    # Lines that reports share.

    def say_items(self, view: Intervals) -> None:
        for head, word, key in item_lines(self.case):
            shown = None if key is None else view[key]
            if shown is None:
                self.say(*head, word)
            else:
                self.say(*head, *shown)

    def say_effective(self, view: Intervals) -> None:
        for place, line in enumerate(effective_lines(self.case)):
            self.say(*line.head, *interval_of(view, effective_key(place)))

    def say_transformers(self, intervals: Iterable[Interval]) -> None:
        for place, interval in enumerate(intervals):
            self.say("transformer", self.case.transformers[place].name, *interval, self.verdict(place, interval))

    def say_counts(self, verdicts: Sequence[str], *head: str) -> None:
        counts = [f"{verdict} {verdicts.count(verdict)}" for verdict in VERDICTS]
        self.say(*head, *counts)

    # The reports of the modes.

    def study_of(self, north: int, east: int) -> Study:
        return Study.of_field(self.case, self.outcome.epochs, north, east, True)

    def say_field(self) -> None:
        north, east = self.asked.north, self.asked.east
        self.say("field")
        self.say("north", north, "east", east, "width", self.width, "threshold", self.threshold)
        view = self.view(self.study_of(north, east), 1)
        self.say_items(view)
        self.say_effective(view)
        places = range(len(self.case.transformers))
        self.say_transformers(magnitude(interval_of(view, effective_key(place))) for place in places)
        self.say("end")

    def worst_currents(self, stand: Stand, live: Live) -> Iterator[Worst]:
        """The intervals of each transformer."""
        study = Study.of_event(self.case, stand, live, self.asked.field, True)
        north, east = (self.effectives(study, step) for step in (1, 2))
        for place, unit in enumerate(self.case.transformers):
            low, high = self.root(sum_of_squares(*(study.effective_at(step, place) for step in (1, 2))))
            worst = Interval(max(low, 0), high) if unit.has_current else NOTHING
            yield Worst(north[place], east[place], worst)

    def say_screen(self) -> None:
        self.say("screen")
        self.say("width", self.width, "threshold", self.threshold, "field", self.asked.field)
        currents = self.worst_currents(self.outcome.stand, self.outcome.live)
        for place, (north, east, worst) in enumerate(currents):
            self.say_worst(place, Worst(north, east, worst))
        self.say("end")

    def say_worst(self, place: int, currents: Worst) -> None:
        name, verdict = self.case.transformers[place].name, self.verdict(place, currents.worst)
        self.say(
            *("transformer", name, "north", *currents.north, "east", *currents.east),
            *("worst", *currents.worst, verdict),
        )

    def say_robust(self) -> None:
        outcome, asked = self.outcome, self.asked
        assert asked.tolerance is not None
        varied = Varied(self.case, outcome.stand, asked.field, asked.tolerance)
        self.say("robust")
        self.say(
            "width", self.width, "threshold", self.threshold, "field", asked.field, "tolerance", asked.tolerance
        )
        for place, enclosures in enumerate(varied.enclosures()):
            if varied.has_effect(place):
                north, east = (self.rounded_outward(enclosure) for enclosure in enclosures)
            else:
                north, east = NOTHING, NOTHING
            self.say_worst(place, Worst(north, east, worst_of(north, east)))
        self.say("end")

    def rounded_outward(self, enclosure: Ends) -> Interval:
        """The narrowest interval of an enclosure, or one that is up to the width longer at either end."""
        low, high = floor(enclosure.low), ceil(enclosure.high)
        if self.draw is None:
            return Interval(low, high)
        return Interval(low - self.draw.randrange(self.width), high + self.draw.randrange(self.width))

    def say_make(self) -> None:
        self.say("make")
        self.say("seed", self.asked.seed, "size", self.asked.size)
        self.say("nodes", len(self.case.nodes), "elements", len(self.case.elements))
        self.say("walk", max(self.outcome.vector))
        study = Study.of_field(self.case, self.outcome.epochs, self.asked.field, 0, False)
        currents = enumerate(self.effectives(study, 1))
        self.say_counts([self.verdict(place, magnitude(interval)) for place, interval in currents])
        self.say("end")

    def say_certify(self) -> None:
        case, outcome = self.case, self.outcome
        north, east = self.asked.north, self.asked.east
        study, volts = self.study_of(north, east), case.element_volts(None, north, east)
        vector = least_capped(case, outcome.stand)
        nodes: list[Optional[Node]] = []
        for place in range(len(case.nodes)):
            exact = study.at(1, study.node, place)
            if exact is None:
                nodes.append(None)
            else:
                guess = round(Fraction(exact.low * GRAINS_PER_MILLIVOLT, exact.denominator))
                nodes.append(Node(vector[place], guess, 2**126))
        step = check_certificate(case, outcome.stand, outcome.live, volts, nodes)
        self.say("certificate")
        self.say("nodes", len(case.nodes), "north", north, "east", east)
        for name, node in zip(case.nodes, nodes):
            if node is None:
                self.say("cert", name, "dead")
            else:
                self.say("cert", name, node.entry, node.guess, node.entry * step)
        self.say("end")

    def say_study(self) -> None:
        steps, study = self.outcome.storm.steps, Study.of_outcome(self.outcome, True)
        views = [self.view(study, step) for step in range(1, len(steps) + 1)]
        self.say("study")
        self.say("width", self.width, "threshold", self.threshold, "steps", len(steps))
        shown = self.asked.detail
        if shown is not None and shown <= len(steps):
            self.say("step", shown, "time", steps[shown - 1].time)
            for zone, row in enumerate(self.case.zones):
                north, east = study.fields[shown - 1][zone]
                self.say("zone", row.name, "north", north, "east", east)
            self.say_items(views[shown - 1])
            self.say_effective(views[shown - 1])
        self.say("peaks")
        peaks: Intervals = {key: peak(view[key] for view in views) for key in views[0]}
        self.say_items(peaks)
        places = range(len(self.case.transformers))
        self.say_transformers(interval_of(peaks, effective_key(place)) for place in places)
        for number, text in enumerate((self.dwells(views), self.earthings(views), self.losses(views)), 1):
            self.say("monitor", number, len(text))
            self.parts.append(text)
        self.say("end")

    def sizes(self, views: Sequence[Intervals], transformer: int) -> list[Interval]:
        """The absolute values of an effective current."""
        return [magnitude(interval_of(view, effective_key(transformer))) for view in views]

    def dwells(self, views: Sequence[Intervals]) -> str:
        lines = []
        for place, unit in enumerate(self.case.transformers):
            sizes = self.sizes(views, place)
            certain = sum(size.low >= self.threshold for size in sizes)
            possible = sum(size.high >= self.threshold for size in sizes)
            lines.append(f"dwell {unit.name} {certain} {possible}\n")
        return "".join(lines)

    def earthings(self, views: Sequence[Intervals]) -> str:
        lines = []
        for number in self.case.of_kind("ground"):
            shown = [interval for view in views if (interval := view[Key("element", number)]) is not None]
            ends = f"{min(one.low for one in shown)} {max(one.high for one in shown)}" if shown else "open"
            lines.append(f"earth {self.case.elements[number].name} {ends}\n")
        return "".join(lines)

    def losses(self, views: Sequence[Intervals]) -> str:
        lows, highs = [0] * len(views), [0] * len(views)
        for place, unit in enumerate(self.case.transformers):
            for step, size in enumerate(self.sizes(views, place)):
                lows[step] += unit.loss_factor * size.low
                highs[step] += unit.loss_factor * size.high
        return f"loss {max(lows)} {max(highs)} step {highs.index(max(highs)) + 1}\n"

    def say_series(self) -> None:
        steps, place = self.outcome.storm.steps, self.outcome.transformer
        study = Study.of_outcome(self.outcome, True)
        self.say("series")
        self.say("width", self.width, "transformer", self.case.transformers[place].name, "steps", len(steps))
        for number, step in enumerate(steps, 1):
            self.say("step", number, "time", step.time, *self.effective(study, number, place))
        self.say("end")

    def say_outage(self) -> None:
        self.say("outage")
        self.say("width", self.width, "threshold", self.threshold, "field", self.asked.field)
        solved = [currents for outage in outages(self.outcome) if (currents := self.say_one_outage(outage)) is not None]
        for place, unit in enumerate(self.case.transformers):
            worst = peak(currents[place] for currents in solved)
            if worst is None:
                self.say("transformer", unit.name, "none")
            else:
                self.say("transformer", unit.name, "worst", *worst, self.verdict(place, worst))
        self.say("end")

    def say_one_outage(self, outage: Outage) -> Optional[list[Interval]]:
        """The worst currents without what is out, where that is solved."""
        if outage.words:
            self.say("outage", outage.name, *outage.words)
            return None
        currents = [current.worst for current in self.worst_currents(outage.stand, outage.live)]
        verdicts = [self.verdict(place, worst) for place, worst in enumerate(currents)]
        self.say_counts(verdicts, "outage", outage.name)
        return currents
