#!/usr/bin/env python3
"""Tests of tightness.py without a program: currents at corners beside exact ones, and the numbers of its table.

    python3 .ci/tests.py trials/tests/test_tightness.py
"""

from __future__ import annotations

import tempfile
import unittest
from pathlib import Path
from unittest import mock

import tightness
from referee.case import read_case
from referee.grounds import Varied
from referee.outcome import Outcome, predict
from referee.reference import Report
from referee.values import Interval
from run_cases import CASES, fill, read_text, read_words_file
from tightness import Compared, Corners, Hull, Line, Measured, Span


def outcome_of(folder: Path) -> Outcome:
    with tempfile.TemporaryDirectory() as scratch:
        fill(folder, scratch)
        return predict(read_words_file(folder, "words") or [], scratch)


def varied_of(outcome: Outcome) -> Varied:
    assert outcome.asked.tolerance is not None
    return Varied(outcome.case, outcome.stand, outcome.asked.field, outcome.asked.tolerance)


class AtCorners(unittest.TestCase):
    def assert_exact(self, varied: Varied) -> None:
        """Each transformer's currents at corners are those of exact solves."""
        exact, found = varied.hulls(), Corners(varied).hulls()
        self.assertTrue(any(hull.worst.width for hull in found.values()))
        for unit, hull in found.items():
            for span, ends in zip(hull[:2], exact[unit]):
                self.assertAlmostEqual(span.low, float(ends.low), delta=1e-6)
                self.assertAlmostEqual(span.high, float(ends.high), delta=1e-6)

    def test_currents_are_those_of_exact_solves(self) -> None:
        for name in ("robust_three_in_a_chain", "robust_corner_that_turns", "format_3_robust_all_kinds"):
            with self.subTest(name):
                self.assert_exact(varied_of(outcome_of(CASES / name)))

    def test_each_part_has_grounds_of_its_own(self) -> None:
        text = read_text(CASES / "robust_corner_that_turns", "p")
        case = read_case(text.replace("resistance = 3000000", "resistance = 3000000, blocked = true", 1).encode())
        varied = Varied(case, case.all_stand(), 8000, 50)
        self.assertEqual(list(map(len, varied.varying())), [1, 2])
        self.assert_exact(varied)

    def test_the_loop_by_hand(self) -> None:
        # 800 V over 3.6 and over 2.8 ohm, of which each phase has a third.
        for hull in Corners(varied_of(outcome_of(CASES / "robust_sample"))).hulls().values():
            self.assertAlmostEqual(hull.worst.low, 800000 / 3.6 / 3, delta=1e-6)
            self.assertAlmostEqual(hull.worst.high, 800000 / 2.8 / 3, delta=1e-6)
            self.assertAlmostEqual(hull.north.width, hull.worst.width, delta=1e-6)
            self.assertAlmostEqual(hull.east.width, 0)

    def test_too_many_grounds_are_told(self) -> None:
        corners = Corners(varied_of(outcome_of(CASES / "robust_sample")))
        with mock.patch.object(tightness, "MOST_VARIED", 1), self.assertRaises(tightness.TooMany):
            corners.hulls()


class Tables(unittest.TestCase):
    def measured(self, before: bytes = b"robust", after: bytes = b"robust") -> Measured:
        """What comes of the loop's exact report with a change."""
        outcome, measured = outcome_of(CASES / "robust_sample"), Measured("loop", {}, False, [])
        tightness.compare(outcome, Report(outcome, False).text().replace(before, after), measured)
        return measured

    def test_a_report_is_compared(self) -> None:
        measured = self.measured()
        self.assertEqual(measured.faults, [])
        # Each interval of 71.050 to 95.239 A, beside 74.074 to 95.238 A.
        ratio = (95239 - 71050) / (800000 / 2.8 / 3 - 800000 / 3.6 / 3)
        for unit in measured.units[20]:
            self.assertEqual(unit[1:], ("undecided", "undecided", "undecided"))
            (found,) = unit.ratios
            self.assertAlmostEqual(found, ratio)

    def test_a_corner_beyond_its_interval_is_a_fault(self) -> None:
        self.assertEqual(len(self.measured(b"TB north 71050 95239", b"TB north 71050 95238").faults), 1)
        self.assertEqual(len(self.measured(b"worst 71050 95239", b"worst 74075 95239").faults), 2)

    def test_narrow_intervals_are_not_compared(self) -> None:
        line = Line(Interval(0, 3000), Interval(-1, 1000), Interval(0, 3163), "below")
        spans = Span(500.0, 2000.0), Span(0.0, 999.9), Span(500.0, 2500.0)
        self.assertEqual(tightness.ratios(Hull(*spans), line), [2.0])

    def test_numbers_of_a_row(self) -> None:
        units = [
            Compared([1.0, 1.5], "undecided", "undecided", "below"),
            Compared([1.1], "undecided", "reaches", "reaches"),
            Compared([], "undecided", "undecided", "undecided"),
            Compared([], "below", "below", "below"),
        ]
        self.assertEqual(tightness.cells(units), ["4", "3", "1.20", "1.50", "3", "1.20", "1.50", "1", "2"])
        self.assertEqual(tightness.cells(units[3:]), ["1", "0", "-", "-", "0", "-", "-", "0", "0"])


if __name__ == "__main__":
    unittest.main()
