#!/usr/bin/env python3
"""Tests of the referee without a program: the worked cases of format 3 and of `robust`, and reports that are wrong.

    python3 .ci/tests.py trials/tests/test_referee.py
"""

from __future__ import annotations

import tempfile
import unittest
from pathlib import Path

from referee.faults import report_faults
from referee.outcome import Outcome, predict
from referee.reference import Report
from run_cases import CASES, fill, read_text, read_words_file

# Those that need long, since they have thousands of rows.
LARGE = "format_3_rows"


def folders() -> list[Path]:
    found = [*CASES.glob("format_3_*"), *CASES.glob("robust_*")]
    return [folder for folder in sorted(found) if not folder.name.startswith(LARGE)]


class WorkedCases(unittest.TestCase):
    def outcome_of(self, folder: Path) -> Outcome:
        with tempfile.TemporaryDirectory() as scratch:
            fill(folder, scratch)
            return predict(read_words_file(folder, "words") or [], scratch)

    def test_each_ends_as_it_has_to(self) -> None:
        for folder in folders():
            with self.subTest(folder.name):
                outcome = self.outcome_of(folder)
                wanted = read_text(folder, "expect").split("\n")
                self.assertEqual(str(outcome.status), wanted[0])
                self.assertEqual(outcome.line or "", wanted[1] if len(wanted) > 1 else "")

    def test_exact_reports_are_right_and_as_by_hand(self) -> None:
        for folder in folders():
            outcome = self.outcome_of(folder)
            if outcome.status == 0:
                with self.subTest(folder.name):
                    report = Report(outcome, False).text()
                    self.assertEqual(report_faults(outcome, report), [])
                    by_hand = folder / "stdout"
                    if by_hand.exists():
                        self.assertEqual(report, by_hand.read_bytes())

    def test_a_reactor_has_no_effective_current(self) -> None:
        outcome = self.outcome_of(CASES / "format_3_field")
        report = Report(outcome, False).text()
        self.assertIn(b"\neffective R 0 0\n", report)
        self.assertIn(b"\ntransformer R 0 0 outside\n", report)
        wider = report.replace(b"effective R 0 0", b"effective R 0 1").replace(b"transformer R 0 0", b"transformer R 0 1")
        self.assertTrue(report_faults(outcome, wider))

    def robust_faults(self, name: str, *changes: tuple[bytes, bytes]) -> list[str]:
        """The faults of the exact report of a case of `robust` with these changes."""
        outcome = self.outcome_of(CASES / name)
        report = Report(outcome, False).text()
        for before, after in changes:
            self.assertIn(before, report)
            report = report.replace(before, after)
        return report_faults(outcome, report)

    def test_currents_of_the_loop_whatever_its_grounds_are(self) -> None:
        # By hand: 800 V over 3.6 and over 2.8 ohm drive 74074.07 and 95238.10 mA per phase; the enclosure begins at 71050.64.
        name, before = "robust_sample", b"TB north 71050 95239 east 0 0 worst 71050 95239 undecided"

        def faults(to_north: str, worst: str) -> list[str]:
            after = f"TB north {to_north} east 0 0 worst {worst} undecided"
            return self.robust_faults(name, (before, after.encode()))

        for right in ("74074 95239", "70951 95338"):
            self.assertEqual(faults(right, right), [])
        for wrong in ("74075 95239", "71050 95238", "70950 95239", "71050 95339"):
            self.assertTrue(faults(wrong, wrong))
        for wrong in ("95239 71050", "-71050 95239"):
            self.assertTrue(faults(wrong, "71050 95239"))
        for wrong in ("71049 95239", "71051 95239", "71050 95238", "71050 95240", "-1 95239"):
            self.assertTrue(faults("71050 95239", wrong))
            self.assertTrue(faults(wrong, "71050 95239"))
        self.assertTrue(self.robust_faults(name, (b"undecided", b"reaches")))
        self.assertTrue(self.robust_faults(name, (b"tolerance 20", b"tolerance 21")))

    def test_a_unit_that_no_current_goes_through_has_none(self) -> None:
        wrong = (b"transformer R north 0 0", b"transformer R north 0 1")
        self.assertTrue(self.robust_faults("format_3_robust_all_kinds", wrong))

    def test_a_tolerance_of_its_own_goes_before_the_one_that_is_asked(self) -> None:
        # By hand: A from 0.5 to 1.5 ohm and B from 0.9 to 1.1, so 800 V over 2.6 to 3.8 ohm: 70175.44 to 102564.10 mA.
        report = Report(self.outcome_of(CASES / "format_3_robust_own_tolerance"), False).text()
        self.assertIn(b" 102565 undecided\n", report)
        self.assertTrue(self.robust_faults("format_3_robust_own_tolerance", (b" 102565 undecided", b" 102564 undecided")))

    def test_a_third_winding_that_is_left_out_is_found(self) -> None:
        outcome = self.outcome_of(CASES / "format_3_list")
        lines = Report(outcome, False).text().split(b"\n")
        less = b"\n".join(line for line in lines if not line.startswith(b"element W third "))
        self.assertEqual(len(lines) - 1, less.count(b"\n") + 1)
        self.assertTrue(report_faults(outcome, less))


if __name__ == "__main__":
    unittest.main()
