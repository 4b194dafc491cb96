#!/usr/bin/env python3
"""Tests of the rows of limits.py.

    python3 .ci/tests.py trials/tests/test_limits.py
"""

from __future__ import annotations

import contextlib
import io
import unittest
from unittest import mock

import limits
import shared
from generators.case_text import case_text
from referee.case import read_case
from referee.words import Refusal

COMMAND = ["./program"]
# Longer lists take the referee seconds to read; the program is asked about them by limits.py.
MOST_READ = 4096
SWITCHED = limits.Row("attack", ["study", "--switch=s"], lambda folder, size: None, 9, None, (0,), ["study"], 2)


class Rows(unittest.TestCase):
    def test_limits_of_format_3_are_met_and_passed(self) -> None:
        for what, most in limits.EDGES.items():
            with self.subTest(what):
                if most > MOST_READ:
                    continue
                read_case(case_text(3, limits.edge_lists(what, most)).encode())
                with self.assertRaises(Refusal):
                    read_case(case_text(3, limits.edge_lists(what, most + 1)).encode())

    def test_rows_have_names_of_their_own(self) -> None:
        names = [row.name for row in [*limits.rows(COMMAND, 1000), *limits.rows_3(COMMAND)]]
        self.assertEqual(len(names), len(set(names)))

    def measured(self, *answers: limits.Measure) -> tuple[int, list[float]]:
        """The faults of the attack where its runs end so, and how long each might have taken."""
        faults = shared.Faults()
        seconds: list[float] = []

        def measure(measurer: str, command: list[str], folder: str, limit: float) -> limits.Measure:
            seconds.append(limit)
            return answers[len(seconds) - 1]

        with mock.patch.object(limits, "measure", measure), contextlib.redirect_stdout(io.StringIO()):
            limits.print_row(SWITCHED, limits.measure_both("measure", COMMAND, SWITCHED, 300), faults)
        return faults.count, seconds

    def test_an_attack_may_take_some_times_as_long(self) -> None:
        plain = limits.Measure(0, 10.0, 5)
        self.assertEqual(self.measured(plain, limits.Measure(0, 15.0, 5)), (0, [900, 20.0]))

    def test_an_attack_that_takes_longer_is_a_fault(self) -> None:
        plain = limits.Measure(0, 10.0, 5)
        self.assertEqual(self.measured(plain, limits.Measure(None, 20.0, 5)), (1, [900, 20.0]))

    def test_where_the_plain_run_has_no_end_nothing_is_set_beside_it(self) -> None:
        self.assertEqual(self.measured(limits.Measure(None, 300.0, 5)), (0, [900]))


if __name__ == "__main__":
    unittest.main()
