#!/usr/bin/env python3
"""Tests of what sets doubles beside intervals.

    python3 .ci/tests.py bench/tests/test_beside.py
"""

from __future__ import annotations

import contextlib
import importlib.util
import io
import tempfile
import unittest
from pathlib import Path

import beside

LOOP = """format = 3
zone = [{name="Z",scale=1000}]
substation = [{name="A",ground=1000000},{name="B",ground=1000000}]
bus = [{name="a",substation="A"},{name="b",substation="B"}]
line = [{name="L",from="a",to="b",resistance=3000000,part=[
  {zone="Z",north=50000,east=80000},{zone="Z",north=10000,east=0}]}]
transformer = [
  {name="TA",kind="delta-wye",high_volts=345000,high="a",high_resistance=300000},
  {name="TB",kind="reactor",high_volts=345000,high="b",high_resistance=300000},
]
"""


class Beside(unittest.TestCase):
    PROGRAM = ["study", "peaks", "node A 10 12", "line L dead", "transformer T 74999 75001 undecided", "end"]

    def test_doubles_are_set_beside_intervals(self) -> None:
        doubles = ["peaks", "node A 11.5", "line L 0.0", "transformer T 75001.5 reaches", "end"]
        self.assertEqual(beside.difference(self.PROGRAM, doubles), (2, 1.5, 0.5, 0))

    def test_another_verdict_is_counted(self) -> None:
        program = [line.replace("undecided", "below") for line in self.PROGRAM]
        doubles = ["peaks", "node A 11", "transformer T 75000 reaches", "end"]
        self.assertEqual(beside.difference(program, doubles).verdicts, 1)

    def test_other_items_end_it_with_a_line(self) -> None:
        self.assertRaises(SystemExit, beside.difference, self.PROGRAM, ["peaks", "node B 1.0", "end"])

    def test_a_program_that_is_not_there_ends_it_with_a_line(self) -> None:
        with self.assertRaises(SystemExit) as ended:
            beside.least([["./none"]], "/", 1)
        self.assertEqual(ended.exception.code, "./none: No such file or directory")


@unittest.skipUnless(importlib.util.find_spec("scipy"), "numpy and scipy aren't there")
class Doubles(unittest.TestCase):
    """The loop of 480 volts to the north and 640 to the east over 3.2 ohm: 150 and 200 amperes."""

    def test_the_screen_of_a_loop(self) -> None:
        import screen_doubles

        told = io.StringIO()
        with tempfile.TemporaryDirectory() as folder, contextlib.redirect_stdout(told):
            path = Path(folder, "case.toml")
            path.write_text(LOOP)
            screen_doubles.main([str(path)])
        _, first, second, _ = told.getvalue().splitlines()
        self.assertEqual([round(number) for number in beside.numbers_of(first.split(" "))], [-50000, -66667, 83333])
        self.assertTrue(first.endswith(" reaches"))
        self.assertEqual(second, "transformer TB north 0.0 east 0.0 worst 0.0 outside")


if __name__ == "__main__":
    unittest.main()
