#!/usr/bin/env python3
"""Tests of anew.py.

    python3 .ci/tests.py bench/tests/test_anew.py
"""

from __future__ import annotations

import unittest

import anew
from crates import Fault

LIST = """# a comment
low:
middle: low toml

side: low
top: middle side csv
"""


class Counts(unittest.TestCase):
    def setUp(self) -> None:
        self.below = anew.all_below(LIST)

    def test_libraries_of_the_toolchain_are_not_counted(self) -> None:
        self.assertEqual(self.below["middle"], {"low"})

    def test_below_goes_through_others(self) -> None:
        self.assertEqual(self.below["top"], {"low", "middle", "side"})

    def test_a_change_reaches_all_above(self) -> None:
        self.assertEqual(anew.anew(self.below, "low"), {"low", "middle", "side", "top"})
        self.assertEqual(anew.anew(self.below, "side"), {"side", "top"})
        self.assertEqual(anew.anew(self.below, "top"), {"top"})

    def test_a_circle_and_a_line_without_a_crate_are_refused(self) -> None:
        for text in ("one: two\ntwo: one\n", "low\n"):
            self.assertRaises(Fault, anew.all_below, text)


if __name__ == "__main__":
    unittest.main()
