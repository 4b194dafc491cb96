#!/usr/bin/env python3
"""Tests of functions.py.

    python3 .ci/tests.py bench/tests/test_functions.py
"""

from __future__ import annotations

import os
import unittest

import functions
from functions import Spent


class Lines(unittest.TestCase):
    def test_a_line_of_progress_names_a_function(self) -> None:
        self.assertEqual(functions.function_in("checked gic_net::net::Net::build, 3 of 41"), "gic_net::net::Net::build")

    def test_other_lines_name_none(self) -> None:
        for line in ("fn gic_net::net::Net::build: proved", "logic=proved functions=41", "checked nothing"):
            self.assertIsNone(functions.function_in(line), line)


class Seconds(unittest.TestCase):
    def test_what_a_function_took_is_the_time_since_the_one_before(self) -> None:
        found = list(functions.spent_in("gic_net", [("a", 4.0), ("b", 5.5), ("c", 9.0)], 9.5))
        self.assertEqual(
            found,
            [
                Spent("gic_net", "(up to its first function)", 4.0),
                Spent("gic_net", "b", 1.5),
                Spent("gic_net", "c", 3.5),
                Spent("gic_net", "(behind its last function)", 0.5),
            ],
        )

    def test_the_time_of_a_process_is_read(self) -> None:
        self.assertGreater(functions.used_by(os.getpid()), 0)


if __name__ == "__main__":
    unittest.main()
