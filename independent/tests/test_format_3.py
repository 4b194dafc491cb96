#!/usr/bin/env python3
"""Tests that both checkers read format 3 of a case: three windings, a reactor, a line in parts.

    python3 .ci/tests.py independent/tests/test_format_3.py
"""

from __future__ import annotations

import unittest
from fractions import Fraction

import judge
import network
import reasons
import recheck
import rules

# Two substations of 1 ohm; in each a unit of three windings or a reactor; a line in two parts.
PART = '{ zone = "Y", north = 0, east = 80000 }'
CASE = f"""format = 3
zone = [{{ name = "Z", scale = 1000 }}, {{ name = "Y", latitude = 6000, beta = 50 }}]
substation = [{{ name = "A", ground = 1000000 }}, {{ name = "B", ground = 1000000 }}]
bus = [
  {{ name = "a", substation = "A" }}, {{ name = "b", substation = "B" }}, {{ name = "c", substation = "B" }},
  {{ name = "d", substation = "B" }},
]
[[line]]
name = "L"
from = "a"
to = "b"
resistance = 3000000
part = [{{ zone = "Z", north = 60000, east = 0 }}, {PART}]
[[transformer]]
name = "R"
kind = "reactor"
high_volts = 345000
high = "a"
high_resistance = 300000
[[transformer]]
name = "T"
kind = "wye-wye-wye"
high_volts = 345000
high = "b"
high_resistance = 300000
low = "c"
low_volts = 230000
low_resistance = 300000
third = "d"
third_volts = 34500
third_resistance = 300000
"""
# What is refused, and the line of the first rule that is broken.
REFUSED = [
    ("format = 3", "format = 2", "key in zone row 1"),
    ("scale = 1000", "scale = 1501", "value in zone row 1 field scale"),
    ("scale = 1000", "scale = 1000, beta = 1", "key in zone row 1"),
    (", beta = 50", "", "key in zone row 2"),
    ("north = 60000", "north = 1000001", "value in line row 1 field part"),
    ("north = 0,", "north = -940001,", "value in line row 1 field part"),
    ('zone = "Y", north', 'zone = "X", north', "unknown name in line row 1 field part"),
    ("resistance = 3000000", 'resistance = 3000000\nzone = "Z"', "key in line row 1"),
    ('third = "d"', 'third = "c"', "same ends in transformer row 2"),
    ('third = "d"', 'third = "a"', "apart in transformer row 2"),
    ('third = "d"', 'third = "e"', "unknown name in transformer row 2 field third"),
    ("third_volts = 34500", "third_volts = 345001", "voltage order in transformer row 2"),
    ('high = "a"', 'high = "a"\nthird = "b"', "key in transformer row 1"),
    ('"wye-wye-wye"', '"auto-wye"', "key in transformer row 2"),
]


class Readers(unittest.TestCase):
    def test_the_case_is_read_by_both(self) -> None:
        recheck.check_degrees(rules.read_case(CASE.encode()))
        reasons.read_case(CASE.encode())

    def test_what_breaks_a_rule_is_refused_by_both(self) -> None:
        for old, new, line in REFUSED:
            with self.subTest(new):
                text = CASE.replace(old, new)
                self.assertNotEqual(text, CASE)
                with self.assertRaises(rules.Refused):
                    reasons.read_case(text.encode())
                with self.assertRaises(rules.Refused) as refused:
                    rules.read_case(text.encode())
                self.assertEqual(str(refused.exception), f"case: {line}")

    def test_sixteen_parts_are_read_and_seventeen_not(self) -> None:
        for count, is_read in ((15, True), (16, False)):
            text = CASE.replace(PART, ", ".join([PART.replace("80000", "8")] * count))
            for read in (rules.read_case, reasons.read_case):
                if is_read:
                    read(text.encode())
                else:
                    self.assertRaises(rules.Refused, read, text.encode())


class Networks(unittest.TestCase):
    def setUp(self) -> None:
        self.case = rules.read_case(CASE.encode())
        self.elements = network.elements_of(self.case)

    def test_the_voltage_of_a_line_is_that_of_its_parts(self) -> None:
        line = next(one for one in self.elements if one.label == "line L")
        self.assertEqual(line.induced, (60000 * 1000, 80000 * 500))
        self.assertEqual(line.voltage(8000, 1000), 60000 * 8000 * 1000 + 80000 * 1000 * 500)

    def test_only_a_line_has_a_voltage(self) -> None:
        self.assertEqual({one.label for one in self.elements if any(one.induced)}, {"line L"})

    def test_the_third_winding_comes_last(self) -> None:
        found = [(one.item, one.start, one.end) for one in self.elements]
        self.assertEqual(found[-4:], [("R", "a", "A"), ("T", "b", "B"), ("T", "c", "B"), ("T", "d", "B")])
        windings = self.elements[-4:]
        self.assertEqual([one.label.split()[2] for one in windings], ["high", "high", "low", "third"])
        self.assertEqual([one.volts for one in windings], [345000, 345000, 230000, 34500])
        self.assertEqual(windings[-1].conductance, Fraction(10))

    def test_a_reactor_has_no_effective_current(self) -> None:
        standing = network.Network(self.case, self.elements, set())
        reactor, unit = self.case["transformer"]
        found = [len(judge.counting_windings(standing, one)) for one in (reactor, unit)]
        self.assertEqual(found, [0, 3])
        self.assertIs(judge.worst(standing, [], reactor), judge.NOTHING)
        self.assertIn("R", standing.of_item)

    def test_an_element_leaves_both_its_ends(self) -> None:
        leaving = network.Network(self.case, self.elements, set()).leaving
        for node, other, way in (("a", "b", 1), ("b", "a", -1)):
            [branch] = [branch for branch in leaving[node] if branch.element.item == "L"]
            self.assertEqual((branch.other, branch.way, branch.voltage(8000, 1000)), (other, way, way * 520000000000))


class Switching(unittest.TestCase):
    def test_what_is_open_does_not_stand_and_may_part_the_network(self) -> None:
        case = rules.read_case(CASE.encode())
        elements = network.elements_of(case)
        for items, islands, unearthed in (("", 1, None), ("L", 2, None), ("A", 1, None), ("AL", 2, "A")):
            opened = network.open_items([["0", item, "open"] for item in items])
            standing = network.Network(case, elements, opened)
            self.assertEqual((len(standing.islands), standing.unearthed), (islands, unearthed), items)

    def test_the_last_row_of_an_item_decides(self) -> None:
        rows = [["0", "L", "open"], ["0", "T", "block"], ["1", "L", "close"], ["1", "T", "open"], ["2", "T", "unblock"]]
        self.assertEqual(network.open_items(rows), {"T"})
        self.assertEqual(network.open_items(rows[:3]), {"neutral T"})


class Alpha(unittest.TestCase):
    def test_alpha_by_latitude(self) -> None:
        for latitude, tenths in ((0, 1), (4000, 1), (4001, 2), (5400, 5), (5401, 6), (6000, 10), (9000, 10)):
            self.assertEqual(network.alpha(latitude), tenths)


if __name__ == "__main__":
    unittest.main()
