#!/usr/bin/env python3
"""Tests of the cases and storms that are made here.

    python3 .ci/tests.py generators/tests/test_cases.py
"""

from __future__ import annotations

import functools
import tomllib
import unittest
from collections import Counter
from collections.abc import Sized
from fractions import Fraction
from random import Random

import paths  # noqa: F401 - it finds the modules below

from generators import interconnection, limit_case, made_case, random_cases, storms
from generators.case_text import case_text
from referee.case import LIMITS, LIMITS_3, MOST_ENDS, ROLES, Case, make_case, read_case
from referee.earthing import CAP, least_capped, unearthed
from referee.storm import read_storm
from referee.words import Refusal

LEAST = 96  # substations of the network at the limits, made small: chords of a ring must not close on themselves


def read(text: str) -> Case:
    """The case that the text is, by the referee's reader."""
    return read_case(text.encode())


def sizes_of(case: Case) -> dict[str, int]:
    """How many rows each list of a case has."""
    lists: tuple[Sized, ...] = (case.zones, case.substations, case.buses, case.lines, case.transformers)
    return {name: len(rows) for name, rows in zip(LIMITS, lists)}


def most_ends(case: Case) -> int:
    ends = Counter(node for element in case.elements for node in (element.start, element.end) if node is not None)
    return max(ends.values())


@functools.cache
def small_text(seed: int) -> str:
    """The text of the case of a small share."""
    return case_text(3, interconnection.network(Fraction(1, 128), seed))


class Interconnection(unittest.TestCase):
    def setUp(self) -> None:
        self.text = small_text(7)
        self.case = read(self.text)

    def test_the_sizes_are_the_share(self) -> None:
        sizes = {"zone": 208, "substation": 32, "bus": 96, "line": 192, "transformer": 64}
        self.assertEqual(sizes_of(self.case), sizes)

    def test_it_is_well_earthed(self) -> None:
        stand = self.case.all_stand()
        self.assertEqual(unearthed(self.case, stand), (None, (True,) * len(self.case.nodes)))
        self.assertNotIn(CAP, least_capped(self.case, stand))

    def test_few_elements_end_at_a_node(self) -> None:
        self.assertLess(most_ends(self.case), 64)

    def test_lines_cross_zones(self) -> None:
        self.assertTrue(any(len(line.parts) > 2 for line in self.case.lines))

    def test_parts_add_up_to_the_way_between_the_substations(self) -> None:
        made = interconnection.Network(Fraction(1, 128), 7)
        start, end = made.places[0], made.places[1]
        parts = made.parts(start, end)
        self.assertEqual(sum(part["north"] for part in parts), end.north - start.north)
        self.assertEqual(sum(part["east"] for part in parts), end.east - start.east)

    def test_the_smallest_has_three_substations(self) -> None:
        self.assertEqual(len(interconnection.network(Fraction(1, 4096), 7)["substation"]), 3)

    def test_all_kinds_are_there(self) -> None:
        kinds = {unit["kind"] for unit in interconnection.network(Fraction(1, 16), 7)["transformer"]}
        self.assertEqual(kinds, set(ROLES))

    def test_a_seed_makes_one_text(self) -> None:
        again = case_text(3, interconnection.network(Fraction(1, 128), 7))
        self.assertEqual(again, self.text)
        self.assertNotEqual(small_text(8), self.text)

    def test_a_storm_has_the_most_rows_and_the_zones_of_the_case(self) -> None:
        for steps in (100, 20000):
            heads, *rows = [line.split(",") for line in interconnection.storm(steps, 7).splitlines()]
            self.assertEqual((heads, len(rows)), (["time", "zone", "north", "east"], 20000))
            self.assertEqual(len({row[0] for row in rows}), steps)
            zones = {zone["name"] for zone in interconnection.network(Fraction(1, 128), 7)["zone"]}
            self.assertTrue({row[1] for row in rows} <= {"*", *zones})

    def test_a_share_above_1_is_refused(self) -> None:
        for word in ("0", "2", "-1", "x"):
            self.assertRaises(ValueError, interconnection.share_of, word)


class Limits(unittest.TestCase):
    def test_the_sizes_of_the_whole(self) -> None:
        lists = limit_case.lists_3(parts=1)
        self.assertEqual({name: len(rows) for name, rows in lists.items()}, LIMITS_3)

    def test_it_is_accepted_and_well_earthed(self) -> None:
        case = read(case_text(3, limit_case.lists_3(LEAST)))
        stand = case.all_stand()
        self.assertEqual(most_ends(case), MOST_ENDS)
        self.assertEqual((len(case.nodes), len(case.elements)), (6 * LEAST, 15 * LEAST))
        self.assertIsNone(unearthed(case, stand)[0])
        self.assertNotIn(CAP, least_capped(case, stand))

    def test_one_element_more_at_a_node_is_refused(self) -> None:
        lists = limit_case.lists_3(LEAST)
        line = next(row for row in lists["line"] if "b0-0" not in (row["from"], row["to"]))
        line["from"] = "b0-0"
        with self.assertRaises(Refusal) as refused:
            read(case_text(3, lists))
        self.assertEqual(refused.exception.line, "gicstudy: case: degree at node b0-0")


class RandomCases(unittest.TestCase):
    def test_cases_of_format_3_are_accepted(self) -> None:
        draw, formats = Random(1), set()
        for _ in range(40):
            made = random_cases.network(draw, 40)
            formats.add(tomllib.loads(made.text)["format"])
            read(made.text)
        self.assertEqual(formats, {2, 3})


class MadeCases(unittest.TestCase):
    def test_the_text_is_that_of_the_made_case(self) -> None:
        read_back, made = read(made_case.text(30, 7)), make_case(7, 30)
        self.assertEqual((read_back.nodes, read_back.elements), (made.nodes, made.elements))
        volts = [case.element_volts(None, 1000, -500) for case in (read_back, made)]
        self.assertEqual(*volts)

    def test_the_case_at_the_limits_of_format_2_is_accepted(self) -> None:
        sizes = {name: most if name == "zone" else most // 8 for name, most in LIMITS.items()}
        self.assertEqual(sizes_of(read(limit_case.text(LIMITS["substation"] // 8))), sizes)


class Storms(unittest.TestCase):
    def test_waves_have_a_row_for_each_zone_and_step(self) -> None:
        rows = storms.waves(3, ["Y", "Z"], 1).splitlines()
        self.assertEqual(rows[0], "time,zone,north,east")
        self.assertEqual([row.split(",")[:2] for row in rows[1:]], [[str(10 * i), z] for i in range(3) for z in "YZ"])

    def test_all_are_accepted(self) -> None:
        case = make_case(7, 2)
        for text in (storms.steady(5), storms.drawn(5), storms.drawn_by_zone(["Z"], 5), storms.waves(5, [], 1)):
            self.assertEqual(len(read_storm(text.encode(), case).steps), 5)
