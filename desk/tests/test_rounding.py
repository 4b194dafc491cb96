"""How far the rounding of a case may be off: told where it is made, and on the page."""

import math
import unittest

from test_case import POLYGONS, CaseTest
from test_psse import ZONES, PsseTest
from test_study import StudyTest

from gicdesk.alpha import by_formula
from gicdesk.places import degrees_between
from gicdesk.quantities import Number
from gicdesk.rounding import Rounding, most_of_metres, short

# alpha of the table at 57.30 and 55.40 degrees, times beta
UPLAND, COAST = 0.8 * 0.85, 0.6 * 0.79


class OfTables(CaseTest):
    def test_the_greatest_change_of_a_voltage(self) -> None:
        """By whole metres of a span of the coordinates; N-E has its span from the table."""
        self.made()
        changes = {}
        for name, start, end, scale in (("N-S", (50.0, -100.0), (49.0, -100.0), UPLAND), ("low", (50.0, -100.0), (49.0, -100.0), COAST)):
            exact = degrees_between(start, end)
            off = math.hypot(*(metres - round(metres) for metres in exact))
            changes[name] = 8 * scale * off / 1000, off / math.hypot(*exact)
        name = max(changes, key=lambda one: changes[one][0])
        volts, part = changes[name]
        words = f"by up to {short(volts)} V at 8 V/km ({name}, {short(100 * part)} per cent)"
        self.assertTrue(self.rounding.endswith(words), (self.rounding, words))

    def test_alpha_by_the_formula(self) -> None:
        """A factor on spans, which are whole metres before and behind it: a voltage changes by a metre at the most."""
        self.made("--alpha=formula")
        volts = float(self.rounding.split("by up to ")[1].split(" ")[0])
        self.assertGreater(volts, 0)
        self.assertLess(volts, most_of_metres([float(by_formula(Number("57.30"))) * 0.85 * 1.02], 1, 8.0))

    def test_a_line_in_parts(self) -> None:
        self.texts["polygons"] = POLYGONS
        self.change("lines", "N-S,N345,S345,upland", "N-S,N345,S345,")
        self.made()
        self.assertIn("by up to ", self.rounding)

    def test_nothing_is_rounded(self) -> None:
        for before, after in (("3.25,,", "3.25,-111.0,0"), ("8.9,,", "8.9,-111.0,0")):
            self.change("lines", before, after)
        self.made()
        self.assertTrue(self.rounding.endswith("changes no voltage of a line"), self.rounding)


class OfAPowerFlow(PsseTest):
    def test_the_greatest_change_of_a_voltage(self) -> None:
        """Of the line from 50 N 100 W to 49 N 100 W, or of that to 50 N 99 W."""
        self.case([*self.words(), "--beyond=leave"])
        told = next(line for line in self.shown if "intervals hold for this case" in line)
        self.assertEqual(self.shown.index(told), len(self.shown) - 2)
        places = {"L1-4-1": ((50.0, -100.0), (49.0, -100.0)), "L1-7-1": ((50.0, -100.0), (50.0, -99.0))}
        self.assertIn("60,0.81", ZONES)
        changes = {}
        for name, ends in places.items():
            off = math.hypot(*(metres - round(metres) for metres in degrees_between(*ends)))
            changes[name] = 8 * 0.81 * off / 1000
        name = max(changes, key=lambda one: changes[one])
        self.assertIn(f"by up to {short(changes[name])} V at 8 V/km ({name}, ", told)


class Numbers(unittest.TestCase):
    def test_the_worst_line_is_kept(self) -> None:
        found = Rounding()
        found.add("a", (10.0, 0.0), (10.0, 0.0))
        self.assertTrue(found.text.endswith("changes no voltage of a line"))
        found.add("b", (10.0, 0.0), (10.003, 0.004))
        found.add("c", (90.0, 0.0), (90.001, 0.0))
        self.assertTrue(found.text.endswith("by up to 0.040 V at 8 V/km (b, 0.050 per cent)"), found.text)

    def test_a_metre_each_way(self) -> None:
        """Of a zone with alpha and beta 1, at 8 V/km."""
        self.assertAlmostEqual(most_of_metres([0.5, 1.0], 1, 8.0), 8 * math.sqrt(2) / 1000)
        self.assertAlmostEqual(most_of_metres([1.0], 3, 8.0), 3 * 8 * math.sqrt(2) / 1000)
        self.assertEqual(most_of_metres([], 1, 8.0), 0.0)


class OnThePage(StudyTest):
    def test_the_page_says_it(self) -> None:
        words = "The intervals hold for the case as it is written. Its spans are in whole metres: by that the voltage of a line in 8.000 V/km is up to 0.011 V off"
        self.assertIn(words, self.page())


if __name__ == "__main__":
    unittest.main()
