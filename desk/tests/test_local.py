"""`gicdesk local`: strips of zones at the stronger field, over a program that stands for the real one, and over the real one where it
is built, beside the plain solver."""

import csv
import math
import re
import tomllib
import unittest
from unittest import mock

import plain
import shared
from shared import BUILT, EXAMPLES, FAKE, DeskTest
from test_outages import BOTH, OutagesTest, screen

from gicdesk import local
from gicdesk.case_rows import case_of
from gicdesk.directions import DIRECTIONS
from gicdesk.local import LocalStep, storms_of
from gicdesk.zone_lies import Strip, ZoneLie, coarse_text, strips_of, zone_lies

CASE = """\
format = 3
zone = [{ name = "Z", latitude = 6000, beta = 100 }, { name = "Y", latitude = 6000, beta = 100 }]
substation = [{ name = "A", ground = 1000000 }, { name = "B", ground = 1000000 }, { name = "C", ground = 1000000 }]
bus = [{ name = "a", substation = "A" }, { name = "b", substation = "B" }, { name = "c", substation = "C" }]
line = [
  { name = "L", from = "a", to = "b", zone = "Z", resistance = 3000000, north = 100000, east = 0 },
  { name = "M", from = "c", to = "b", resistance = 3000000, part = [
    { zone = "Y", north = -60000, east = 0 }, { zone = "Z", north = -40000, east = 0 },
  ] },
]
transformer = [
  { name = "TA", kind = "delta-wye", high_volts = 345000, high = "a", high_resistance = 300000 },
  { name = "TB", kind = "delta-wye", high_volts = 345000, high = "b", high_resistance = 300000 },
  { name = "D", kind = "delta-delta", high_volts = 345000 },
]
"""
PLACES = {"A": (0.0, 0.0), "B": (100000.0, 0.0), "C": (200000.0, 0.0)}
LIES = [ZoneLie(name, middle - 40, middle, middle + 40) for name, middle in (("a", 0), ("b", 100), ("c", 150))]


class Zones(unittest.TestCase):
    def test_where_zones_lie(self) -> None:
        """Z has all of L, from 0 to 100 km, and of M the last 40 km: its middle is (100·50 + 40·120)/140 = 70 km."""
        found = zone_lies(case_of("case.toml", CASE.encode()), PLACES)
        self.assertEqual(found, [ZoneLie("Z", 0, 70000, 140000), ZoneLie("Y", 140000, 170000, 200000)])

    def test_strips_are_all_sets_of_middles_within_a_depth(self) -> None:
        def sets(depth: float) -> list[str]:
            return [" ".join(strip.zones) for strip in strips_of(LIES, depth)]

        self.assertEqual(sets(10), ["a", "b", "c"])
        self.assertEqual(sets(60), ["a", "b", "b c", "c"])
        self.assertEqual(sets(100), ["a", "a b", "b", "b c", "c"])
        self.assertEqual(sets(150), ["a", "a b", "a b c", "b c", "c"])

    def test_how_coarse_they_are(self) -> None:
        self.assertIn("each is less deep than a strip of 0.1 km", coarse_text(LIES, 100))
        self.assertIn("3 of them are deeper than a strip of 0.05 km, and a strip has a zone as a whole", coarse_text(LIES, 50))

    def test_storms_have_no_more_rows_than_the_program_takes(self) -> None:
        strips = [Strip(tuple(f"z{number}" for number in range(many))) for many in (200, 200, 200, 200)]
        storms = list(storms_of(strips, 8000, 12000))
        self.assertEqual(sum(len(storm.steps) for storm in storms), 4 * DIRECTIONS)
        self.assertEqual(len({step for storm in storms for step in storm.steps}), DIRECTIONS)
        for storm in storms:
            self.assertLessEqual(storm.text.count("\n"), local.MOST_ROWS + 1)
            self.assertTrue(storm.text.startswith("time,zone,north,east\n0,*,"))
        self.assertEqual(len(storms), 2)


class OverReports(OutagesTest):
    def setUp(self) -> None:
        super().setUp()
        self.case = self.file("case.toml", CASE)
        other = screen("148148 148150 reaches", "60000 60002 below").replace("75000 field 8000", "85000 field 12000")
        self.prints("screen-supplemental", other)
        self.prints("screen", screen(BOTH, "40000 40002 below"))
        self.steps = [(strip, place * 5) for strip in ("Z", "Y") for place in range(DIRECTIONS)]
        for name, peak in (("TA", ("Z", 30)), ("TB", ("Y", 175))):
            self.prints(f"series@{name}", self.series(name, *peak))

    def series(self, name: str, strip: str, bearing: int) -> str:
        """A report with one great current, of the other sign, at the step of a strip and a bearing."""
        lines = ["series", f"width 100 transformer {name} steps {len(self.steps)}"]
        for number, step in enumerate(self.steps, 1):
            low = -90000 if step == (strip, bearing) else 70000
            lines.append(f"step {number} time {60 * (number - 1)} {low} {low + 1}")
        return "\n".join([*lines, "end"]) + "\n"

    def local(self, *words: object) -> str:
        return self.done("local", self.case, f"--program={FAKE}", "--storm-depth=50", *words)

    def test_each_unit_has_its_greatest_with_strip_and_direction(self) -> None:
        out = self.folder / "made"
        shown = self.local(f"--out={out}").splitlines()
        self.assertEqual(shown[0], "case " + str(self.case) + ": strips of 50 km from west to east with 12.000 V/km, and 8.000 beside them")
        self.assertEqual(shown[1], "2 strips in 36 directions: 72 steps")
        self.assertIn("2 zones with lines, 60 to 140 km from south to north by the lines in them. 2 of them are deeper", shown[2])
        self.assertEqual(shown[3], "2 of 2 applicable units reach 85.000 A in a strip or may; 1 have more there than with 12.000 V/km everywhere")
        with open(out / "units.csv", newline="") as file:
            rows = {row["transformer"]: row for row in csv.DictReader(file)}
        self.assertEqual(list(rows), ["TA", "TB"])
        cells = ("greatest_low_A_per_phase", "greatest_high_A_per_phase", "verdict", "bearing_degrees", "strip", "more_than_everywhere", "step")
        self.assertEqual([rows["TA"][cell] for cell in cells], ["89.999", "90.000", "reaches", "30", "Z", "no", "7"])
        self.assertEqual([rows["TB"][cell] for cell in cells], ["89.999", "90.000", "reaches", "175", "Y", "yes", "72"])
        # The storm of the step: 8 V/km everywhere, and 12 in the strip, at 30 degrees.
        storm = (out / "storm_1.csv").read_text().splitlines()
        self.assertEqual([line for line in storm if line.startswith("360,")], ["360,*,6928,4000", "360,Z,10392,6000"])

    def test_how_far_it_has_come_is_shown_on_a_terminal(self) -> None:
        with mock.patch.object(shared.Stream, "isatty", lambda _: True):
            status, _, err = shared.desk("local", self.case, f"--program={FAKE}", "--storm-depth=50")
        self.assertEqual(status, 0, err)
        self.assertEqual(re.findall(r"\] ([0-9]+) of ([0-9]+) ", err)[-1], ("4", "4"))

    def test_what_is_refused(self) -> None:
        for depth in ("0", "-5", "km", "6000", "1e2"):
            (line,) = self.refused("local", self.case, f"--program={FAKE}", f"--storm-depth={depth}")
            self.assertIn(f"--storm-depth={depth}: it is no number of 1 to 5000 km", line)
        one = self.file("one.toml", CASE.replace('zone = "Y"', 'zone = "Z"'))
        (line,) = self.refused("local", one, f"--program={FAKE}", "--storm-depth=50")
        self.assertIn("it has lines in 1 zone, and strips are made of zones; divide it into several", line)
        self.prints("screen", "gicstudy: unearthed: step 1 node A\n")
        self.assertIn("status 8", self.refused("local", self.case, f"--program={FAKE}", "--storm-depth=50")[0])


@unittest.skipUnless(BUILT.is_file(), "no program is built")
class OverTheProgram(DeskTest):
    def test_the_region_beside_the_plain_solver(self) -> None:
        """Each unit's greatest is that of the plain solver in all strips and directions, but for the rounding of fields to mV/km."""
        path, out = EXAMPLES / "region.toml", self.folder / "out"
        self.done("local", path, f"--program={BUILT}", "--storm-depth=100", f"--out={out}")
        case = tomllib.loads(path.read_text())
        scales = {"upland": 0.8 * 0.85, "coast": 0.6 * 0.79}
        ways = {
            strip: plain.effective_currents(case, lambda zone, strip=strip: scales[zone] * (1.5 if zone == strip else 1))  # type: ignore[misc]
            for strip in scales
        }
        with open(out / "units.csv", newline="") as file:
            rows = list(csv.DictReader(file))
        self.assertEqual(len(rows), 25)
        for row in rows:
            steps = {LocalStep(Strip((strip,)), 5 * place): math.radians(5 * place) for strip in ways for place in range(DIRECTIONS)}
            found = {
                step: abs(math.cos(angle) * ways[step.strip.zones[0]][row["transformer"]][0]
                          + math.sin(angle) * ways[step.strip.zones[0]][row["transformer"]][1])
                for step, angle in steps.items()
            }  # fmt: skip
            greatest = float(row["greatest_high_A_per_phase"])
            self.assertAlmostEqual(max(found.values()), greatest, delta=0.03)
            told = LocalStep(Strip((row["strip"],)), int(row["bearing_degrees"]))
            self.assertAlmostEqual(found[told], greatest, delta=0.03)


if __name__ == "__main__":
    unittest.main()
