"""`gicdesk mitigate`: over a program that stands for the real one, and over the real one where it is built."""

import csv
import os
import re
import subprocess
import tomllib
import unittest
from unittest import mock

import plain
from shared import BUILT, EXAMPLES, FAKE, DeskTest
from test_outages import screen

CASE = """\
format = 1
zone = [{ name = "Z", latitude = 6000, beta = 100 }]
substation = [{ name = "A", ground = 1000000 }, { name = "B", ground = 1000000 }]
bus = [{ name = "a", substation = "A" }, { name = "b", substation = "B" }]
line = [{ name = "L", from = "a", to = "b", zone = "Z", resistance = 3000000, north = 100000, east = 0 }]
transformer = [
  { name = "TA", kind = "delta-wye", high_volts = 345000, high = "a", high_resistance = 300000 },
  { name = "TB", kind = "delta-wye", high_volts = 345000, high = "b", high_resistance = 300000 },
  { name = "D", kind = "delta-delta", high_volts = 345000 },
]
"""
WITH = {"TA": CASE.replace("300000 },", "300000, neutral = 2500000 },", 1)}
REACHES, MORE, BELOW = "98765 98767 reaches", "110000 110002 reaches", "74998 74999 below"


class MitigateTest(DeskTest):
    def setUp(self) -> None:
        super().setUp()
        patch = mock.patch.dict(os.environ, {"FAKE_REPORTS": str(self.folder)})
        patch.start()
        self.addCleanup(patch.stop)
        self.case = self.file("case.toml", CASE)
        self.prints("screen", screen(BELOW, REACHES))

    def prints(self, name: str, text: str) -> None:
        self.file(f"{name}.txt", text)

    def words(self, *words: object) -> tuple[object, ...]:
        return ("mitigate", self.case, f"--program={FAKE}", *words)

    def rows(self, name: str) -> list[dict[str, str]]:
        with open(self.folder / "out" / name, newline="") as file:
            return list(csv.DictReader(file))

    def both(self, first: str, second: str, pair: str = screen(BELOW, BELOW)) -> tuple[object, ...]:
        """With reports for a device in the neutral of TA, of TB and of both."""
        self.prints("screen~TA", first)
        self.prints("screen~TB", second)
        self.prints("screen~TA~TB", pair)
        return self.words("--pairs=2", f"--out={self.folder / 'out'}")

    def test_fewer_units_come_first_and_then_the_smaller_current(self) -> None:
        shown = self.done(*self.both(screen(MORE, BELOW), screen(BELOW, MORE))).splitlines()
        self.assertEqual(
            shown[1:],
            [
                "as it is: 1 of 3 units at the threshold or perhaps; the greatest worst current is 98.765 to 98.767 A, in TB",
                "with a blocking device in one of 2 neutrals, the best first:",
                "",
                "neutral  at the threshold   greatest worst, A  in  no longer  newly",
                "TA                      1  110.000 to 110.002  TA  TB         TA",
                "TB                      1  110.000 to 110.002  TB",
                "",
                "with one in each of two, 1 pair of the best:",
                "",
                "neutral  at the threshold  greatest worst, A  in  no longer  newly",
                "TA + TB                 0   74.998 to 74.999  TA  TB",
            ],
        )
        ranking = self.rows("ranking.csv")
        self.assertEqual([row["neutrals"] for row in ranking], ["", "TA", "TB", "TA + TB"])
        self.assertEqual([row["at_threshold"] for row in ranking], ["1", "1", "1", "0"])
        self.assertEqual((ranking[1]["no_longer"], ranking[1]["newly"], ranking[1]["greatest_in"]), ("TB", "TA", "TA"))
        currents = {(row["neutrals"], row["transformer"]): row["worst_high_A_per_phase"] for row in self.rows("currents.csv")}
        self.assertEqual([currents[key] for key in (("", "TB"), ("TB", "TB"), ("TA + TB", "TA"))], ["98.767", "110.002", "74.999"])
        best = tomllib.loads((self.folder / "out" / "best.toml").read_text())
        self.assertEqual([unit.get("neutral") for unit in best["transformer"]], ["blocked", "blocked", None])

    def test_a_smaller_current_with_as_many_units(self) -> None:
        self.done(*self.both(screen(BELOW, REACHES), screen(BELOW, "98000 98001 undecided")))
        ranking = self.rows("ranking.csv")
        self.assertEqual([(row["neutrals"], row["undecided"]) for row in ranking[1:3]], [("TB", "1"), ("TA", "0")])

    def test_a_network_that_cannot_be_solved_comes_last(self) -> None:
        shown = self.done(*self.both("gicstudy: unearthed: step 1 node a\n", screen(BELOW, BELOW)))
        self.assertNotIn("two", shown)
        self.assertTrue(shown.endswith("TA            unearthed a\n"), shown)
        self.assertEqual([(row["neutrals"], row["outcome"], row["node"]) for row in self.rows("ranking.csv")][2], ("TA", "unearthed", "a"))

    def left_as_it_is(self, first: str, second: str, words: str) -> None:
        """With these reports for a device at TA and at TB that is told, and the best case is the given one."""
        shown = self.done(*self.both(first, second, screen(MORE, BELOW)), "--force")
        line = f"no device is better than none: {words}; so best.toml of --out is the case as it is"
        self.assertEqual(shown.splitlines()[-2:], ["", line])
        best = (self.folder / "out" / "best.toml").read_text()
        self.assertEqual(tomllib.loads(best), tomllib.loads(CASE) | {"format": 2})
        self.assertIn("the case as it is, since no network that was tried with a blocking device is better.", best)

    def test_a_network_that_no_device_leaves_solved_is_left_as_it_is(self) -> None:
        unearthed, unresolved = "gicstudy: unearthed: step 1 node a\n", "gicstudy: unresolved: step 1 node B\n"
        self.left_as_it_is(unearthed, unresolved, "with each of these the network can't be solved")
        self.assertEqual([row["outcome"] for row in self.rows("ranking.csv")], ["solved", "unearthed", "unresolved"])

    def test_a_network_that_no_device_makes_better_is_left_as_it_is(self) -> None:
        words = "none of these leaves fewer units at the threshold, or as many and a smaller greatest current"
        for first, second in (
            (screen(REACHES, REACHES), screen(MORE, BELOW)),  # more units, or as many and a greater current
            (screen(BELOW, REACHES), screen(BELOW, "98764 98765 reaches")),  # a current that may be as great
            ("gicstudy: unearthed: step 1 node a\n", screen(MORE, BELOW)),
        ):
            self.left_as_it_is(first, second, words)
        # One that is smaller for certain is better.
        words_of_better = self.both(screen(BELOW, REACHES), screen(BELOW, "98763 98764 reaches"), screen(MORE, BELOW))
        self.assertNotIn("no device", self.done(*words_of_better, "--force"))
        best = tomllib.loads((self.folder / "out" / "best.toml").read_text())
        self.assertEqual([unit.get("neutral") for unit in best["transformer"]], [None, "blocked", None])

    def test_a_resistor_in_place_of_a_device(self) -> None:
        self.case.write_text(WITH["TA"])
        self.prints("screen~TA", screen(BELOW, REACHES))
        self.prints("screen~TA~TB", screen(BELOW, BELOW))
        shown = self.done(*self.words("--ohm=2.5", f"--out={self.folder / 'out'}"))
        self.assertIn("with a resistor of 2.500000 ohm in one of 1 neutral, the best first", shown)
        best = tomllib.loads((self.folder / "out" / "best.toml").read_text())
        self.assertEqual([unit.get("neutral") for unit in best["transformer"]], [2500000, 2500000, None])
        # A blocking device is in the place of the resistor.
        self.assertIn("in one of 2 neutrals", self.done(*self.words()))

    def test_a_case_in_which_nothing_is_left_to_block(self) -> None:
        self.case.write_text(re.sub(r"300000 \}", '300000, neutral = "blocked" }', CASE))
        self.prints("screen~TA~TB", screen(BELOW, REACHES))
        (line,) = self.refused(*self.words())
        self.assertEqual(line, f"{self.case}: no unit of it has a neutral that can have a blocking device")

    def test_words_that_are_none(self) -> None:
        for words, told in (
            ("--ohm=0", "--ohm=0: it is no number of 0.001 to 1000 ohm; write the resistor of a neutral"),
            ("--ohm=1e9", "--ohm=1e9: it is no number of 0.001 to 1000 ohm; write the resistor of a neutral"),
            ("--pairs=1", "--pairs=1: it is no whole number of 2 to 200; write of how many neutrals pairs are tried"),
            ("--pairs=all", "--pairs=all: it is no whole number of 2 to 200; write of how many neutrals pairs are tried"),
        ):
            self.assertEqual(self.refused(*self.words(words)), [told])

    def test_what_is_told_of_other_faults(self) -> None:
        self.prints("screen~TA", "gicstudy: usage: number --width\n")
        self.prints("screen~TB", screen(BELOW, BELOW))
        (line,) = self.refused(*self.words())
        self.assertTrue(line.startswith(f"{self.case}: with a blocking device at TA: the program ended with status 2"), line)
        self.prints("screen", "gicstudy: unearthed: step 1 node B\n")
        (line,) = self.refused(*self.words())
        self.assertEqual(line, f"{self.case}: its network is unearthed at B; mend that before")
        self.case.write_text(CASE.replace('"Z", latitude', '"Z",\n latitude'))
        self.prints("screen", screen(BELOW, REACHES))
        (line,) = self.refused(*self.words())
        self.assertEqual(line, f"{self.case}: it is in TOML 1.1; write the case without what only TOML 1.1 has")


@unittest.skipUnless(BUILT.is_file(), "no program is built")
class OverTheProgram(DeskTest):
    def rows(self, *words: object) -> list[dict[str, str]]:
        out = self.folder / "out"
        self.done("mitigate", *words, f"--program={BUILT}", f"--out={out}", "--force")
        with open(out / "ranking.csv", newline="") as file:
            return list(csv.DictReader(file))

    def test_each_row_of_the_region_beside_a_plain_solver(self) -> None:
        case = tomllib.loads((EXAMPLES / "region.toml").read_text())
        scale = {"upland": 0.8 * 0.85, "coast": 0.6 * 0.79}
        rows = self.rows(EXAMPLES / "region.toml")
        self.assertEqual(len(rows), 30)
        for row in rows:
            units = [unit | ({"neutral": "blocked"} if unit["name"] == row["neutrals"] else {}) for unit in case["transformer"]]
            currents = plain.effective_currents(case | {"transformer": units}, scale.__getitem__)
            judged = {unit["name"]: plain.worst(currents[unit["name"]]) for unit in units if unit["high_volts"] > 200000}
            self.assertEqual(sum(worst >= 75 for worst in judged.values()), int(row["at_threshold"]), row)
            self.assertLess(float(row["greatest_low_A_per_phase"]) - 1e-6, max(judged.values()), row)
            self.assertGreater(float(row["greatest_high_A_per_phase"]) + 1e-6, max(judged.values()), row)

    def test_the_best_case_runs_and_is_what_its_row_says(self) -> None:
        for name, words in (("third.toml", ()), ("valley.toml", ("--pairs=3", "--event=supplemental"))):
            rows = self.rows(EXAMPLES / name, *words)  # (of those that are alike the first, so the network as it is)
            best = min(rows, key=lambda row: (int(row["at_threshold"]), float(row["greatest_high_A_per_phase"])))
            asked = [word for word in words if word.startswith("--event")]
            run = [str(BUILT), "screen", f"--case={self.folder / 'out' / 'best.toml'}", *asked]
            report = subprocess.run(run, capture_output=True, text=True, check=True).stdout
            self.assertEqual(len(re.findall("(?:reaches|undecided)$", report, re.M)), int(best["at_threshold"]))
            self.assertIn(f" {int(best['greatest_high_A_per_phase'].replace('.', ''))} ", report)


if __name__ == "__main__":
    unittest.main()
