"""Alpha by the formula, the table and a number: what is written of it, and the currents that come of it."""

import decimal
import math
import subprocess
import tomllib
import unittest
from collections.abc import Callable
from fractions import Fraction

import plain
from shared import BUILT, EXAMPLES, DeskTest
from test_case import POLYGONS, CaseTest
from test_psse import GIC, RAW

from gicdesk.alpha import TABLE, by_formula, by_table, scale_for, unasked

PART = 1e-4  # alpha times beta is met to this part, and so are the currents
ASKED = (*range(4960, 5001), *range(5563, 5601), *range(5697, 5701))  # latitudes at which `review` asks about alpha


def formula(latitude: float) -> float:
    return min(max(0.001 * math.exp(0.115 * latitude), 0.1), 1.0)


def written(case: plain.Case) -> Callable[[str], float]:
    """Alpha times beta of the zones of a case, as the program takes it."""
    zones = {row["name"]: float(by_table(row["latitude"])) * row["beta"] / 100 for row in case["zone"]}
    return zones.__getitem__


class Scales(unittest.TestCase):
    def test_the_table_is_that_of_the_program(self) -> None:
        steps = ((0, 1), (4000, 1), (4001, 2), (4500, 2), (5000, 3), (5001, 5), (5400, 5), (5401, 6), (5600, 6))
        for latitude, tenths in (*steps, (5700, 7), (5701, 8), (5800, 8), (5900, 9), (5901, 10), (9000, 10)):
            self.assertEqual(by_table(latitude), Fraction(tenths, 10), latitude)

    def test_the_formula_is_between_a_tenth_and_one(self) -> None:
        for latitude in ("0", "40", "40.1", "49.8", "57.3", "60.06", "60.07", "90"):
            self.assertAlmostEqual(float(by_formula(decimal.Decimal(latitude))), formula(float(latitude)), 14)

    def test_latitudes_at_which_review_does_not_ask_about_alpha(self) -> None:
        for latitude in range(9001):
            near = next(one for one in range(latitude, -1, -1) if one not in ASKED)
            self.assertEqual((unasked(latitude), by_table(unasked(latitude))), (near, by_table(latitude)))
        self.assertEqual([unasked(most) for most, _ in TABLE], [4000, 4500, 4959, 5400, 5562, 5696, 5800, 5900, 9000])

    def test_every_product_is_met(self) -> None:
        """Alpha times beta of the case times the factor of the spans is what is meant, and the factor is near 1."""
        for latitude in range(0, 9001, 75):
            for beta in range(1, 151, 7):
                product = by_formula(decimal.Decimal(latitude) / 100) * Fraction(beta, 100)
                scale = scale_for(latitude, product)
                self.assertEqual(by_table(scale.latitude) * Fraction(scale.beta, 100) * scale.factor, product)
                self.assertTrue(1 <= scale.beta <= 150)
                self.assertTrue(scale.latitude not in ASKED or scale.latitude == latitude, scale)
                if product >= Fraction(1, 20):
                    self.assertLessEqual(abs(scale.factor - 1), Fraction(1, 100))


class Written(CaseTest):
    SPANS = {"N-S": -111221, "low": -111221}  # to the north

    def product(self, zone: str, line: str, *words: object) -> float:
        """Alpha times beta times the span of a line as it is in the case, over its span by the coordinates."""
        made = self.made(*words)
        scale = written({"zone": list(made["zone"].values())})
        return float(scale(zone) * made["line"][line]["north"] / self.SPANS[line])

    def test_by_the_table(self) -> None:
        zones = self.made()["zone"]
        self.assertEqual(zones["upland"], {"name": "upland", "latitude": 5730, "beta": 85})

    def test_by_the_formula(self) -> None:
        product = self.product("upland", "N-S", "--alpha=formula")
        self.assertAlmostEqual(product / (formula(57.3) * 0.85), 1, delta=PART)
        self.assertIn("alpha 0.727417 by the formula, times beta 0.85\n", self.out.read_text())

    def test_with_more_decimals_than_a_case_has(self) -> None:
        self.change("zones", "57.30,0.85", "49.8123,0.80733")
        product = self.product("upland", "N-S", "--alpha=formula", "--accept=latitude")
        self.assertAlmostEqual(product / (formula(49.8123) * 0.80733), 1, delta=PART)

    def test_review_does_not_ask_about_an_alpha_that_is_met(self) -> None:
        """At 49.80 degrees the formula has 0.3070, and the table 0.3."""
        self.change("zones", "57.30,0.85", "49.80,0.85")
        for alpha, latitude, told in (("formula", 4959, True), ("0.3071", 4959, True), ("0.3069", 4980, False)):
            made = self.made(f"--alpha={alpha}", "--accept=latitude")["zone"]["upland"]
            self.assertEqual(made["latitude"], latitude, alpha)
            self.assertEqual("in place of 49.80 degrees" in self.out.read_text(), told, alpha)

    def test_a_number_for_all_zones_and_one_of_a_zone(self) -> None:
        self.assertAlmostEqual(self.product("upland", "N-S", "--alpha=1") / 0.85, 1, delta=PART)
        self.change("zones", "geomagnetic_latitude,beta,", "geomagnetic_latitude,beta,alpha,")
        self.change("zones", "0.85,", "0.85,0.4321,")
        self.change("zones", "0.79,", "0.79,,")
        self.assertAlmostEqual(self.product("upland", "N-S", "--alpha=1") / (0.85 * 0.4321), 1, delta=PART)
        self.assertAlmostEqual(self.product("coast", "low", "--alpha=1") / 0.79, 1, delta=PART)

    def test_other_words(self) -> None:
        for word in ("formulas", "0", "NaN", "2.5", ""):
            (line,) = self.findings(f"--alpha={word}")
            self.assertEqual(line, f"--alpha={word}: allowed are table, formula and numbers from 0.01 to 2")

    def test_a_span_that_the_factor_takes_beyond_a_case(self) -> None:
        self.change("zones", "0.85,", "1.5,")
        self.change("substations", "49.0,-100.0", "42.0,-100.0")
        self.change("lines", "3.25", "30")
        (line,) = self.findings("--alpha=1.7", "--accept=line", "--accept=span")[:1]
        self.assertEqual(
            line,
            "lines.csv line 2: its span times 1.700000 is above 1000 km; cut it in two, with a substation without a "
            "ground between them",
        )


class Default(CaseTest):
    """What both commands take where nothing is said: the formula of the standard, min(1, max(0.1, 0.001 e^(0.115 L)))."""

    def test_of_tables(self) -> None:
        given = [word for word in self.words() if word != "--alpha=table"]
        self.done(*given)
        case = tomllib.loads(self.out.read_text())
        line = next(line for line in case["line"] if line["name"] == "N-S")
        product = written(case)("upland") * line["north"] / -111221
        self.assertAlmostEqual(product / (formula(57.3) * 0.85), 1, delta=PART)

    def test_of_a_power_flow(self) -> None:
        """57.3 degrees are 0.7274 by the formula and 0.8 by the program's table; three decimals of beta do too."""
        ways: list[tuple[list[str], float]] = [([], formula(57.3)), (["--alpha=formula"], formula(57.3)), (["--alpha=0.5"], 0.5)]
        for way, alpha in ways:
            files = [self.file("net.raw", RAW), self.file("net.gic", GIC)]
            zones = self.file("zones.csv", "name,geomagnetic_latitude,beta\nall,57.30,0.855\n")
            self.done("psse", *files, f"--zones={zones}", "--beyond=leave", f"--out={self.out}", "--force", *way)
            case = tomllib.loads(self.out.read_text())
            line = next(line for line in case["line"] if line["name"] == "L1-4-1")
            product = written(case)("all") * line["north"] / -111221
            self.assertAlmostEqual(product / (alpha * 0.855), 1, delta=PART, msg=way)

    def test_a_table_that_makes_currents_too_small_is_told_of_a_power_flow(self) -> None:
        zones = self.file("zones.csv", "name,geomagnetic_latitude,beta\nall,49.80,0.85\n")
        files = [self.file("net.raw", RAW), self.file("net.gic", GIC), f"--zones={zones}"]
        out = self.done("psse", *files, "--beyond=leave", f"--out={self.out}", "--alpha=table").splitlines()
        words = "alpha is 0.3 by the program's table, and 0.3070 by the formula; currents come out too small"
        ways = "choose --alpha=formula, or write a column alpha"
        self.assertEqual(out[0], f"{zones} line 2, geomagnetic_latitude: {words}; {ways}")


class Parts(CaseTest):
    def test_a_line_in_parts_has_the_currents_of_the_whole_one(self) -> None:
        """Where both zones have the same alpha and beta, a line in two parts carries what it did in one zone."""
        self.change("zones", "55.60,0.79", "57.30,0.85")
        self.change("lines", "upland,3.25", ",3.25")
        self.change("lines", ",3.25,,", ",3.25,-110.5,9.3")
        self.texts["polygons"] = POLYGONS
        found = []
        for _ in range(2):
            self.made()
            case = tomllib.loads(self.out.read_text())
            found.append((case["format"], plain.effective_currents(case, written(case))))
            self.texts["lines"] = self.texts["lines"].replace(",,3.25", ",upland,3.25")
        self.assertEqual([number for number, _ in found], [3, 2])
        for name, currents in found[0][1].items():
            for here, there in zip(currents, found[1][1][name]):
                self.assertAlmostEqual(here, there, delta=1e-6, msg=name)


class Currents(DeskTest):
    """The currents of the sample region with the formula's alpha, against those of a plain solver."""

    def setUp(self) -> None:
        super().setUp()
        self.out = self.folder / "formula.toml"
        self.done("case", EXAMPLES / "tables", "--alpha=formula", f"--out={self.out}")
        self.case = tomllib.loads(self.out.read_text())
        # The plain network: the region with its own spans, latitudes and betas, and alpha from the formula in doubles.
        region = tomllib.loads((EXAMPLES / "region.toml").read_text())
        zones = {row["name"]: formula(row["latitude"] / 100) * row["beta"] / 100 for row in region["zone"]}
        self.plain = plain.effective_currents(region, zones.__getitem__)

    def test_the_written_case_has_the_currents_of_the_formula(self) -> None:
        made = plain.effective_currents(self.case, written(self.case))
        for name, currents in self.plain.items():
            bound = PART * plain.worst(currents)
            for here, there in zip(made[name], currents):
                self.assertLessEqual(abs(here - there), bound, name)

    @unittest.skipUnless(BUILT.is_file(), "no program is built")
    def test_the_program_prints_them(self) -> None:
        words = [str(BUILT), "screen", f"--case={self.out}"]
        report = subprocess.run(words, capture_output=True, text=True, check=True).stdout
        seen = 0
        for line in report.splitlines():
            match line.split(" "):
                case ["transformer", name, "north", *_, "worst", low, high, _]:
                    seen += 1
                    expected = 1000 * plain.worst(self.plain[name])
                    self.assertLessEqual(int(low) - PART * expected, expected, name)
                    self.assertGreaterEqual(int(high) + PART * expected, expected, name)
        self.assertEqual(seen, len(self.plain))

    @unittest.skipUnless(BUILT.is_file(), "no program is built")
    def test_loops_through_both_zones_close_in_review(self) -> None:
        words = [str(BUILT), "review", f"--case={self.out}"]
        report = subprocess.run(words, capture_output=True, text=True, check=True).stdout
        self.assertEqual(report, "review\nfindings 0\nend\n")

    def test_the_plain_solver_has_the_currents_of_the_sample_report(self) -> None:
        region = tomllib.loads((EXAMPLES / "region.toml").read_text())
        currents = plain.effective_currents(region, written(region))
        for line in (EXAMPLES / "reports" / "region_screen.txt").read_text().splitlines():
            cells = line.split(" ")
            if cells[0] == "transformer":
                milli = [1000 * value for value in (*currents[cells[1]], plain.worst(currents[cells[1]]))]
                for value, low, high in zip(milli, cells[3::3], cells[4::3]):
                    self.assertLessEqual(int(low) - 0.01, value, line)
                    self.assertGreaterEqual(int(high) + 0.01, value, line)


if __name__ == "__main__":
    unittest.main()
