"""`gicdesk grounds`: over a program that stands for one with the mode `robust`, and over the real one where it has that mode."""

import csv
import os
import random
import subprocess
import tomllib
import unittest
from unittest import mock

import plain
import stand_in
from shared import BUILT, EXAMPLES, FAKE, TESTS, DeskTest
from small import TABLES
from test_outages import BOTH, screen

from gicdesk.cases import Field, Row
from gicdesk.corners import Model, Range, range_of
from gicdesk.reports import Element, Item, Volts
from gicdesk.reports import Field as Report
from gicdesk.sparse import Factored

# Five stations in a ring with a chord, and units of three kinds.
CASE = """\
format = 3
zone = [{ name = "Z", scale = 600 }, { name = "Y", scale = 360 }]
substation = [
  { name = "A", ground = 200000 }, { name = "B", ground = 500000 }, { name = "C", ground = 300000 },
  { name = "D", ground = 150000 }, { name = "E" },
]
bus = [
  { name = "a", substation = "A" }, { name = "b", substation = "B" }, { name = "c", substation = "C" },
  { name = "c2", substation = "C" }, { name = "d", substation = "D" }, { name = "e", substation = "E" },
]
line = [
  { name = "AB", from = "a", to = "b", zone = "Z", resistance = 3000000, north = 60000, east = 30000 },
  { name = "BC", from = "b", to = "c", zone = "Z", resistance = 2500000, north = -20000, east = 70000 },
  { name = "CE", from = "c", to = "e", zone = "Y", resistance = 1500000, north = -60000, east = 10000 },
  { name = "ED", from = "e", to = "d", zone = "Y", resistance = 1500000, north = -10000, east = -60000 },
  { name = "DA", from = "d", to = "a", zone = "Y", resistance = 2000000, north = 30000, east = -50000 },
  { name = "AC", from = "a", to = "c2", zone = "Z", resistance = 4000000, north = 40000, east = 100000 },
  { name = "S", from = "b", to = "d", zone = "Z", resistance = 1000000, north = 0, east = 0, blocked = true },
]
transformer = [
  { name = "TA", kind = "delta-wye", high_volts = 345000, high = "a", high_resistance = 300000 },
  { name = "TB", kind = "delta-wye", high_volts = 345000, high = "b", high_resistance = 200000, neutral = 100000 },
  { name = "TC", kind = "auto", high_volts = 345000, high = "c", low_volts = 138000, low = "c2", \
series_resistance = 200000, common_resistance = 150000 },
  { name = "TD", kind = "delta-wye", high_volts = 345000, high = "d", high_resistance = 250000 },
]
"""


class Numbers(unittest.TestCase):
    def test_a_range_is_rounded_outward_and_within_what_a_case_has(self) -> None:
        self.assertEqual(range_of(333_333, 10), Range(299_999, 333_333, 366_667))
        self.assertEqual(range_of(1500, 90), Range(1000, 1500, 2850))
        self.assertEqual(range_of(900_000_000, 90).most, 1_000_000_000)

    def test_what_is_open_has_no_part(self) -> None:
        elements = [
            Element("A", "ground", "A", "*", 1, 1_000_000),
            Element("B", "ground", "B", "*", 1, 1_000_000),
            Element("L", "line", "a", "b", 3, 3_000_000),
            Element("TA", "high", "a", "A", 3, 300_000),
            Element("TB", "high", "b", "B", 3, 300_000),
        ]
        volts = Volts(8000, 0, {"L": 800 * 10**9}), Volts(0, 8000, {"L": 0})
        unit = Row("TA", [Field("high_volts", 345_000), Field("kind", "delta-wye")])
        ranges = {"A": range_of(1_000_000, 20), "B": range_of(1_000_000, 20)}

        def model(*items: Item) -> Model:
            return Model(elements, volts, Report(8000, 0, 100, 75000, list(items), []), ranges)

        # The loop has 3.2 ohm, of which 1 ohm is in each ground: 800 V drive 285.7 A with both at 0.8 ohm, and 222.2 A at 1.2.
        for is_great, ground, amperes in ((True, 800_000, 800 / 2.8), (False, 1_200_000, 800 / 3.6)):
            found = model().search(unit, is_great)
            self.assertEqual(found, {"A": ground, "B": ground})
            self.assertAlmostEqual(abs(model().state(found, model().weights(unit)).current), amperes / 3)
        without = model(Item("line", "L", state="open"), Item("winding", "TB", "high", state="open"), Item("ground", "B", state="open"))
        self.assertEqual(list(without.ranges), ["A"])
        self.assertEqual(abs(without.state({"A": 1_000_000}, without.weights(unit)).current), 0)

    def test_the_sparse_solver(self) -> None:
        drawn = random.Random(3)
        names = [f"n{place}" for place in range(30)]
        rows: dict[str, dict[str, float]] = {name: {name: drawn.uniform(0.1, 1)} for name in names}
        for place, name in enumerate(names[1:], 1):
            for other in drawn.sample(names[:place], min(place, 3)):
                value = drawn.uniform(0.1, 10)
                for one, two in ((name, other), (other, name)):
                    rows[one][one] += value
                    rows[one][two] = rows[one].get(two, 0) - value
        right = {name: complex(drawn.gauss(0, 1), drawn.gauss(0, 1)) for name in names[::2]}
        found = Factored(rows).solved(right)
        for name, row in rows.items():
            self.assertAlmostEqual(sum(value * found[other] for other, value in row.items()), right.get(name, 0j), 9)


class GroundsTest(DeskTest):
    program = TESTS / "stand_in.py"

    def setUp(self) -> None:
        super().setUp()
        self.case = self.file("case.toml", CASE)
        self.out = self.folder / "out"

    def words(self, *words: object) -> tuple[object, ...]:
        return ("grounds", self.case, f"--program={self.program}", *words)

    def rows(self, name: str) -> list[dict[str, str]]:
        with open(self.out / name, newline="") as file:
            return list(csv.DictReader(file))

    def test_the_witnesses_are_those_of_all_corners(self) -> None:
        shown = self.done(*self.words("--tolerance=50", f"--out={self.out}"))
        case = tomllib.loads(CASE)
        found = [
            plain.effective_currents(corner, lambda name: stand_in.scale(case, name)) for corner in stand_in.corners(case, 50)
        ]
        units = {row["transformer"]: row for row in self.rows("units.csv")}
        opened = [name for name, row in units.items() if row["holds_verdict"] == "undecided"]
        self.assertGreaterEqual(len(opened), 2)
        for name in opened:
            self.assertIn(f"\n{name} ", shown)
            worst = [plain.worst(currents[name]) for currents in found]
            for kind, best in (("least", min(worst)), ("greatest", max(worst))):
                ends = [float(units[name][f"{kind}_{end}_A_per_phase"]) for end in ("low", "high")]
                self.assertTrue(ends[0] <= best <= ends[1], (name, kind, ends, best))
                witness = tomllib.loads((self.out / f"{kind}_{name}.toml").read_text())
                alone = plain.effective_currents(witness, lambda name: stand_in.scale(case, name))
                self.assertAlmostEqual(plain.worst(alone[name]), best, 9)
            self.assertEqual(units[name]["moved_most_by"], {"TA": "A", "TB": "B", "TC": "C", "TD": "D"}[name])

    def test_what_to_measure_next_leaves_the_fewest_open(self) -> None:
        self.done(*self.words("--tolerance=50", f"--out={self.out}"))
        case = tomllib.loads(CASE)
        measured = self.rows("measured.csv")
        self.assertEqual([row["measured"] for row in measured[:2]], ["as the case has them", ""])

        def left(ground: str) -> int:
            rows = [row | ({"tolerance": 0} if row["name"] == ground else {}) for row in case["substation"]]
            lines = stand_in.unit_lines(case, list(stand_in.corners(case | {"substation": rows}, 50)))
            return sum(line.endswith("undecided") for line in lines)

        opened = {ground: left(ground) for ground in "ABCD"}
        self.assertEqual(int(measured[2]["undecided"]), min(opened.values()))
        self.assertEqual(opened[measured[2]["measured"]], min(opened.values()))
        for row in measured:
            self.assertEqual(len(row["open"].split()), int(row["undecided"]))
            self.assertEqual(sum(int(row[verdict]) for verdict in ("reaches", "below", "undecided")), 4)

    def test_a_tolerance_of_its_own(self) -> None:
        self.case.write_text(CASE.replace('"D", ground = 150000', '"D", ground = 150000, tolerance = 0'))
        self.done(*self.words("--tolerance=50", f"--out={self.out}"))
        for path in self.out.glob("*.toml"):
            grounds = {row["name"]: row.get("ground") for row in tomllib.loads(path.read_text())["substation"]}
            self.assertEqual(grounds["D"], 150000)
            self.assertIn(grounds["A"], (100000, 300000))

    def test_nothing_is_open_and_nothing_is_to_measure(self) -> None:
        shown = self.done(*self.words("--tolerance=1", f"--out={self.out}")).splitlines()
        self.assertEqual(len(shown), 3)
        self.assertEqual(shown[1:], [f"{when}: reaches 2 below 2 open 0 outside 0" for when in (
            "with the grounds of the case", "whatever they are within the tolerance",
        )])  # fmt: skip
        self.assertEqual(sorted(path.name for path in self.out.iterdir()), ["measured.csv", "units.csv"])

    def test_a_program_without_the_mode(self) -> None:
        self.file("robust.txt", "gicstudy: usage: mode\n")
        with mock.patch.dict(os.environ, {"FAKE_REPORTS": str(self.folder)}):
            (line,) = self.refused("grounds", self.case, f"--program={FAKE}", "--tolerance=50")
        self.assertEqual(line, f"{FAKE}: it has no mode robust, by which grounds judges a case; give a later program by --program")

    def test_a_network_that_its_greatest_grounds_leave_unsolved(self) -> None:
        self.file("screen.txt", screen(BOTH, BOTH))
        self.file("robust.txt", "gicstudy: unresolved: step 1 node B\n")
        with mock.patch.dict(os.environ, {"FAKE_REPORTS": str(self.folder)}):
            (line,) = self.refused("grounds", self.case, f"--program={FAKE}", "--tolerance=50")
        self.assertEqual(line, f"{self.case}: with its grounds at their greatest it is unresolved at B; take a smaller tolerance")

    def test_tolerances_that_are_none(self) -> None:
        for text in ("0", "91", "100", "0.5", "50%", ""):
            (line,) = self.refused(*self.words(f"--tolerance={text}"))
            self.assertEqual(line, f"--tolerance={text}: it is no whole number of 1 to 90; write the tolerance in per cent")

    def test_a_folder_that_is_there(self) -> None:
        self.out.mkdir()
        (line,) = self.refused(*self.words("--tolerance=50", f"--out={self.out}"))
        self.assertEqual(line, f"{self.out}: it is there already; choose another name")

    def test_its_report_as_a_table(self) -> None:
        run = [str(self.program), "robust", f"--case={self.case}", "--tolerance=20"]
        report = subprocess.run(run, capture_output=True, check=True).stdout
        heads, first, *_ = self.done("csv", "-", stdin=report).splitlines()
        self.assertTrue(heads.endswith("verdict,threshold_A_per_phase,field_V_per_km,width_A,tolerance_percent"), heads)
        self.assertTrue(first.endswith(",75.000,8.000,0.100,20"), first)
        # Its intervals aren't of one network, so no change is told of them.
        robust = self.file("robust.txt", report)
        lines = self.refused("compare", robust, robust)
        self.assertIn("it is a report of robust; compare takes two of screen, two of outage, or one of each", lines[0])


class Column(DeskTest):
    """The column `tolerance` of substations.csv."""

    def tables(self, old: str, new: str) -> tuple[object, ...]:
        for name, text in TABLES.items():
            if name == "substations":
                text = text.replace("ground_ohm,note", "ground_ohm,tolerance,note").replace(old, new)
                cells = [row.split(",") for row in text.splitlines()]
                text = "\n".join(",".join([*row[:4], *[""] * (6 - len(row)), *row[4:]]) for row in cells)
            self.file(f"{name}.csv", text)
        return ("case", self.folder, f"--out={self.folder / 'case.toml'}", "--force", "--alpha=table")

    def test_it_is_written_where_it_is_given(self) -> None:
        self.done(*self.tables("0.2,", "0.2,25,"))
        case = tomllib.loads((self.folder / "case.toml").read_text())
        self.assertEqual(case["format"], 3)
        self.assertEqual([row.get("tolerance") for row in case["substation"]], [25, None, None])
        self.done(*self.tables("0.2,", "0.2,,"))
        case = tomllib.loads((self.folder / "case.toml").read_text())
        self.assertEqual((case["format"], "tolerance" in case["substation"][0]), (2, False))

    def test_what_is_none(self) -> None:
        for cell, words in (
            ("0.2,0.5", "it is 0.5, and a case has whole per cent; is it a part of 1?"),
            ("0.2,12.5", "it is 12.5, and a case has whole per cent; round it up"),
            ("0.2,100", "it is 100, and not 0 to 90 per cent; is it a part of 1?"),
            ("0.2,half", '"half" is no number; write one with a decimal point'),
        ):
            lines = self.refused(*self.tables("0.2,", f"{cell},"))
            self.assertEqual([line.partition(": ")[2] for line in lines if "tolerance" in line], [words])
        lines = self.refused(*self.tables("0.2,", ",25,"))
        self.assertIn("it is 25, and there is no ground; leave one of the two out", "\n".join(lines))


def has_mode() -> bool:
    if not BUILT.is_file():
        return False
    return "missing" in subprocess.run([str(BUILT), "robust"], capture_output=True, text=True, check=False).stderr


@unittest.skipUnless(has_mode(), "no program with the mode robust is built")
class OverTheProgram(DeskTest):
    def test_the_region_at_50_per_cent(self) -> None:
        out = self.folder / "out"
        self.done("grounds", EXAMPLES / "region.toml", "--tolerance=50", f"--program={BUILT}", f"--out={out}")
        with open(out / "units.csv", newline="") as file:
            units = list(csv.DictReader(file))
        opened = [row for row in units if row["holds_verdict"] == "undecided"]
        self.assertGreaterEqual(len(opened), 8)
        for row in opened:
            low, least, given, greatest, high = (
                float(row[f"{name}_A_per_phase"])
                for name in ("holds_low", "least_low", "case_low", "greatest_high", "holds_high")
            )
            self.assertTrue(low <= least <= given <= greatest <= high, row)
            for kind in ("least", "greatest"):
                run = [str(BUILT), "screen", f"--case={out / kind}_{row['transformer']}.toml"]
                report = subprocess.run(run, capture_output=True, text=True, check=True).stdout
                self.assertIn(f" {int(row[f'{kind}_high_A_per_phase'].replace('.', ''))} {row[f'{kind}_verdict']}\n", report)


if __name__ == "__main__":
    unittest.main()
