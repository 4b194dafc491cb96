"""What a study's page has for an auditor: a head to sign, the inputs with their sources, the margin of each unit, what holds within a
tolerance of grounds, and devices in neutrals."""

import csv
import unittest

from shared import DeskTest
from small import TABLES
from test_outages import BOTH, NONE, ONE, screen
from test_study import StudyTest

from gicdesk.case_rows import case_of
from gicdesk.forms import Interval
from gicdesk.reports import Robust, ScreenUnit
from gicdesk.sources import HEADS, Sources
from gicdesk.study_inputs import Rest, rests_of
from gicdesk.study_margin import robust_words, within_cells

HEAD = ",".join(HEADS)
SOURCES = f"""\
{HEAD}
zone,Z,,59.8,0.971,by the formula,1.00,SHIELD
substation,A,measured,,,,,
substation,B,default,,,,,
line,L,estimated,,,,,
transformer,TA,measured,,,,,
"""
ROBUST = screen("90000 108000 reaches", "70000 82000 undecided").replace("screen", "robust", 1)


def robust(text: str) -> str:
    return text.replace("field 8000\n", "field 8000 tolerance 20\n")


class Head(StudyTest):
    def test_what_is_given_stands_there_and_the_rest_is_a_line_to_write_on(self) -> None:
        page = self.page("--title=Vulnerability <2026>", "--project=P 7", "--author=A. N. Other", "--data-date=June 2026")
        self.assertIn("<h1>Vulnerability &lt;2026&gt;</h1>", page)
        self.assertIn("<title>Vulnerability &lt;2026&gt;</title>", page)
        for label, text in (("Project", "P 7"), ("Author", "A. N. Other"), ("Date of the data", "June 2026")):
            self.assertIn(f'<th scope="row">{label}</th><td>{text}</td>', page)
        for label in ("Revision", "Reviewed by", "Date and signature"):
            self.assertIn(f'<th scope="row">{label}</th><td class="blank"></td>', page)

    def test_without_a_title_it_is_the_name_of_the_case(self) -> None:
        page = self.page("--title=  ")
        self.assertIn("<h1>Study of case.toml</h1>", page)
        self.assertEqual(page.count('class="blank"'), 6)


class Inputs(StudyTest):
    def test_without_a_table_of_sources_the_zones_are_those_of_the_case(self) -> None:
        told = self.text_of("inputs", self.page())
        self.assertIn("Z 60.00° 1 by the program's table 1.00 1 –", told)
        self.assertIn("No table of sources was given, so which resistances were measured or assumed isn't known.", told)

    def test_with_one_zones_are_as_given_and_sources_are_counted(self) -> None:
        given = self.file("sources.csv", SOURCES)
        told = self.text_of("inputs", self.page(f"--sources={given}"))
        self.assertIn("Z 59.8° 0.971 by the formula 1.00 0.971 SHIELD", told)
        for words in ("grounds 1 0 1 0", "lines 0 1 0 1", "windings of units 1 0 0 1"):
            self.assertIn(words, told)
        # TA has its ground measured; one of its two lines is estimated, and the ground at the other end is a default.
        self.assertIn("TA reaches 98.767 measured measured 1 of 2 assumed 1 of 1 assumed", told)
        self.assertIn("TB reaches 98.767 not said default 1 of 2 assumed 1, none assumed", told)
        self.assertIn("The verdicts of 2 of 2 applicable units rest on assumed resistances: 2 at the threshold", told)
        row = self.units()["TB"]
        cells = [row[head] for head in ("source_of_windings", "source_of_ground", "assumed_lines", "assumed_grounds_beyond")]
        self.assertEqual(cells, ["", "default", "1 of 2", "0 of 1"])

    def test_a_table_of_another_case_or_with_other_words_is_refused(self) -> None:
        given = self.file("sources.csv", f"{HEAD}\nline,L9,estimated,,,,,\nline,K,guessed,,,,,\ngrid,A,,,,,,\nzone,Z,,x,1,,1,\n")
        lines = [line.replace(f"{given} ", "") for line in self.refused(*self.words(f"--sources={given}"))]
        self.assertEqual(
            lines,
            [
                "line 2, name: the case has no row L9; is it the table of another case?",
                'line 3, source: "guessed" is none of measured, estimated, default; write one of these, or nothing',
                'line 4, list: "grid" is none of zone, substation, line, transformer; take the table as it was written',
                'line 5, geomagnetic_latitude: "x" is no number; write one with a decimal point',
            ],
        )

    def test_what_a_verdict_rests_on(self) -> None:
        """Three stations in a row: of the one at the end the line there and the ground at its other end, and none beyond."""
        case = case_of("case.toml", b"""
format = 2
zone = [{ name = "Z", latitude = 6000, beta = 100 }]
substation = [{ name = "A", ground = 1000 }, { name = "B", ground = 1000 }, { name = "C", ground = 1000 }]
bus = [{ name = "a", substation = "A" }, { name = "b", substation = "B" }, { name = "c", substation = "C" }]
line = [
  { name = "AB", from = "a", to = "b", zone = "Z", resistance = 3000000, north = 1, east = 0 },
  { name = "BC", from = "b", to = "c", zone = "Z", resistance = 3000000, north = 1, east = 0 },
]
transformer = [{ name = "T", kind = "delta-wye", high_volts = 345000, high = "a", high_resistance = 300000 }]
""")
        found = dict(rests_of(case, Sources({}, {"C": "default", "BC": "estimated", "A": "measured"})))
        self.assertEqual(found, {"T": Rest("", "measured", (0, 1), (0, 1))})
        self.assertFalse(found["T"].is_assumed)
        found = dict(rests_of(case, Sources({}, {"B": "default"})))
        self.assertEqual(found, {"T": Rest("", "", (0, 1), (1, 1))})


class Margin(StudyTest):
    def test_the_margin_of_each_applicable_unit(self) -> None:
        self.prints("screen", screen(BOTH, "60000 60002 below"))
        page = self.page()
        told = self.text_of("margin", page)
        self.assertIn("TA reaches 98.767 -23.767 TB below 60.002 14.998", told)
        self.assertIn("No tolerance of grounds was given", told)
        units = self.units()
        self.assertEqual([units[name]["margin_A_per_phase"] for name in ("TA", "TB", "D")], ["-23.767", "14.998", ""])
        self.assertEqual([units[name]["applicable"] for name in ("TA", "TB", "D")], ["yes", "yes", "no"])
        told = self.text_of("units", page)
        self.assertIn("Units that the standard applies to: 2", told)
        self.assertIn("Other units, outside of the assessment: 1", told)

    def test_what_holds_within_a_tolerance(self) -> None:
        self.prints("robust", robust(ROBUST))
        self.prints("robust~TA", robust(ROBUST))
        self.prints("screen~TA", screen(ONE, NONE))
        page = self.page("--tolerance=20")
        told = self.text_of("margin", page)
        self.assertIn("With each ground within 20 per cent of the case's: 1 reaches, 0 below, 1 undecided.", told)
        self.assertIn("TA reaches 98.767 -23.767 90.000 108.000 reaches – –", told)
        self.assertIn("TB reaches 98.767 -23.767 70.000 82.000 undecided 0.000 to 0.002", told)
        self.assertIn("1 unit is left open: TB .", told)
        self.assertTrue((self.out / "reports" / "robust.txt").is_file())
        self.assertTrue((self.out / "grounds" / "greatest_TB.toml").is_file())
        self.assertIn(f"0 robust gicstudy robust --case={self.case} --tolerance=20", (self.out / "commands.txt").read_text())
        row = self.units()["TB"]
        self.assertEqual((row["any_grounds_high_A_per_phase"], row["any_grounds_verdict"]), ("82.000", "undecided"))
        self.page("--tolerance=20", "--force")

    def test_grounds_with_which_nothing_can_be_said(self) -> None:
        self.prints("robust", "gicstudy: unresolved: step 1 node A\n")
        told = self.text_of("margin", self.page("--tolerance=90"))
        self.assertIn("Nothing is said of grounds within 90 per cent, since the program ended with gicstudy: unresolved", told)

    def test_a_program_without_the_mode_and_a_tolerance_that_is_none(self) -> None:
        self.prints("robust", "gicstudy: usage: mode\n")
        self.assertIn("it has no mode robust", self.refused(*self.words("--tolerance=20"))[0])
        self.assertIn("--tolerance=0.2: it is no whole number of 1 to 90", self.refused(*self.words("--tolerance=0.2"))[0])

    def test_any_verdict_of_robust_is_shown(self) -> None:
        zero = Interval(0, 0)
        rows = [ScreenUnit(name, zero, zero, Interval(70000, 82000), word) for name, word in (("T", "varies"), ("U", "below"))]
        found = Robust(100, 75000, 8000, rows, 20)
        self.assertIn("0 reaches, 1 below, 1 varies.", robust_words(found))
        self.assertEqual(within_cells(rows[0], None)[2], '<span class="v varies">varies</span>')


class Devices(StudyTest):
    def test_where_they_are_asked_for(self) -> None:
        self.assertIn("No devices were tried", self.text_of("devices", self.page()))
        self.prints("screen~TA", screen(ONE, NONE))
        self.prints("screen~TA~TB", screen(NONE, NONE))
        told = self.text_of("devices", self.page("--mitigate", "--force"))
        self.assertIn("As it is 2 units reach the threshold or may; with a blocking device in the neutral of TB 0.", told)
        with open(self.out / "mitigate" / "ranking.csv", newline="") as file:
            self.assertEqual([row["neutrals"] for row in csv.DictReader(file)], ["", "TB", "TA"])


    def test_where_none_can_be_tried(self) -> None:
        case = self.case.read_text().replace("high_resistance = 300000", 'high_resistance = 300000, neutral = "blocked"')
        self.case.write_text(case.replace(', neutral = "blocked", neutral = 1800000', ', neutral = "blocked"'))
        self.prints("screen", screen(BOTH, BOTH))
        told = self.text_of("devices", self.page("--mitigate"))
        self.assertIn("No devices were tried: no unit of it has a neutral that can have a blocking device.", told)

    def test_a_case_of_toml_1_1(self) -> None:
        """A table in braces over two lines is one of TOML 1.1 alone."""
        self.case.write_text(self.case.read_text().replace("[{ name", "[{\n name", 1))
        (line,) = self.refused(*self.words("--mitigate"))
        self.assertIn("--mitigate: it needs the case, which is in TOML 1.1", line)


class FromTables(DeskTest):
    def test_a_case_with_its_table_of_sources(self) -> None:
        folder = self.folder / "tables"
        folder.mkdir()
        for name, text in TABLES.items():
            head, *rows = text.splitlines()
            if name == "substations":
                head, rows = f"{head},source", [f"{row},{word}" for row, word in zip(rows, ("measured", "default", ""))]
            (folder / f"{name}.csv").write_text("\n".join([head, *rows]) + "\n")
        out = self.folder / "case.toml"
        self.done("case", folder, f"--out={out}", "--sources")
        expected = f"{HEAD}\nzone,upland,,57.30,0.727417,by the formula,0.85,\nzone,coast,,55.60,0.598245,by the formula,0.79,\n"
        expected += "substation,North,measured,,,,,\nsubstation,South,default,,,,,\n"
        self.assertEqual((self.folder / "case.sources.csv").read_text(), expected)
        table = folder / "substations.csv"
        table.write_text(table.read_text().replace("measured", "known"))
        (line,) = self.refused("case", folder, f"--out={out}", "--force")
        self.assertTrue(line.endswith('"known" is none of measured, estimated, default; write one of these, or nothing'), line)


if __name__ == "__main__":
    unittest.main()
