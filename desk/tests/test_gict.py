"""GIC(t): waveforms, scaled and turned; what `study --waveform` makes of them, over a program that stands for the real one, and
over the real one where it is built."""

import cmath
import csv
import math
import os
import shlex
import subprocess
import unittest
import xml.etree.ElementTree

import test_outages
from shared import BUILT, EXAMPLES, DeskTest
from test_outages import BOTH, HEADS, NONE, ONE, screen
from test_study import SERIES, WAVE, StudyTest

from gicdesk import charts, gict, waveforms
from gicdesk.directions import bearing_of
from gicdesk.events import BaseSwitchings, Event, Switching
from gicdesk.findings import Refused
from gicdesk.forms import Interval
from gicdesk.reports import ScreenUnit

SVG = "{http://www.w3.org/2000/svg}"


class Waveforms(DeskTest):
    def test_the_strongest_step_has_the_strength_and_the_direction(self) -> None:
        given = waveforms.Waveform([0, 10, 20], [0.3 + 0.4j, -3 + 4j, 1j])
        scaled = given.scaled(8000)
        self.assertEqual(list(scaled.rows), [(0, 480, 640), (10, -4800, 6400), (20, 0, 1600)])
        for bearing in range(0, 360, 15):
            toward = cmath.rect(0.001, math.radians(bearing))
            turned = [complex(north, east) for _, north, east in given.scaled(8000, toward).rows]
            self.assertLess(abs(turned[1] - 8000 * toward / abs(toward)), 0.8)
            # It is turned as a whole: strengths and angles between steps stay, but for the rounding.
            for step, before in zip(turned, (complex(north, east) for _, north, east in scaled.rows)):
                self.assertLess(abs(step / turned[1] - before / (-4800 + 6400j)), 0.001)

    def test_the_unit_of_a_waveform_does_not_matter(self) -> None:
        one, other = (self.read(f"time,north,east\n0,{text}\n") for text in ("0.003,-0.004", "3,-4"))
        self.assertEqual(list(one.scaled(8000).rows), [(0, 4800, -6400)])
        self.assertEqual(list(other.scaled(8000).rows), [(0, 4800, -6400)])

    def test_the_first_of_several_strongest_steps(self) -> None:
        self.assertEqual(waveforms.Waveform([0, 1, 2], [1j, 2j, -2 + 0j]).strongest, 1)

    def read(self, text: str) -> waveforms.Waveform:
        return waveforms.read_waveform("wave.csv", text.encode())

    def test_semicolons_and_decimal_commas(self) -> None:
        self.assertEqual(self.read("time;north;east\n0;1,5;-2\n"), waveforms.Waveform([0], [1.5 - 2j]))

    def test_what_is_no_waveform(self) -> None:
        for rows, words in (
            ("0,1,x\n", 'line 2, east: "x" is no number'),
            ("0,1,1\n0,2,2\n", "line 3, time: it is 0, and not above 0 of the step before"),
            ("-5,1,1\n", "line 2, time: it is -5, and not 0 to 4294967295 seconds"),
            ("0.5,1,1\n", 'line 2, time: "0.5" is no whole number'),
            ("0,0,0\n10,0,1e-4\n", "line 1: no step has a field of 0.001 or more"),
            ("", "line 1: no step has a field of 0.001 or more"),
            ("0,1e400,0\n", "line 2, north: it is 1e400, and not -1000000 to 1000000; is it a field?"),
            ("".join(f"{time},1,1\n" for time in range(20001)), "it has 20001 steps, and a storm at most 20000"),
        ):
            with self.assertRaises(Refused) as refused:
                self.read(f"time,north,east\n{rows}")
            self.assertIn(words, refused.exception.lines()[0])

    def test_a_storm_by_zones_is_none(self) -> None:
        with self.assertRaises(Refused) as refused:
            self.read("time,zone,north,east\n0,*,1,1\n")
        self.assertIn("is none of its columns; allowed are time,north,east", refused.exception.lines()[0])


class Switchings(unittest.TestCase):
    def test_all_are_in_force_from_the_first_step_on(self) -> None:
        event = Event("e", (Switching("L", "open"), Switching("T", "block")))
        base = BaseSwitchings(b"time,item,action\n5,K,open\n70,K,close\n")
        rows = "time,item,action\n0,K,open\n0,K,close\n"
        self.assertEqual(gict.switchings_of(base, event), f"{rows}0,L,open\n0,T,block\n")
        self.assertEqual(gict.switchings_of(base, None), rows)
        self.assertIsNone(gict.switchings_of(BaseSwitchings(), None))

    def test_the_bearing_is_that_of_the_table_of_units(self) -> None:
        """The lesser of the two ways, to which the waveform is turned too."""
        for north, east, bearing in (
            (100, 0, 0),
            (0, 100, 90),
            (0, -100, 90),
            (-100, 0, 0),
            (-100, -100, 45),
            (59, -81, 126),
            (-59, 81, 126),
            (1000, -1, 0),
            (-1000, 1, 0),
        ):
            to_north, to_east = (Interval(1000 * part, 1000 * part + 1) for part in (north, east))
            unit = ScreenUnit("T", to_north, to_east, Interval(1, 2), "reaches")
            subject = gict.Subject(unit, None)
            self.assertEqual((subject.bearing, bearing_of(unit)), (bearing, bearing))
            self.assertAlmostEqual(math.cos(cmath.phase(subject.toward) - math.radians(bearing)), 1, 3)


class Study(StudyTest):
    def setUp(self) -> None:
        super().setUp()
        self.wave = f"--waveform={self.file('wave.csv', WAVE)}"

    def rows(self, name: str) -> list[dict[str, str]]:
        with open(self.out / "gict" / name, newline="") as file:
            return list(csv.DictReader(file))

    def test_the_files_of_a_unit(self) -> None:
        told = self.text_of("gict", self.page(self.wave))
        first, second, third = self.rows("table_TA.csv")
        self.assertEqual([first["turned_low_A_per_phase"], first["turned_middle_A_per_phase"]], ["0.000", "0.0005"])
        self.assertEqual([second["time_s"], second["turned_low_A_per_phase"], second["out"]], ["60", "-98.767", ""])
        field = float(second["turned_north_V_per_km"]), float(second["turned_east_V_per_km"])
        self.assertAlmostEqual(math.hypot(*field), 8, 3)
        self.assertEqual([second["given_north_V_per_km"], second["given_east_V_per_km"]], ["4.800", "6.400"])
        self.assertEqual(third["given_north_V_per_km"], "1.600")
        self.assertEqual((self.out / "gict" / "turned_TA.txt").read_text(), SERIES)
        self.assertEqual((self.out / "gict" / "given_field.csv").read_text(), "time,north,east\n0,0,0\n60,4800,6400\n120,1600,0\n")
        self.assertFalse((self.out / "gict" / "switch_TA.csv").exists())
        summary = {row["transformer"]: row for row in self.rows("summary.csv")}
        self.assertEqual(
            [summary["TA"][head] for head in ("out", "turned_high_A_per_phase", "turned_time_s", "turned_certain_seconds")],
            ["", "-98.765", "60", "60"],
        )
        for words in ("its strongest field, 5 as it was given, at 60 s", "scaled to 8.000 V/km", "-98.767 60 60"):
            self.assertIn(words, told)
        commands = (self.out / "commands.txt").read_text()
        words = "--storm=gict/turned_field_TA.csv --transformer=TA"
        self.assertIn(f"0 turned_TA gicstudy series --case={self.case} {words}\n", commands)
        self.assertIn("--storm=gict/given_field.csv --transformer=TA", commands)

    def test_decimal_commas_are_in_tables_alone(self) -> None:
        self.page(self.wave, "--comma")
        self.assertIn("TA;60;5,657;5,657;-98,767;-98,765;-98,7660;4,800;", (self.out / "gict" / "table_TA.csv").read_text())
        self.assertIn("\n60,4800,6400\n", (self.out / "gict" / "given_field.csv").read_text())

    def test_the_picture_of_a_unit_stands_alone(self) -> None:
        self.page(self.wave)
        root = xml.etree.ElementTree.parse(self.out / "gict" / "picture_TA.svg").getroot()
        self.assertEqual(root.tag, f"{SVG}svg")
        self.assertEqual(len(list(root.iter(f"{SVG}polyline"))), 2)
        self.assertIsNotNone(root.find(f"{SVG}style"))
        words = "GIC(t) of TA in the network as it stands, A a phase: turned to 45° (either way), to -98.767 A at 60 s"
        colours = "blue: turned, orange: as given, dashed: 75.000 A"
        self.assertEqual(root.findtext(f"{SVG}text"), f"{words} ({colours})")

    def test_the_network_in_which_a_unit_is_assessed(self) -> None:
        below = "60000 60002 below"
        self.prints("series@TB+L", SERIES.replace("TA", "TB"))
        self.prints("series@TB+K+L", SERIES.replace("TA", "TB"))
        given = self.file("events.csv", f"{HEADS}both,K,open\nboth,L,open\n")
        self.prints("screen", screen(BOTH, below))
        for number, (without, event, out, rows) in enumerate(
            ((ONE, NONE, "open L", "0,L,open\n"), (below, ONE, "open K; open L", "0,K,open\n0,L,open\n"))
        ):
            self.out = self.folder / f"out{number}"
            self.prints("screen+K", screen(NONE, "60000 60001 below"))
            self.prints("screen+L", screen(NONE, without))
            self.prints("screen+K+L", screen(NONE, event))
            head = test_outages.OUTAGE.partition("transformer")[0]
            ends = f"transformer TA worst {below}\ntransformer TB worst {without}\ntransformer D none\n"
            self.prints("outage", f"{head}{ends}end\n")
            told = self.text_of("gict", self.page(self.wave, f"--events={given}"))
            self.assertIn(out, told)
            self.assertEqual({row["out"] for row in self.rows("table_TB.csv")}, {out})
            self.assertEqual((self.out / "gict" / "switch_TB.csv").read_text(), f"time,item,action\n{rows}")

    def test_without_a_waveform_or_a_unit(self) -> None:
        page = self.page()
        self.assertIn("No waveform was given.", self.text_of("gict", page))
        self.assertIn("GIC(t) for a thermal assessment: no waveform was given.", self.text_of("left", page))
        below = "60000 60002 below"
        self.out = self.folder / "none"
        self.prints("screen", screen(below, below))
        for item in ("K", "L", "TA"):
            self.prints(f"screen+{item}", screen(below, below))
        head = test_outages.OUTAGE.partition("transformer")[0]
        self.prints("outage", f"{head}transformer TA worst {below}\ntransformer TB worst {below}\ntransformer D none\nend\n")
        told = self.text_of("gict", self.page(self.wave))
        self.assertIn("No unit is assessed by the benchmark event", told)
        self.assertEqual([path.name for path in (self.out / "gict").iterdir()], ["supplemental"])
        self.out = self.folder / "neither"
        self.prints("screen-supplemental", screen(below, below))
        self.assertIn("No unit is assessed, so", self.text_of("gict", self.page(self.wave)))
        self.assertFalse((self.out / "gict").exists())

    def test_the_supplemental_event(self) -> None:
        """TA alone reaches its threshold there: the waveform is scaled to its field, as a part of its own."""
        other = screen("120000 120002 reaches", "84000 84002 below")
        self.prints("screen-supplemental", other.replace("75000 field 8000", "85000 field 12000"))
        told = self.text_of("gict", self.page(self.wave))
        self.assertIn("Supplemental event, for units with 85.000 A or more in the network as it stands, or perhaps", told)
        self.assertIn("It is scaled to 12.000 V/km there.", told)
        folder = self.out / "gict" / "supplemental"
        made = {path.name for path in folder.iterdir()}
        kinds = {"given_TA.txt", "turned_TA.txt", "turned_field_TA.csv", "table_TA.csv", "picture_TA.svg"}
        self.assertEqual(made, kinds | {"given_field.csv", "summary.csv"})
        # The strongest step of the waveform is 5 mV/km or V/km, 3 to the north and 4 to the east: scaled to 12 V/km.
        self.assertIn("60,7200,9600", (folder / "given_field.csv").read_text())
        with open(folder / "summary.csv", newline="") as file:
            (row,) = csv.DictReader(file)
        self.assertEqual((row["transformer"], row["worst_high_A_per_phase"], row["out"]), ("TA", "120.002", ""))
        words = "--storm=gict/supplemental/turned_field_TA.csv --transformer=TA"
        self.assertIn(f"0 supplemental_turned_TA gicstudy series --case={self.case} {words}", (self.out / "commands.txt").read_text())

    def test_a_series_of_other_steps_is_refused(self) -> None:
        for other in (SERIES.replace("time 60", "time 61"), SERIES.replace("120 74999 75001", f"120 0 {10**30}")):
            self.prints("series@TA", other)
            (line,) = self.refused(*self.words(self.wave))
            self.assertEqual(line, "the report of gicstudy series: it isn't of these steps; is --program another program?")

    def test_a_series_that_ends_otherwise_is_refused(self) -> None:
        self.prints("series@TA", "gicstudy: unearthed: step 1 node B\n")
        (line,) = self.refused(*self.words(self.wave))
        self.assertIn("gicstudy series --case=", line)
        self.assertIn("the program ended with status 8", line)

    def test_numbers_of_steps_in_place_of_seconds_are_told(self) -> None:
        self.prints("series@TA", SERIES.replace("time 60", "time 1").replace("time 120", "time 2"))
        self.prints("series@TB", SERIES.replace("TA", "TB").replace("time 60", "time 1").replace("time 120", "time 2"))
        wave = self.file("steps.csv", "time,north,east\n0,0,0\n1,3,4\n2,1,0\n")
        words = "All 3 steps of the waveform are one second apart. Are its times in minutes?"
        self.assertIn(words, self.text_of("answer", self.page(f"--waveform={wave}")))
        self.assertIn(f"note: {words}", self.shown)

    def test_a_waveform_that_is_none_is_told_with_the_tables(self) -> None:
        wave, drawn = self.file("none.csv", "time,north,east\n0,0,0\n"), self.file("factors.csv", "transformer\n")
        lines = self.refused(*self.words(f"--waveform={wave}", f"--factors={drawn}"))
        self.assertEqual(len(lines), 2)


class Ticks(unittest.TestCase):
    def test_round_numbers_within_the_range(self) -> None:
        for first, last in ((0, 4), (-110.5, 198), (0, 1e-3), (5, 5), (0, 172800 / 3600), (-1e6, 3e6)):
            found = charts.ticks(first, last)
            self.assertTrue(1 <= len(found) <= charts.MOST_TICKS + 1, found)
            self.assertTrue(all(first - 1e-6 <= tick <= last + 1e-6 * max(1, abs(last)) for tick in found), found)


@unittest.skipUnless(BUILT.is_file(), "no program is built")
class OverTheProgram(DeskTest):
    def test_the_region(self) -> None:
        out, wave = self.folder / "out", self.file("wave.csv", "time,north,east\n0,0,0\n60,1.39,-7.3\n120,4,1\n")
        self.done("study", EXAMPLES / "region.toml", f"--program={BUILT}", f"--out={out}", f"--waveform={wave}")
        with open(out / "gict" / "summary.csv", newline="") as file:
            rows = list(csv.DictReader(file))
        self.assertEqual((len(rows), rows[0]["transformer"], sum(not row["out"] for row in rows)), (21, "GR-G1", 15))
        for row in rows:
            # Turned, the strongest step brings the worst current, but for the rounding of its field to whole mV/km. Of the two ways
            # it points to the lesser bearing, so the current has either sign.
            worst = float(row["worst_high_A_per_phase"])
            peak = max(abs(float(row[f"turned_{end}_A_per_phase"])) for end in ("low", "high"))
            self.assertAlmostEqual(peak, worst, delta=worst / 8000 + 0.002)
            self.assertLess(int(row["bearing_degrees"]), 180)
            self.assertEqual(row["turned_time_s"], "60")
            given = max(abs(float(row[f"given_{end}_A_per_phase"])) for end in ("low", "high"))
            self.assertLessEqual(given, worst + worst / 8000 + 0.002)
        # The words of the runs bring the same reports.
        for line in (out / "commands.txt").read_text().splitlines():
            words = shlex.split(line)
            if words[1:2] and words[1].startswith(("turned_IB", "given_DM")):
                told = subprocess.run([os.fspath(BUILT.resolve()), *words[3:]], cwd=out, capture_output=True, check=True).stdout
                self.assertEqual((out / "gict" / f"{words[1]}.txt").read_bytes(), told, words[1])


if __name__ == "__main__":
    unittest.main()
