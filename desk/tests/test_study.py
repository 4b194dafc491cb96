"""`gicdesk study`: over a program that stands for the real one, over a made network of 1000 stations with made currents,
and over the real program where it is built.

The network of most tests is that of test_outages.py: two substations, the lines K and L between them, S with a series
capacitor, the units TA and TB, and D, a delta-delta unit.
"""

import csv
import datetime
import decimal
import hashlib
import html.parser
import io
import math
import random
import re
import subprocess
import sys
import unittest
from unittest import mock

import test_outages
from shared import BUILT, EXAMPLES, FAKE, REPORTS, TOP, DeskTest
from test_outages import BOTH, HEADS, NONE, ONE, screen

from gicdesk import directions, factors, network, outages, pictures, questions, storms, study, study_map, study_page, study_storm
from gicdesk.findings import Finding, Refused
from gicdesk.forms import Interval
from gicdesk.inputs import Copies, Input
from gicdesk.markup import EMPTY
from gicdesk.program import Program, Run, ending
from gicdesk.progress import Progress
from gicdesk.reports import Check, Outage, Outcome, Question, Review, Screen, ScreenUnit, Series, Unit
from gicdesk.reports import Study as StormReport

CASE = """\
format = 2
zone = [{ name = "Z", latitude = 6000, beta = 100 }]
substation = [{ name = "A", ground = 1000000 }, { name = "B", ground = 1000000 }]
bus = [{ name = "a", substation = "A" }, { name = "b", substation = "B" }]
line = [
  { name = "L", from = "a", to = "b", zone = "Z", resistance = 3000000, north = 100000, east = 0 },
  { name = "K", from = "b", to = "a", zone = "Z", resistance = 3000000, north = -100000, east = 0 },
  { name = "S", from = "a", to = "b", zone = "Z", resistance = 3000000, north = 100000, east = 0, blocked = true },
]
transformer = [
  { name = "TA", kind = "delta-wye", high_volts = 345000, high = "a", high_resistance = 300000, neutral = 1800000 },  # a resistor
  { name = "TB", kind = "delta-wye", high_volts = 500000, high = "b", high_resistance = 300000 },
  { name = "D", kind = "delta-delta", high_volts = 345000 },
]
"""
CHECK = "check\nnode A live\nnode B live\nnode a live\nnode b live\nnode TA dead\nlive 4\nend\n"
STORM = "time,north,east\n0,0,0\n60,3000,4000\n120,8000,0\n"
WAVE = "time,north,east\n0,0,0\n60,3,4\n120,1,0\n"
STORM_REPORT = """\
study
width 100 threshold 75000 steps 3
peaks
transformer TA 98765 98767 reaches
transformer TB 60000 60001 below
transformer D 0 0 outside
end
"""
SERIES = """\
series
width 100 transformer TA steps 3
step 1 time 0 0 1
step 2 time 60 -98767 -98765
step 3 time 120 74999 75001
end
"""
FIELD = """\
field
north 8000 east 0 width 100 threshold 75000
transformer TA 98765 98767 reaches
transformer TB 50000 50001 below
transformer D 0 0 outside
end
"""


class Reader(html.parser.HTMLParser):
    """The elements of a page: which are open, what they link to, and all text."""

    def __init__(self, page: str) -> None:
        super().__init__()
        self.open: list[str] = []
        self.elements: list[str] = []
        self.links: list[str] = []
        self.ids: list[str] = []
        self.texts: list[str] = []
        self.wrong: list[str] = []
        self.feed(page)

    def handle_starttag(self, name: str, attributes: list[tuple[str, str | None]]) -> None:
        self.elements.append(name)
        for key, value in attributes:
            if key in ("href", "src", "xlink:href", "data", "action"):
                self.links.append(value or "")
            if key == "id":
                self.ids.append(value or "")
        if name not in EMPTY or name == "path":
            self.open.append(name)

    def handle_startendtag(self, name: str, attributes: list[tuple[str, str | None]]) -> None:
        self.elements.append(name)

    def handle_endtag(self, name: str) -> None:
        if name in EMPTY and name != "path" and self.open[-1:] != [name]:
            return
        if self.open[-1:] != [name]:
            self.wrong.append(f"{name} closes {self.open[-1:]}")
        else:
            self.open.pop()

    def handle_data(self, data: str) -> None:
        self.texts.append(data)


class StudyTest(test_outages.OutagesTest):
    """With the reports of a whole study for the program that stands for the real one."""

    def setUp(self) -> None:
        super().setUp()
        self.case = self.file("case.toml", CASE)
        self.out = self.folder / "out"
        self.prints("review", "review\nfindings 0\nend\n")
        self.prints("check", CHECK)
        self.prints("screen-supplemental", screen("120000 120002 reaches", "84000 84002 below"))
        self.prints("study", STORM_REPORT)
        self.prints("series@TA", SERIES)
        self.prints("series@TB", SERIES.replace("TA", "TB"))
        self.prints("field", FIELD)

    def words(self, *words: object) -> tuple[object, ...]:
        return ("study", self.case, f"--program={FAKE}", f"--out={self.out}", *words)

    def page(self, *words: object) -> str:
        self.shown = self.done(*self.words(*words))
        return (self.out / "study.html").read_text()

    def units(self) -> dict[str, dict[str, str]]:
        text = (self.out / "units.csv").read_text()
        return {row["transformer"]: row for row in csv.DictReader(io.StringIO(text))}

    def text_of(self, key: str, page: str) -> str:
        """The text of a section of a page."""
        inside = re.search(rf'<section id="{key}".*?</section>', page, re.DOTALL)
        self.assertIsNotNone(inside, key)
        return re.sub(r"\s+", " ", " ".join(Reader(inside[0] if inside else "").texts))


class Folder(StudyTest):
    def test_each_report_is_kept_as_it_came_and_as_a_table(self) -> None:
        storm, given = self.file("storm.csv", STORM), self.file("events.csv", f"{HEADS}both,K,open\nboth,L,open\n")
        drawn = self.file("factors.csv", "transformer,mvar_per_ampere,at_kv\nTB,1.2,\n")
        self.page(f"--storm={storm}", f"--events={given}", f"--factors={drawn}")
        kept = {
            "review": "review", "check": "check", "list": "list", "volts": "volts", "screen": "screen",
            "supplemental": "screen-supplemental", "study": "study", "outage": "outage", "event_1": "screen+K+L",
            "series_TA": "series@TA", "series_TB": "series@TB", "field": "field", "flows": "field",
        }  # fmt: skip
        for name, source in kept.items():
            self.assertEqual(
                (self.out / "reports" / f"{name}.txt").read_bytes(), (self.reports / f"{source}.txt").read_bytes(), name
            )
        tables = {path.stem for path in (self.out / "tables").iterdir()}
        self.assertEqual(tables, {*kept, "events"})
        self.assertEqual((self.out / "reports" / "event_1.csv").read_text(), "time,item,action\n0,K,open\n0,L,open\n")
        self.assertIn("0 event_1 gicstudy screen", (self.out / "commands.txt").read_text())

    def test_checksums_are_those_of_all_files(self) -> None:
        self.page()
        lines = (self.out / "checksums.txt").read_text().splitlines()
        sums = {name: digest for digest, name in (line.split("  ") for line in lines)}
        there = {str(path.relative_to(self.out)) for path in self.out.rglob("*") if path.is_file()}
        self.assertEqual(set(sums), there - {"checksums.txt", ".gicdesk"})
        for name, digest in sums.items():
            self.assertEqual(hashlib.sha256((self.out / name).read_bytes()).hexdigest(), digest)

    def test_a_folder_comes_whole_or_not_at_all(self) -> None:
        self.prints("outage", "gicstudy: unearthed: step 1 node A\n")
        self.refused(*self.words())
        self.assertEqual([path.name for path in self.folder.iterdir() if "out" in path.name], [])

    def test_an_earlier_study_gives_way_by_force_alone(self) -> None:
        storm = self.file("storm.csv", STORM)
        self.page(f"--storm={storm}")
        self.assertIn("it is there already; choose another name, or give --force", self.refused(*self.words())[0])
        self.page("--force")
        self.assertFalse((self.out / "reports" / "study.txt").exists())
        (self.out / "notes.txt").write_text("mine")
        (line,) = self.refused(*self.words("--force"))
        self.assertEqual(line, f"{self.out / 'notes.txt'}: it isn't of the earlier study; move it elsewhere")
        self.assertEqual((self.out / "notes.txt").read_text(), "mine")

    def test_each_run_is_counted_before_it_begins(self) -> None:
        made: list[Progress] = []

        def progress(total: int) -> Progress:
            made.append(Progress(total, None))
            return made[-1]

        storm, given = self.file("storm.csv", STORM), self.file("events.csv", f"{HEADS}both,K,open\nboth,L,open\n")
        drawn = self.file("factors.csv", "transformer,mvar_per_ampere,at_kv\nTB,1.2,\n")
        wave = self.file("wave.csv", WAVE)
        with mock.patch.object(study, "Progress", progress):
            self.page(f"--storm={storm}", f"--events={given}", f"--factors={drawn}", f"--waveform={wave}")
        # Eight reports of the case, study, an event, field, three single items, two series, four over the waveform, and two of the
        # unit that reaches the threshold of the supplemental event.
        self.assertEqual([(one.done, one.total) for one in made], [(22, 22)])

    def test_decimal_commas(self) -> None:
        drawn = self.file("factors.csv", "transformer,mvar_per_ampere,at_kv\nTB,1.2,\n")
        self.page("--comma", f"--factors={drawn}")
        self.assertIn("TB;1,2;500;500,000;50,000;50,001;", (self.out / "losses.csv").read_text())
        self.assertIn("TA;A;345,000;", (self.out / "units.csv").read_text())

    def test_a_folder_that_is_no_study_never_gives_way(self) -> None:
        self.out.mkdir()
        (self.out / "notes.txt").write_text("mine")
        self.assertIn("so it is no earlier study", self.refused(*self.words("--force"))[0])


class Page(StudyTest):
    def test_it_is_one_file_and_asks_for_nothing(self) -> None:
        reader = Reader(page := self.page(f"--storm={self.file('storm.csv', STORM)}"))
        self.assertEqual((reader.open, reader.wrong), ([], []))
        self.assertNotIn("script", reader.elements)
        self.assertEqual([link for link in reader.links if not link.startswith("#") and link != "data:,"], [])
        self.assertEqual([link for link in reader.links if link.startswith("#") and link[1:] not in reader.ids], [])
        self.assertEqual(len(set(reader.ids)), len(reader.ids))
        for word in ("http:", "https:", "url(", "@import"):
            self.assertNotIn(word, page)

    def test_names_are_escaped(self) -> None:
        rows = f"{HEADS}<script>alert(1)</script> & more,K,open\n"
        page = self.page(f"--events={self.file('events & <b>.csv', rows)}")
        self.assertNotIn("script", Reader(page).elements)
        self.assertIn("&lt;script&gt;alert(1)&lt;/script&gt; &amp; more", page)
        self.assertIn("events &amp; &lt;b&gt;.csv", page)

    def test_what_was_asked(self) -> None:
        asked = self.text_of("asked", page := self.page())
        sums = self.text_of("sums", page)
        for data in (CASE.encode(), FAKE.read_bytes(), (self.reports / "outage.txt").read_bytes()):
            self.assertIn(hashlib.sha256(data).hexdigest(), sums)
        for words in (
            "benchmark: 8.000 V/km and 75.000 A per phase",
            datetime.datetime.now().strftime("%B %Y"),
        ):
            self.assertIn(words, asked)
        self.assertIn("Commit of the program not known", asked)
        self.assertIn("so whether it is a proved one isn't known here either", asked)

    def test_findings_are_open_questions(self) -> None:
        self.prints("review", "review\nungrounded B\nclosure K -1500 20\nalpha Z 4980\nfindings 3\nend\n")
        asked = self.text_of("questions", self.page())
        self.assertIn("B has no ground, and a winding ends at its grid: is its ground forgotten?", asked)
        self.assertIn("stays open by -1.5 km to the north and 0.02 km to the east", asked)
        self.assertIn("zone Z: at 49.8 degrees alpha of the table is below that of the formula", asked)
        self.assertIn("question: B has no ground", self.shown)

    def test_meridians_explain_a_gap_to_the_east_alone(self) -> None:
        for gap, is_told in (((0, 7600), True), ((-2000, -9000), True), ((2001, 9000), False), ((-9000, 0), False)):
            text = questions.question_text(Question("closure", "K", gap=gap))
            self.assertIn("has one of its lines a wrong span, or is a bus at another substation?", text)
            self.assertEqual("don't close to the east either, since meridians converge" in text, is_told, gap)

    def test_a_record_without_a_commit_is_not_told_as_none(self) -> None:
        with mock.patch("gicdesk.study.is_recorded", return_value=True):
            page = self.page()
        self.assertIn("a record of a build is known of the program with the sum below", self.text_of("asked", page))
        self.assertIn("though there is a record of a build with its sum", self.text_of("made", page))
        self.assertNotIn("there is no record of a build", page)

    def test_which_units_must_be_assessed(self) -> None:
        # The verdicts of TA and TB in the whole network, of TB in the outages and in the event, and the answer.
        below, perhaps = "60000 60002 below", "74999 75001 undecided"
        whole, out, listed = "by the event", "more with one item out", "more in an event of the list"
        none, one, two = (f"{number} of 2 applicable units must be assessed by the benchmark event" for number in ("None", 1, 2))
        more = "1 more by the supplemental event alone: TA"  # which has 120 A in it
        given = self.file("events.csv", f"{HEADS}both,K,open\nboth,L,open\n")
        for number, (first, second, without, event, answer) in enumerate(
            (
                (BOTH, BOTH, below, NONE, [two, f"2 {whole}: TA TB"]),
                (BOTH, below, below, NONE, [one, f"1 {whole}: TA"]),
                (BOTH, perhaps, below, NONE, [two, f"2 {whole}: TA TB"]),
                (BOTH, below, perhaps, NONE, [f"{one}, and 1 {out}", f"1 {whole}: TA", f"1 {out}: TB"]),
                (below, below, perhaps, NONE, [f"{none}, and 1 {out}", f"1 {out}: TB", more]),
                (below, below, below, ONE, [f"{none}, and 1 {listed}", f"1 {listed}: TB", more]),
                (below, below, below, NONE, [none, more]),
            )
        ):
            with self.subTest(answer=answer, number=number):
                self.out = self.folder / f"out{number}"
                self.prints("screen", screen(first, second))
                self.prints("screen+K+L", screen(NONE, event))
                rows = f"transformer TA worst {below}\ntransformer TB worst {without}\ntransformer D none\n"
                head = test_outages.OUTAGE.partition("transformer")[0]
                self.prints("outage", f"{head}{rows}end\n")
                page = self.page(f"--events={given}")
                self.assertEqual(self.shown.splitlines()[:-1], answer)
                told = self.text_of("answer", page)
                self.assertIn(answer[0], told)
                assessed = [row["must_be_assessed"] for row in self.units().values()]
                self.assertEqual(assessed.count("no"), 3 - sum(int(line.split(" ")[0]) for line in answer[1:] if line != more))
                self.assertIn("1 is outside of the assessment", told)
                self.assertEqual(told.count(", perhaps"), perhaps in (second, without))

    def test_the_worst_outage_of_a_unit(self) -> None:
        self.prints("screen+K", screen(ONE, "90000 90002 reaches"))
        units = self.text_of("units", self.page())
        # TA has the same without K and without L; TB has more without K.
        self.assertIn("L (or K)", units)
        rows = self.units()
        self.assertEqual([rows["TA"]["worst_outage"], rows["TA"]["worst_outage_perhaps_as_bad"]], ["L", "K"])
        self.assertEqual([rows["TB"]["worst_outage"], rows["TB"]["worst_outage_perhaps_as_bad"]], ["K", ""])
        self.assertEqual(rows["D"]["worst_outage"], "")

    def test_the_storm(self) -> None:
        storm = self.file("storm.csv", STORM)
        switch = self.file("switch.csv", "time,item,action\n60,K,open\n120,K,close\n")
        page = self.page(f"--storm={storm}", f"--switch={switch}")
        self.assertIn("in force by their times in the storm, and in no other report", self.text_of("asked", page))
        told = self.text_of("storm", page)
        for words in (
            "The strongest field is 8.000 V/km, at 120 s",
            "60 s open K; 120 s close K",
            "to -98.767 A at 60 s",
            "60 s at the threshold or above",
        ):
            self.assertIn(words, told)
        rows = self.units()
        self.assertEqual([rows["TA"]["certain_seconds"], rows["TA"]["storm_verdict"]], ["60", "reaches"])
        # The screens are of the network without the switchings.
        self.assertEqual(rows["TA"]["worst_high_A_per_phase"], "98.767")

    def test_switchings_without_a_storm_are_in_force_in_each_report(self) -> None:
        for name in ("check", "outage", "screen-supplemental"):
            self.prints(f"{name}+K", (self.reports / f"{name}.txt").read_text())
        self.prints("field+K", FIELD)
        self.prints("screen+K+TB", screen(NONE, NONE))
        page = self.page(f"--switch={self.file('switch.csv', 'time,item,action' + chr(10) + '5,K,open' + chr(10))}")
        self.assertEqual(self.units()["TA"]["worst_high_A_per_phase"], "83.335")
        self.assertIn("all rows are in force in each report of the network: 5 s open K", self.text_of("asked", page))

    def test_a_unit_that_is_switched_off_is_told(self) -> None:
        self.prints("outage", test_outages.OUTAGE.replace("outage TB unearthed B", "outage TB idle"))
        self.assertIn("1 unit switched off, of which below says nothing: TB.", self.text_of("left", self.page()))

    def test_switchings_that_no_step_sees(self) -> None:
        rows = [
            (0, "K", "open", True),
            (10, "T", "block", True),
            (30, "K", "close", False),  # at 60 the next row of K is in force
            (60, "K", "open", True),
            (60, "T", "open", True),
            (70, "K", "close", False),
            (120, "K", "open", True),
            (121, "L", "open", False),
        ]
        seen = storms.seen_rows([storms.SwitchingRow(*row[:3]) for row in rows], [5, 60, 120])
        self.assertEqual(seen, [row[3] for row in rows])
        switch = self.file("switch.csv", "time,item,action\n60,K,open\n5000,K,close\n")
        told = self.text_of("storm", self.page(f"--storm={self.file('storm.csv', STORM)}", f"--switch={switch}"))
        self.assertIn("within the storm: 60 s open K. In force at no step,", told)
        self.assertIn("or the end of the storm: 5000 s close K.", told)

    def test_a_storm_that_brings_nobody_to_a_threshold(self) -> None:
        below = "60000 60002 below"
        self.prints("screen", screen(below, below))
        self.prints("outage", re.sub(r"(transformer T. worst) .*", rf"\1 {below}", test_outages.OUTAGE))
        self.prints("study", re.sub(r"(transformer T.) .*", rf"\1 {below}", STORM_REPORT))
        told = self.text_of("storm", self.page(f"--storm={self.file('storm.csv', STORM)}"))
        words = "No unit reaches 75.000 A or may, in the benchmark event, with something out or in the storm"
        self.assertIn(words, told)

    def test_a_storm_that_cannot_be_solved_is_told(self) -> None:
        self.prints("study", "gicstudy: unearthed: step 2 node B\n")
        told = self.text_of("storm", self.page(f"--storm={self.file('storm.csv', STORM)}"))
        self.assertIn("gicstudy: unearthed: step 2 node B", told)
        self.assertIn("the storm has no report", (self.out / "study.html").read_text())
        self.assertFalse((self.out / "reports" / "study.txt").exists())

    def test_a_storm_of_other_heads_is_told_what_its_heads_are(self) -> None:
        line = ending(Run(6, b"", "gicstudy: storm: shape in row 0"))
        self.assertIn("; a storm begins with time,north,east or time,zone,north,east, and docs/FAULTS.md says", line)
        line = ending(Run(6, b"", "gicstudy: storm: empty"))
        self.assertIn('"gicstudy: storm: empty"; docs/FAULTS.md says', line)

    def test_losses(self) -> None:
        given = self.file("factors.csv", "transformer,mvar_per_ampere,at_kv\nTA,1.2,\nTB,0.5,250\n")
        page = self.page(f"--factors={given}", f"--storm={self.file('storm.csv', STORM)}")
        told = self.text_of("losses", page)
        # 1.2 * 98.767 * 345/500 and 0.5 * 50.001 * 500/250.
        for words in ("1.2 500 345 0.8280 98.767 81.8", "0.5 250 500 1.0000 50.001 50.0", "together: 131.8 Mvar"):
            self.assertIn(words.replace(" ", ""), told.replace(" ", ""))
        with open(self.out / "losses.csv", newline="") as file:
            rows = {row["transformer"]: (row["low_Mvar"], row["high_Mvar"]) for row in csv.DictReader(file)}
        # 0.828 * 98.765 to 98.767, and 50.000 to 50.001, rounded outward.
        self.assertEqual(rows, {"TA": ("81.777", "81.780"), "TB": ("50.000", "50.001")})
        # At 60 s both series have 98.767 A.
        self.assertIn("to 180.5 Mvar at 60 s", told)

    def test_the_currents_of_lines_on_the_map(self) -> None:
        # K leads from B to A, and L from A to B: both currents flow from A to B.
        lines = "line L 30000 30002\nline K -3002 -3000\nline S blocked\n"
        self.prints("field", FIELD.replace("transformer TA", f"{lines}transformer TA", 1))
        page = self.page()
        told = self.text_of("map", page)
        for words in ("L: 30.002 A from A to B", "K: 3.002 A from A to B", "The greatest is 30.002 A, in L."):
            self.assertIn(words, told)
        widths = dict(re.findall(r'stroke-width="([0-9.]+)"><title>(\w)', page))
        self.assertEqual({name: width for width, name in widths.items()}, {"L": "7", "K": "1.6"})
        # One arrow, for K has too little.
        self.assertEqual(page.count('class="arrow"'), 1)
        words = "by the middles of field --north=8000 --east=0, the report flows"
        self.assertIn(words, told)

    def test_what_was_left_out(self) -> None:
        told = self.text_of("left", self.page())
        for words in (
            "1 outage unearthed: TB (at B)",
            "2 outages idle: S, D",
            "1 unit outside, since the high side has 200 kV or less, or nothing is said of the core, as of a delta-delta "
            "unit or a reactor: D.",
            "1 line with a series capacitor, which pass no direct current: S",
            "no list of events was given",
            "no storm was given",
            "no factors were given",
        ):
            self.assertIn(words, told)

    def test_what_has_no_end_is_told(self) -> None:
        told = self.text_of("left", self.page())
        self.assertIn("1 node at which nothing that stands ends, without a potential: TA.", told)

    def test_a_case_that_python_does_not_read_has_no_map(self) -> None:
        self.case = self.file("case.toml", CASE.replace('name = "D",', 'name = "D",\n'))
        page = self.page()
        self.assertIn("there is no map", self.text_of("map", page))
        words = "the case is in TOML 1.1, which Python doesn't read, so none is named"
        self.assertIn(words, self.text_of("left", page))
        given = self.file("factors.csv", "transformer,mvar_per_ampere,at_kv\nTA,1.2,\n")
        self.out = self.folder / "again"
        self.assertIn("it needs the case", self.refused(*self.words(f"--factors={given}"))[0])


class Refusals(StudyTest):
    def test_a_program_that_changes_while_the_study_runs(self) -> None:
        other = self.file("other", f'#!/bin/sh\n[ $1 = volts ] && echo "# more" >>"$0"\nexec {FAKE} "$@"\n')
        other.chmod(0o755)
        (line,) = self.refused(*self.words(), f"--program={other}")
        words = "it has changed while the command ran, so its reports are of several programs; run it again"
        self.assertEqual(line, f"{other}: {words}")

    def test_switchings_without_room_for_an_outage(self) -> None:
        rows = "".join("5,K,close\n" for _ in range(4096))
        (line,) = self.refused(*self.words(f"--switch={self.file('switch.csv', f'time,item,action{chr(10)}{rows}')}"))
        self.assertIn("it has 4096 rows, and none is left for what is taken out; take fewer", line)

    def test_a_network_without_an_answer_is_told_with_the_questions(self) -> None:
        self.prints("review", "review\nungrounded B\nfindings 1\nend\n")
        for mode in ("screen", "check"):
            self.prints(mode, "gicstudy: unearthed: step 1 node B\n")
        lines = self.refused(*self.words())
        self.assertIn("gicstudy: unearthed: step 1 node B", lines[0])
        self.assertIn("B has no ground", lines[1])

    def test_all_that_is_wrong_with_the_tables_is_told_before_long_work(self) -> None:
        (self.reports / "outage.txt").unlink()
        given = {
            "events": f"{HEADS}x,N,open\n",
            "factors": "transformer,mvar_per_ampere,at_kv\nTX,1e6,x\n",
            "places": "name,latitude,longitude\nA,91,0\n",
        }
        lines = self.refused(*self.words(*(f"--{name}={self.file(name, text)}" for name, text in given.items())))
        self.assertEqual(len(lines), 5, lines)
        self.assertIn("is no transformer of the case", "".join(lines))
        self.assertIn("is it in var?", "".join(lines))

    def test_files_that_are_not_there_are_told_at_once(self) -> None:
        lines = self.refused(*self.words("--storm=gone.csv", "--events=away.csv"))
        self.assertEqual(len(lines), 2)

    def test_reports_of_several_cases(self) -> None:
        self.prints("outage", (self.reports / "outage.txt").read_text().replace("transformer TA", "transformer TX"))
        (line,) = self.refused(*self.words())
        self.assertIn("they are of several cases", line)

    def test_a_fault_of_a_file_is_told_of_that_file(self) -> None:
        storm, switch = self.file("storm.csv", STORM), self.file("switch.csv", "time,item,action\n")
        self.prints("study", "gicstudy: switch: item in row 1\n")
        (line,) = self.refused(*self.words(f"--storm={storm}", f"--switch={switch}"))
        self.assertTrue(line.startswith(str(switch)), line)

    def test_a_node_is_no_file(self) -> None:
        for line, file in (
            ("gicstudy: cannot read storm", "S"),
            ("gicstudy: too long: switch", "W"),
            ("gicstudy: storm: empty", "S"),
            ("gicstudy: unearthed: step 0 node switch", "C"),
            ("gicstudy: case: degree at node storm", "C"),
            ("", "C"),
        ):
            request = study.Request(Program("P", "P", ""), Copies(""), "C", storm="S", switch="W")
            self.assertEqual(request.file_of(Run(8, b"", line)), file, line)


class Numbers(unittest.TestCase):
    def test_the_bearing_and_the_current_there(self) -> None:
        for north, east, bearing in ((100, 0, 0), (0, 100, 90), (-100, 100, 135), (100, 100, 45), (-100, -1, 1)):
            worst = math.hypot(north, east) * 1000
            row = ScreenUnit(
                "T",
                Interval(north * 1000, north * 1000 + 1),
                Interval(east * 1000, east * 1000 + 1),
                Interval(math.floor(worst) - 1, math.ceil(worst) + 2),
                "reaches",
            )
            self.assertEqual(directions.bearing_of(row), bearing)
            there, across = directions.current_at(row, bearing), directions.current_at(row, bearing + 90)
            self.assertLessEqual(there.high, row.worst.high + 1)
            self.assertGreater(there.low, 0.99 * worst)
            self.assertLess(across.low, 0.02 * worst)
        nothing = ScreenUnit("T", Interval(0, 0), Interval(0, 0), Interval(0, 0), "outside")
        self.assertIsNone(directions.bearing_of(nothing))

    def test_seconds_above_the_threshold(self) -> None:
        def steps(*ends: tuple[int, int, int]) -> list[tuple[int, int, Interval]]:
            return [(number, time, Interval(low, high)) for number, (time, low, high) in enumerate(ends, 1)]

        for given, certain, possible in (
            (steps((0, 75, 76), (10, 0, 1)), 10, 10),
            (steps((0, -76, -75), (10, 0, 1)), 10, 10),
            (steps((0, 74, 75), (10, 0, 1)), 0, 10),
            (steps((0, 74, 74), (10, 99, 99)), 0, 0),
            (steps((5, 99, 99)), 0, 0),
            (steps((0, 80, 80), (10, 80, 80), (30, 80, 80)), 30, 30),
        ):
            self.assertEqual(storms.seconds_above(given, 75), storms.Seconds(certain, possible), given)

    def test_the_fields_of_a_storm(self) -> None:
        uniform = storms.storm_steps(b"time,north,east\n0,3000,-4000\n5,0,1\n", ["Y", "Z"])
        self.assertEqual(uniform[0].fields, {"Y": (3000, -4000), "Z": (3000, -4000)})
        self.assertEqual([step.strength for step in uniform], [5000.0, 1.0])
        rows = b"time,zone,north,east\n0,Y,1,2\n0,*,3,4\n0,Z,5,6\n7,Y,8,9\n"
        by_zone = storms.storm_steps(rows, ["Y", "Z"])
        self.assertEqual([step.fields for step in by_zone], [{"Y": (3, 4), "Z": (5, 6)}, {"Y": (8, 9), "Z": (0, 0)}])
        unread = storms.storm_steps(b"time,zone,north,east\n0,Z,5000,0\n0,*,1000,0\n", ["*"])
        self.assertEqual([step.strength for step in unread], [1000.0])

    def test_a_byte_order_mark_and_blank_lines_are_no_records(self) -> None:
        steps = storms.storm_steps(b"\xef\xbb\xbf\r\ntime,north,east\r\n\r\n0,1,2\r\n", ["Y"])
        self.assertEqual(steps, [storms.StormStep(0, {"Y": (1, 2)})])
        self.assertEqual(storms.switching_rows(b"\ntime,item,action\n\n60,K,open\n"), [(60, "K", "open")])

    def test_factors_are_scaled_by_the_kilovolts(self) -> None:
        for given, at_kv, volts, own in (("1.18", "500", 345000, "0.8142"), ("0.5", "345", 345000, "0.5")):
            factor = factors.Factor(decimal.Decimal(given), decimal.Decimal(at_kv), volts)
            self.assertAlmostEqual(factor.own, decimal.Decimal(own))

    def test_questions(self) -> None:
        for question, words in (
            (Question("part", "N", number=3), "one of 3 nodes has N as its first"),
            (Question("value", "Z", "zone", "beta", 8), "zone Z: beta is 0.08, as few have it"),
            (Question("value", "L", "line", "perkm", 1200000), "the resistance for each kilometre is 1.2 ohm per km"),
            (Question("value", "A", "substation", "ground", 5000), "the resistance of the ground is 0.005 ohm"),
            (Question("volts", "T", "transformer", "low_volts", 138000, 345000), "low volts is 138 kV at a bus"),
            (Question("value", "T", "transformer", "third_resistance", 5000), "third resistance is 0.005 ohm, as few"),
            (Question("volts", "T", "transformer", "third_volts", 34500, 20000), "third volts is 34.5 kV at a bus"),
            (Question("outside", "D"), "has it no grounded wye?"),
            (Question("new", "X"), "new X"),
        ):
            self.assertIn(words, questions.question_text(question))


class Places(DeskTest):
    def of(self, stations: str, links: list[tuple[str, str, int, int]]) -> network.Network:
        lines = [network.Link("L", start, end, (north, east), False) for start, end, north, east in links]
        return network.Network(["Z"], list(stations), lines, {}, {})

    def test_stations_are_laid_out_by_the_spans(self) -> None:
        placed, parts = network.laid_out(self.of("ABCD", [("B", "A", 10, 20), ("C", "B", -5, 0)]), {})
        self.assertEqual((placed, parts), ({"A": (0, 0), "B": (-10, -20), "C": (-5, -20)}, 0))

    def test_places_that_are_known_stay(self) -> None:
        placed, _ = network.laid_out(self.of("ABC", [("A", "B", 10, 20), ("B", "C", 1, 1)]), {"B": (100.0, 100.0)})
        self.assertEqual(placed, {"A": (90, 80), "B": (100, 100), "C": (101, 101)})

    def test_a_part_of_its_own_stands_to_the_east(self) -> None:
        placed, parts = network.laid_out(self.of("ABCD", [("A", "B", 0, 1000), ("C", "D", 0, 1000)]), {})
        self.assertEqual(parts, 1)
        self.assertGreater(placed["C"][1], placed["B"][1])

    def test_parts_of_a_line_are_added(self) -> None:
        row = {"part": [{"zone": "Y", "north": 1, "east": 2}, {"zone": "Z", "north": 10, "east": 20}]}
        self.assertEqual(network.span_of(row), (11, 22))

    def test_places_from_a_table(self) -> None:
        findings: list[Finding] = []
        file = EXAMPLES / "tables" / "substations.csv"
        found = network.in_metres(network.read_degrees(str(file), ["Highfall", "Larkspur"], findings))
        # The line HF-LK of the region has these spans.
        self.assertEqual([round(number) for number in found["Larkspur"]], [-100120, 21172])
        self.assertEqual(findings, [])
        other = self.places("name;latitude;longitude\nA;51,5;-38\n")
        self.assertEqual(network.read_degrees(other, ["A"], []), {"A": (51.5, -38)})

    def places(self, text: str) -> str:
        return str(self.file("places.csv", text))

    def test_a_table_of_places_that_is_none(self) -> None:
        for text, words in (
            ("name,latitude,longitude\nA,51,20,-38,90\n", "it has 5 cells, and not 3"),
            ('name,latitude,longitude,note\nA,51,-38,"a\nB,52,-38,b\n', "look at the quotation marks"),
            ("name,latitude\nA,51\n", "it has no column longitude; allowed are name,latitude,longitude, and any"),
            ("name,latitude,longitude\nA,1e400,0\n", "it is 1e400, and not -90 to 90 degrees"),
        ):
            findings: list[Finding] = []
            try:
                network.read_degrees(self.places(text), ["A", "B"], findings)
            except Refused as refused:
                findings += refused.findings
            self.assertIn(words, "".join(map(str, findings)), text)


def made_study(size: int) -> study.Study:
    """A study of a made network of this number of stations, with currents that are drawn at random."""
    words = [sys.executable, "-B", str(TOP / "generators" / "made_case.py"), str(size), "7"]
    case = subprocess.run(words, capture_output=True, text=True, check=True).stdout
    drawn = random.Random(5)
    names = [f"T{place}" for place in range(size)]

    def screen_of(threshold: int, field: int) -> Screen:
        rows = []
        for name in names:
            north, east = drawn.gauss(0, 60000), drawn.gauss(0, 60000)
            worst = math.hypot(north, east)
            to_north, to_east, at_worst = (
                Interval(math.floor(value), math.ceil(value)) for value in (north, east, worst)
            )
            verdict = "reaches" if worst >= threshold else "below"
            rows.append(ScreenUnit(name, to_north, to_east, at_worst, verdict))
        return Screen(100, threshold, field, rows)

    benchmark, supplemental = screen_of(75000, 8000), screen_of(85000, 12000)
    items = [f"L{place}" for place in range(1, size)] + names
    outage = Outage(
        100, 75000, 8000,
        [Outcome(item, "solved", "", (size // 2, size // 2, 0, 0)) for item in items],
        [Unit(row.name, row.worst, row.verdict) for row in benchmark.rows],
    )  # fmt: skip
    worst = {row.name: outages.Worst(drawn.choice(items), row, ()) for row in benchmark.rows}
    steps = [storms.StormStep(10 * number, {"Z": (8000, 0)}) for number in range(3000)]
    # Long series for the first units alone.
    long = [(number + 1, 10 * number, Interval(drawn.randrange(-90000, 90000), 90000)) for number in range(3000)]
    peaks = [Unit(row.name, row.worst, row.verdict) for row in benchmark.rows]
    greatest = sorted(benchmark.rows, key=lambda row: -row.worst.high)[: study_storm.MOST_STRIPS]
    series = {name: Series(100, name, long[-2:]) for name in names}
    series |= {row.name: Series(100, row.name, long) for row in greatest}
    storm = study.Storm(StormReport(100, 75000, 3000, None, [], peaks, []), "", steps, series)
    found = network.network_of(case.encode())
    assert found is not None
    places, parts = network.laid_out(found, {})
    units = study.facts_of(benchmark, supplemental, outage, worst, None, storm)
    return study.Study(
        study.Request(Program(str(FAKE), str(FAKE), ""), Copies(""), "made.toml", storm="storm.csv"),
        datetime.datetime.now().astimezone(),
        None,
        "0" * 64,
        [Input("case", "made.toml", case.encode())],
        [study.Kept("screen", ("screen", "--case=made.toml"), Run(0, b"", ""), "screen", benchmark)],
        Review([Question("ungrounded", name) for name in names]),
        Check({}),
        benchmark, supplemental, outage, units, None, found, places, 0, parts, storm, None,
    )  # fmt: skip


class Thousand(unittest.TestCase):
    def test_a_network_of_1000_stations(self) -> None:
        page = study_page.page(made_study(1000))
        reader = Reader(page)
        self.assertLess(len(page.encode()), 3_000_000)
        self.assertEqual((reader.open, reader.wrong), ([], []))
        # A thousand questions have no room to write on, which would be forty printed pages.
        self.assertEqual((page.count('class="write"'), page.count("is its ground forgotten?")), (0, 1000))
        named = re.findall(r"<text[^>]*>(S\d+)</text>", page)
        self.assertTrue(0 < len(named) <= study_map.MOST_NAMED_OF_MANY, named)

    def test_names_on_the_map_do_not_overlap(self) -> None:
        stations = [pictures.Station(f"Station-{place}", "below", place, "") for place in range(200)]
        drawn = [
            pictures.Drawn(one, 40 + 60 * (place % 15), 60 + 9 * (place // 15), 3) for place, one in enumerate(stations)
        ]
        taken: list[pictures.Box] = []
        edge = pictures.Box(0, 0, 960, 720)
        pieces = pictures.labels(drawn, taken, pictures.Ground(edge, [], []), 13)
        self.assertEqual(len(pieces), len(taken))
        for place, box in enumerate(taken):
            self.assertTrue(box.within(edge))
            self.assertFalse(any(box.meets(other) for other in taken[:place]))

    def test_a_map_of_one_place(self) -> None:
        one = pictures.Station("A", "below", 0, "A")
        self.assertIn(">0.2 km</text>", pictures.network_map({"A": (0.0, 0.0)}, [], [one], 60))

    def test_a_long_curve_is_thinned_and_keeps_its_ends(self) -> None:
        drawn = random.Random(3)
        points = [(time, drawn.uniform(-5, 5)) for time in range(20000)] + [(20000, 99.0)]
        thin = pictures.thinned(pictures.Axis(0, 20000), points)
        self.assertLess(len(thin), 4 * pictures.COLUMNS + 8)
        self.assertEqual((max(value for _, value in thin), thin[0][1], thin[-1][1]), (99.0, points[0][1], 99.0))


@unittest.skipUnless(BUILT.is_file(), "no program is built")
class OverTheProgram(DeskTest):
    def test_the_region(self) -> None:
        out = self.folder / "out"
        drawn = "transformer,mvar_per_ampere,at_kv\nKS-A2,1.18,\nEM-T1,0.29,\n"
        self.done(
            "study", EXAMPLES / "region.toml", f"--program={BUILT}", f"--out={out}",
            f"--storm={EXAMPLES / 'region_storm.csv'}", f"--switch={EXAMPLES / 'region_outage.csv'}",
            f"--factors={self.file('factors.csv', drawn)}", f"--places={EXAMPLES / 'tables' / 'substations.csv'}",
        )  # fmt: skip
        for name in ("screen", "supplemental", "outage", "check", "list", "review", "volts", "series_IB-A1"):
            expected = (REPORTS / f"region_{name.partition('_')[0]}.txt").read_bytes()
            self.assertEqual((out / "reports" / f"{name}.txt").read_bytes(), expected, name)
        with open(out / "units.csv", newline="") as file:
            units = {row["transformer"]: row for row in csv.DictReader(file)}
        assessed = [name for name, row in units.items() if row["must_be_assessed"] == "by the event"]
        # 15 of step 3 of docs/STUDY.md, and 6 of its step 4.
        self.assertEqual((len(assessed), assessed[:3]), (15, ["GR-G1", "GP-G2", "KS-A2"]))
        self.assertEqual(sum(row["must_be_assessed"] == "with one item out" for row in units.values()), 6)
        self.assertEqual([units["IB-A1"]["worst_outage"], units["IB-A1"]["certain_seconds"]], ["LK-IB", "120"])
        # The worst outage by its screen is the worst of the report of outage.
        for name, row in units.items():
            if row["worst_outage"]:
                self.assertEqual(row["worst_outage_high_A_per_phase"], row["outage_high_A_per_phase"], name)
        # Each current of the table of units is in a report.
        page = (out / "study.html").read_text()
        body = re.search(r'<section id="units".*?</tbody>', page, re.DOTALL)
        assert body is not None
        printed = set(re.findall(r"-?\d+", "".join(path.read_text() for path in (out / "reports").glob("*.txt"))))
        for number in re.findall(r'class="n">(-?\d+\.\d{3})<', body[0]):
            self.assertIn(str(int(number.replace(".", ""))), printed)


if __name__ == "__main__":
    unittest.main()
