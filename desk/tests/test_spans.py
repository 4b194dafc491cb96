"""Spans beside coordinates: which loops are asked about. The network is one of 30 stations over four degrees, of which all
spans are right but the one that a test turns."""

import re
import subprocess
import unittest

import test_outages
from shared import BUILT, FAKE, DeskTest

from gicdesk.network import Link, network_of, read_degrees
from gicdesk.places import degrees_between
from gicdesk.reports import Question, Review, parse_report
from gicdesk.spans import compared, loops

ROWS, COLUMNS = 5, 6  # a station at each degree of latitude from 48 to 52, and at each four fifths of one of longitude
PLACES = {
    f"S{row}{column}": (48.0 + row, -102.0 + 0.8 * column) for row in range(ROWS) for column in range(COLUMNS)
}


def tables() -> dict[str, str]:
    """A grid of lines at 345 kV, and a unit in each station; one line goes over the whole of it."""
    stations = list(PLACES)
    pairs = [(one, f"S{int(one[1]) + 1}{one[2]}") for one in stations] + [(one, f"S{one[1]}{int(one[2]) + 1}") for one in stations]
    lines = [(start, end) for start, end in pairs if end in PLACES] + [("S00", "S45")]
    texts = {
        "zones": "name,geomagnetic_latitude,beta\nZ,60,0.9\n",
        "substations": "name,latitude,longitude,ground_ohm\n",
        "buses": "name,substation,kv\n",
        "lines": "name,from,to,zone,ohm,north_km,east_km,capacitor\n",
        "transformers": "name,kind,high,low,high_kv,low_kv,high_ohm,low_ohm,series_ohm,common_ohm,neutral\n",
    }
    for place, (name, (latitude, longitude)) in enumerate(PLACES.items()):
        texts["substations"] += f"{name},{latitude:.1f},{longitude:.1f},{0.1 + 0.01 * (place % 9):.2f}\n"
        texts["buses"] += f"b{name},{name},345\n"
        texts["transformers"] += f"T{name},delta-wye,b{name},,345,,0.3,,,,\n"
    for start, end in lines:
        ohm = 20 if (start, end) == ("S00", "S45") else 4
        texts["lines"] += f"L{start}-{end},b{start},b{end},,{ohm},,,\n"
    return texts


class SpansTest(DeskTest):
    def setUp(self) -> None:
        super().setUp()
        folder = self.folder / "tables"
        folder.mkdir()
        for name, text in tables().items():
            (folder / f"{name}.csv").write_text(text)
        self.case, self.places = self.folder / "grid.toml", folder / "substations.csv"
        self.done("case", folder, "--alpha=table", f"--out={self.case}")

    def turn(self, name: str) -> None:
        """Turns the span of a line."""
        head, rest = self.case.read_text().split(f'name = "{name}"\n')
        row, rest = rest.split("\n\n", 1)
        for way in ("north", "east"):
            row = re.sub(rf"^{way} = (-?)([1-9]\d*)", lambda found: f"{way} = {'' if found[1] else '-'}{found[2]}", row, 1, re.M)
        self.case.write_text(f'{head}name = "{name}"\n{row}\n\n{rest}')


class Loops(SpansTest):
    def test_a_loop_is_its_line_and_the_way_between_its_ends(self) -> None:
        def link(name: str, start: str, end: str) -> Link:
            return Link(name, start, end, (0, 0), False)

        links = [link("a", "A", "B"), link("b", "B", "C"), link("c", "C", "A"), link("d", "A", "B"), link("e", "D", "D")]
        found = {name: sorted(link.name for link in loop) for name, loop in loops(links).items()}
        self.assertEqual(found, {"c": ["a", "b", "c"], "d": ["a", "d"], "e": ["e"]})

    def test_every_loop_of_right_spans_is_explained(self) -> None:
        found = network_of(self.case.read_bytes())
        assert found is not None
        places = read_degrees(str(self.places), found.stations, [])
        asked = [Question("closure", name, gap=(0, 9000)) for name in loops(found.links)]
        # 49 lines of the grid and one more over 30 stations close 21 loops.
        self.assertEqual(len(asked), 21)
        result = compared(found.links, places, asked)
        self.assertEqual((result.spans, result.misfits, result.explained, result.unknown), (50, [], asked, 0))

    def test_a_place_that_is_missing_explains_nothing(self) -> None:
        found = network_of(self.case.read_bytes())
        assert found is not None
        places = {name: place for name, place in PLACES.items() if name != "S00"}
        asked = [Question("closure", name, gap=(0, 9000)) for name in loops(found.links)]
        result = compared(found.links, places, asked)
        self.assertEqual((result.unknown, result.misfits), (3, []))
        self.assertLess(len(result.explained), len(asked))
        self.assertIn("3 lines can't be compared: a place of an end isn't in the table.", result.text)

    def test_a_turned_line_is_told_and_its_loops_alone(self) -> None:
        self.turn("LS12-S13")
        found = network_of(self.case.read_bytes())
        assert found is not None
        asked = [Question("closure", name, gap=(0, 9000)) for name in loops(found.links)]
        result = compared(found.links, PLACES, asked)
        (misfit,) = result.misfits
        east = degrees_between(PLACES["S12"], PLACES["S13"])[1] / 1000
        self.assertEqual(
            misfit.text,
            f"The span of LS12-S13, from S12 to S13, is 0.0 km to the north and {east:.1f} km to the west, by the coordinates "
            f"0.0 km to the north and {east:.1f} km to the east: are its ends turned?",
        )
        through = {name for name, loop in loops(found.links).items() if "LS12-S13" in [link.name for link in loop]}
        self.assertEqual({question.name for question in result.explained}, {one.name for one in asked} - through)


@unittest.skipUnless(BUILT.is_file(), "no program is built")
class OverTheProgram(SpansTest):
    def questions(self, *words: object) -> list[str]:
        out = self.done("study", self.case, f"--program={BUILT}", f"--out={self.folder / 'out'}", "--force", *words)
        return [line for line in out.splitlines() if line.startswith("question: ")]

    def test_no_false_question_and_one_true_one(self) -> None:
        printed = subprocess.run([BUILT, "review", f"--case={self.case}"], capture_output=True, check=True).stdout
        review = parse_report("review", printed)[1]
        assert isinstance(review, Review)
        closures = [question.name for question in review.questions if question.kind == "closure"]
        self.assertTrue(closures)
        self.assertEqual(len(self.questions()), len(closures))
        self.assertEqual(self.questions(f"--places={self.places}"), [])
        page = (self.folder / "out" / "study.html").read_text()
        self.assertIn("50 spans of lines were compared with the coordinates of --places: 50 fit within 2 km and 2 per cent", page)
        self.turn("LS12-S13")
        first, *others = self.questions(f"--places={self.places}")
        self.assertTrue(first.startswith("question: The span of LS12-S13, from S12 to S13, is 0.0 km"), first)
        self.assertTrue(others)
        for line in others:
            self.assertTrue(line.endswith("Of its spans LS12-S13 doesn't fit the coordinates."), line)


@unittest.skipUnless(BUILT.is_file(), "no program is built")
class ReviewOverTheProgram(SpansTest):
    def lines(self, *words: object) -> list[str]:
        return self.done("review", self.case, f"--program={BUILT}", *words).splitlines()

    def test_the_questions_are_those_of_a_study(self) -> None:
        """Without places those of the review, with places none of a loop that they explain."""
        without, with_places = self.lines(), self.lines(f"--places={self.places}")
        self.assertGreater(len(without), 2)
        self.assertEqual(without[-1], f"{len(without) - 1} questions")
        self.assertTrue(all(line.startswith("question: The loop that ") for line in without[:-1]), without)
        self.assertEqual(with_places[-1], "0 questions")
        self.assertTrue(with_places[0].startswith("note: 50 spans of lines were compared with the coordinates of --places"))
        self.turn("LS12-S13")
        first = self.lines(f"--places={self.places}")[0]
        self.assertTrue(first.startswith("question: The span of LS12-S13, from S12 to S13, is 0.0 km"), first)


class ReviewWords(test_outages.OutagesTest):
    def test_places_of_another_case_and_parts_of_low_voltages(self) -> None:
        """Over the program that stands for the real one."""
        case = self.file("case.toml", LOW)
        self.prints("review", "review\npart 3 A\npart 3 B\npart 6 C\nfindings 3\nend\n")
        shown = self.done("review", case, f"--program={FAKE}").splitlines()
        self.assertEqual(len(shown), 3)
        self.assertIn("2 parts of the network have no line, and 2 units in them, TA and TB, have voltages below 60 kV: is a line or a bus", shown[1])
        places = self.file("places.csv", "name,latitude,longitude\nX,50,10\n")
        (line,) = self.refused("review", case, f"--program={FAKE}", f"--places={places}")
        self.assertIn("it has none of the case's substations; is it the table of another case?", line)


LOW = """\
format = 2
zone = [{ name = "Z", latitude = 6000, beta = 100 }]
substation = [{ name = "A", ground = 1000000 }, { name = "B", ground = 1000000 }, { name = "C", ground = 1000000 }, { name = "D" }]
bus = [
  { name = "a1", substation = "A" }, { name = "a2", substation = "A" }, { name = "b1", substation = "B" },
  { name = "b2", substation = "B" }, { name = "c1", substation = "C" }, { name = "d1", substation = "D" },
]
line = [{ name = "L", from = "c1", to = "d1", zone = "Z", resistance = 3000000, north = 100000, east = 0 }]
transformer = [
  { name = "TA", kind = "wye-wye", high_volts = 34500, low_volts = 13800, high = "a1", low = "a2", high_resistance = 300000, low_resistance = 90000 },
  { name = "TB", kind = "wye-wye", high_volts = 34500, low_volts = 13800, high = "b1", low = "b2", high_resistance = 300000, low_resistance = 90000 },
  { name = "TC", kind = "delta-wye", high_volts = 345000, high = "c1", high_resistance = 300000 },
  { name = "TD", kind = "delta-wye", high_volts = 345000, high = "d1", high_resistance = 300000 },
]
"""
