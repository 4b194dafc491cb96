"""Marks of units that an open question can change, parts of low voltages, and reactors, which have no current of a unit."""

import subprocess
import unittest
from typing import Any

from shared import BUILT
from test_study import CASE, FIELD, StudyTest

from gicdesk.forms import Interval
from gicdesk.neighbours import Graph, low_parts, low_text
from gicdesk.reactors import worst_of
from gicdesk.reports import Question
from gicdesk.reviewed import asked_of, marks_of, review_questions

# A chain of seven stations S0 to S6, each with a unit T0 to T6, of which a capacitor blocks the line from S5 to S6.
CHAIN: dict[str, Any] = {
    "zone": [{"name": "Z"}, {"name": "Y"}],
    "substation": [{"name": f"S{place}"} for place in range(7)],
    "bus": [{"name": f"b{place}", "substation": f"S{place}"} for place in range(7)],
    "line": [
        {"name": f"L{place}", "from": f"b{place}", "to": f"b{place + 1}", "zone": "Z" if place < 5 else "Y", "blocked": place == 5}
        for place in range(6)
    ],
    "transformer": [
        {"name": f"T{place}", "kind": "delta-wye", "high": f"b{place}", "high_volts": 345000} for place in range(7)
    ],
}


class Near(unittest.TestCase):
    def marks(self, *questions: Question) -> dict[str, list[int]]:
        asked = review_questions(questions, None, CHAIN)
        return marks_of(asked, CHAIN)

    def test_units_within_three_lines(self) -> None:
        self.assertEqual(set(self.marks(Question("ungrounded", "S0"))), {"T0", "T1", "T2", "T3"})
        self.assertEqual(set(self.marks(Question("ungrounded", "S5"))), {"T2", "T3", "T4", "T5"})

    def test_a_capacitor_ends_the_way(self) -> None:
        self.assertEqual(set(self.marks(Question("ungrounded", "S6"))), {"T6"})

    def test_a_line_is_at_both_stations(self) -> None:
        self.assertEqual(set(self.marks(Question("closure", "L0", gap=(5000, 0)))), {"T0", "T1", "T2", "T3", "T4"})

    def test_a_unit_is_at_its_station(self) -> None:
        question = Question("value", "T4", "transformer", "high_resistance", 1)
        self.assertEqual(set(self.marks(question)), {"T1", "T2", "T3", "T4", "T5"})

    def test_a_zone_is_at_the_stations_of_its_lines(self) -> None:
        self.assertEqual(set(self.marks(Question("alpha", "Z", number=4990))), {f"T{place}" for place in range(6)})

    def test_a_part_marks_its_own_units(self) -> None:
        """And the greatest part none."""
        self.assertEqual(set(self.marks(Question("part", "b6", number=2))), {"T6"})
        self.assertEqual(self.marks(Question("part", "b0", number=12)), {})

    def test_numbers_are_in_the_order_of_the_questions(self) -> None:
        marks = self.marks(Question("ungrounded", "S6"), Question("outside", "T0"), Question("ungrounded", "S2"))
        self.assertEqual((marks["T6"], marks["T0"], marks["T5"]), ([1], [2, 3], [3]))

    def test_a_line_within_a_station_is_asked_about_in_words_of_its_own(self) -> None:
        within = {"name": "PS", "from": "b0", "to": "b7", "zone": "Z"}
        case = CHAIN | {"line": [*CHAIN["line"], within], "bus": [*CHAIN["bus"], {"name": "b7", "substation": "S0"}]}
        (asked,) = review_questions([Question("value", "PS", "line", "span", 0)], None, case)
        self.assertEqual(asked.text, "line PS joins two buses of S0, and has no span: is it a phase shifter, or does it lead to another station?")
        (asked,) = review_questions([Question("value", "L0", "line", "span", 0)], None, case)
        self.assertEqual(asked.text, "line L0: the span is 0 km, as few have it: is it meant?")

    def test_questions_of_the_desk_are_about_their_rows(self) -> None:
        asked = asked_of([("one", ("S6",)), ("all", tuple(f"S{place}" for place in range(7)))], CHAIN)
        marks = marks_of(asked, CHAIN)
        self.assertEqual((marks["T6"], marks["T0"]), ([1, 2], [2]))


class Low(unittest.TestCase):
    def case(self, volts: int) -> dict[str, Any]:
        """Three units of two voltages apart from the chain."""
        names = [f"D{place}" for place in range(3)]
        more: dict[str, list[dict[str, Any]]] = {
            "substation": [{"name": f"S{name}"} for name in names],
            "bus": [{"name": f"{side}{name}", "substation": f"S{name}"} for name in names for side in "hl"],
            "transformer": [
                {"name": name, "kind": "wye-wye", "high": f"h{name}", "low": f"l{name}", "high_volts": volts} for name in names
            ],
        }
        return CHAIN | {key: [*CHAIN[key], *rows] for key, rows in more.items()}

    QUESTIONS = [Question("part", "b0", number=14), *(Question("part", f"SD{place}", number=3) for place in range(3))]

    def test_several_are_one_question(self) -> None:
        graph = Graph(self.case(34500))
        low, others = low_parts(graph, self.QUESTIONS)
        self.assertEqual(([one.name for one in low], [one.name for one in others]), (["SD0", "SD1", "SD2"], ["b0"]))
        words = "3 parts of the network have no line, and 3 units in them, D0, D1 and 1 more, have voltages below 60 kV: is a line"
        self.assertIn(words, low_text(graph, low))
        asked = review_questions(self.QUESTIONS, None, self.case(34500))
        self.assertEqual([len(one.units) for one in asked], [0, 3])

    def test_one_alone_and_others_stay(self) -> None:
        self.assertEqual(low_parts(Graph(self.case(34500)), self.QUESTIONS[:2]), ([], self.QUESTIONS[:2]))
        self.assertEqual(low_parts(Graph(self.case(138000)), self.QUESTIONS), ([], self.QUESTIONS))


REACTOR = CASE.replace(
    '  { name = "D", kind = "delta-delta", high_volts = 345000 },',
    '  { name = "D", kind = "reactor", high_volts = 345000, high = "a", high_resistance = 1500000 },',
).replace("format = 2", "format = 3")


class OnThePage(StudyTest):
    def setUp(self) -> None:
        super().setUp()
        self.prints("review", "review\nungrounded B\nfindings 1\nend\n")

    def test_the_answer_the_table_and_the_cells(self) -> None:
        page = self.page()
        self.assertIn('<li id="q1">B has no ground', page)
        self.assertIn('<b>TA <a href="#q1">?</a></b>', page)
        self.assertIn("A ? marks each unit that an open question can change.", page)
        self.assertEqual({name: row["open_questions"] for name, row in self.units().items()}, {"TA": "1", "TB": "1", "D": ""})

    def test_a_unit_below_is_told_on_the_terminal(self) -> None:
        self.prints("screen", self.reports.joinpath("screen.txt").read_text().replace("98765 98767 reaches", "9876 9878 below", 1))
        self.prints("outage", self.reports.joinpath("outage.txt").read_text())
        page = self.page()
        words = "1 unit that is below the threshold here has an open question that can change it: TA"
        self.assertIn(f"note: {words} (the column open_questions of units.csv)", self.shown)
        self.assertIn(words, page)

    def test_nothing_is_marked_without_a_question(self) -> None:
        self.prints("review", "review\nfindings 0\nend\n")
        page = self.page()
        self.assertNotIn("#q1", page)
        self.assertNotIn("open question that", self.shown)

    def test_a_reactor_has_the_current_of_its_winding(self) -> None:
        self.file("case.toml", REACTOR)
        self.prints("field", FIELD.replace("transformer TA", "winding D high 53500 53502\ntransformer TA", 1))
        page = self.page()
        # As much to the north as to the east: the square root of 2 times 53.5 A, to which the desk rounds outward.
        self.assertIn("<td class=\"n\">– (winding 75.664)</td>", page)
        self.assertIn("A shunt reactor has no current of a unit", page)
        row = self.units()["D"]
        self.assertEqual((row["winding_low_A"], row["winding_high_A"]), ("75.660", "75.664"))
        empty = [head for head, cell in row.items() if head.endswith("_A_per_phase") and cell]
        self.assertEqual((empty, row["verdict"], row["worst_outage"]), ([], "outside", ""))
        self.assertIn("field_north", (self.out / "commands.txt").read_text())
        self.assertEqual(self.units()["TA"]["winding_low_A"], "")

    def test_a_reactor_whose_winding_is_open(self) -> None:
        self.file("case.toml", REACTOR)
        self.assertIn("<td class=\"n\">–</td>", self.page())
        self.assertEqual(self.units()["D"]["winding_high_A"], "")

    def test_a_case_without_a_reactor_has_no_more_runs(self) -> None:
        self.page()
        self.assertNotIn("field_north", (self.out / "commands.txt").read_text())


class Worst(unittest.TestCase):
    def test_the_interval_of_the_greatest_current(self) -> None:
        self.assertEqual(worst_of(Interval(3, 3), Interval(4, 4)), Interval(5, 5))
        self.assertEqual(worst_of(Interval(-4, -3), Interval(-1, 2)), Interval(3, 5))
        self.assertEqual(worst_of(Interval(1, 2), Interval(1, 2)), Interval(1, 3))


@unittest.skipUnless(BUILT.is_file(), "no program is built")
class OverTheProgram(StudyTest):
    def test_a_third_of_the_current_of_the_winding(self) -> None:
        """The greatest current of the winding is at least that of the program in any direction."""
        case = self.file("case.toml", REACTOR)
        self.done("study", case, f"--program={BUILT}", f"--out={self.out}")
        row = self.units()["D"]
        words = [str(BUILT), "field", f"--case={case}", "--north=8000"]
        printed = subprocess.run(words, capture_output=True, text=True, check=True).stdout
        line = next(line.split(" ") for line in printed.splitlines() if line.startswith("winding D high"))
        most = max(abs(int(end)) for end in line[3:5])
        self.assertLessEqual(most, float(row["winding_high_A"]) * 1000)
        self.assertGreater(most, 0)


if __name__ == "__main__":
    unittest.main()
