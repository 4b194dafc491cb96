"""Stations without coordinates, whose lines have their spans from a table."""

import csv
import unittest

from test_case import POLYGONS, CaseTest
from test_psse import GIC, PsseTest

from gicdesk.network import read_degrees

LINES = "bus_i,bus_j,circuit,zone,north_km,east_km\n"


class OfAPowerFlow(PsseTest):
    SPANS = LINES + "1,7,1,,-0.5,71.7\n7,5,1,,-111.2,-72.4\n"

    def words_of(self, place: str, lines: str) -> list[object]:
        words = self.words(gic=GIC.replace("3,'EAST STATION',0,50.0,-99.0,", f"3,'EAST STATION',0,{place},"))
        return [*words, "--beyond=leave", f"--lines={self.file('lines.csv', lines)}"]

    def test_spans_of_a_table_are_enough(self) -> None:
        for place in (",", "0.0,0.0", "0,"):
            case = self.case([*self.words_of(place, self.SPANS), "--force"])
            told = "\n".join(self.shown)
            words = "it has no coordinates (both are empty or 0): each of its lines needs its span in the table of --lines"
            self.assertIn(f"net.gic line 4: {words}", told)
            self.assertEqual((case["line"]["L1-7-1"]["north"], case["line"]["L1-7-1"]["east"]), (-500, 71700))
            self.assertEqual((case["line"]["L5-7-1"]["north"], case["line"]["L5-7-1"]["east"]), (111200, 72400))

    def test_a_line_without_a_span_is_refused(self) -> None:
        words = "it has no span, since the substation EAST STATION has no coordinates"
        ways = "write these, or its span into the table of --lines"
        self.told(self.words_of(",", LINES + "1,7,1,,-0.5,71.7\n"), f"net.raw line 21: {words}; {ways}")

    def test_one_of_both_is_no_place(self) -> None:
        self.told(
            self.words_of("50.0,", self.SPANS),
            "net.gic line 4, LONGITUDE: a number is missing; write one with a decimal point",
        )

    def test_the_table_of_names_is_one_of_places(self) -> None:
        self.case(self.words_of(",", self.SPANS))
        table = self.out.with_suffix(".names.csv")
        with open(table, newline="") as file:
            row = next(row for row in csv.DictReader(file) if row["name"] == "EAST_STATION")
        self.assertEqual((row["latitude"], row["longitude"]), ("", ""))
        self.assertEqual(set(read_degrees(str(table), ["NORTH", "EAST_STATION"], [])), {"NORTH"})


class OfTables(CaseTest):
    def setUp(self) -> None:
        super().setUp()
        self.change("substations", "East,50.0,-99.0,", "East,,,")

    def test_spans_of_the_table_are_enough(self) -> None:
        self.change("lines", "3.9,,,yes", "3.9,111.2,72.4,yes")
        made = self.made()
        self.assertEqual((made["line"]["N-E"]["north"], made["line"]["N-E"]["east"]), (0, 71700))
        self.assertEqual((made["line"]["S-E"]["north"], made["line"]["S-E"]["east"]), (111200, 72400))

    def test_a_line_without_a_span_is_refused(self) -> None:
        words = "it is empty, and an end of the line lies at a substation without coordinates; write the span, or the coordinates"
        self.assertEqual(self.findings(), [f"lines.csv line 4, north_km: {words}"])

    def test_a_zone_by_polygons_is_not_known(self) -> None:
        """Of a line that names none."""
        self.change("lines", "3.9,,,yes", "3.9,111.2,72.4,yes")
        self.change("lines", "N-E,N345,E345,upland", "N-E,N345,E345,")
        self.texts["polygons"] = POLYGONS
        self.assertEqual(self.findings(), ["lines.csv line 3, zone: it is empty; write one of upland, coast"])


if __name__ == "__main__":
    unittest.main()
