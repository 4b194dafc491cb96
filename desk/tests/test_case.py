"""`gicdesk case`: a case from tables. The tables are those of the sample region, and of a small network of small.py."""

import decimal
import shutil
import tomllib
import unittest
from typing import Any
from unittest import mock

from shared import EXAMPLES, TOP, DeskTest, desk
from small import TABLES

from gicdesk import cases
from gicdesk.usual import GROUNDS, LINES, REACTORS, WINDINGS, usual_at

Made = dict[str, dict[str, dict[str, Any]]]  # the rows of a case by their lists and their names
LISTS = ("zone", "substation", "bus", "line", "transformer")
POLYGONS = "zone,latitude,longitude\n" + "".join(
    f"{zone},{corner}\n"
    for zone, corners in (
        ("upland", ("49.6,-101", "51,-101", "51,-98", "49.6,-98")),
        ("coast", ("48,-101", "49.6,-101", "49.6,-98", "48,-98")),
    )
    for corner in corners
)


class CaseTest(DeskTest):
    """Each test changes tables of the small network."""

    def setUp(self) -> None:
        super().setUp()
        self.texts = dict(TABLES)
        self.out = self.folder / "case.toml"

    def change(self, table: str, old: str, new: str) -> None:
        """Other text in the place of one that stands once in a table."""
        self.assertEqual(self.texts[table].count(old), 1, old)
        self.texts[table] = self.texts[table].replace(old, new)

    def words(self, *words: object) -> list[object]:
        tables = self.folder / "tables"
        tables.mkdir(exist_ok=True)
        for name, text in self.texts.items():
            (tables / f"{name}.csv").write_bytes(text.encode())
        return ["case", tables, f"--out={self.out}", "--alpha=table", *words]

    def made(self, *words: object) -> Made:
        """The lists of the case that is made, each row by its name; what is told is kept without the folder."""
        told = self.done(*self.words("--force", *words)).replace(f"{self.folder}/", "").splitlines()
        self.assertEqual(told.pop(), "case.toml is made")
        self.rounding = told.pop()
        self.assertIn("case.toml: the program's intervals hold for this case", self.rounding)
        self.told = [line.removeprefix("tables/") for line in told]
        read = tomllib.loads(self.out.read_text())
        return {name: {row["name"]: row for row in read[name]} for name in LISTS}

    def findings(self, *words: object) -> list[str]:
        """What the refusal tells, without the folder; nothing is written."""
        lines = self.refused(*self.words(*words))
        self.assertFalse(self.out.exists())
        return [line.replace(f"{self.folder}/tables/", "").replace(f"{self.folder}/", "") for line in lines]


class Region(DeskTest):
    def test_the_region_byte_for_byte_without_a_finding(self) -> None:
        out = self.folder / "region.toml"
        rounding, made = self.done("case", EXAMPLES / "tables", "--alpha=table", f"--out={out}").splitlines()
        self.assertTrue(rounding.startswith(f"{out}: the program's intervals hold for this case"), rounding)
        self.assertEqual(made, f"{out} is made")
        self.assertEqual(out.read_bytes(), (EXAMPLES / "region.toml").read_bytes())

    def test_tables_as_a_spreadsheet_of_decimal_commas_writes_them(self) -> None:
        """With a byte order mark, carriage returns, semicolons, decimal commas and empty rows at the end, the same."""
        tables, out = self.folder / "tables", self.folder / "region.toml"
        shutil.copytree(EXAMPLES / "tables", tables)
        for path in tables.iterdir():
            rows = []
            for line in path.read_text().splitlines():
                cells = line.split('"')[0].split(",")  # the quoted cells are notes, which are the last ones
                note = line.split('"')[1] if '"' in line else cells.pop()
                numbers = [cell.replace(".", ",") if cell[-1:].isdigit() else cell for cell in cells if cells]
                rows.append(";".join([*numbers[: len(cells) - ('"' in line)], note]))
            width = rows[0].count(";")
            text = "\r\n".join([*rows, ";" * width, ";" * width, ""])
            path.write_bytes(b"\xef\xbb\xbf" + text.encode())
        (tables / "buses.csv").write_bytes((EXAMPLES / "tables" / "buses.csv").read_bytes().replace(b",", b";"))
        self.done("case", tables, "--alpha=table", f"--out={out}")
        here, there = tomllib.loads(out.read_text()), tomllib.loads((EXAMPLES / "region.toml").read_text())
        self.assertEqual(here, there)


class Numbers(CaseTest):
    def micro_ohm(self, text: str) -> int:
        self.change("lines", "upland,3.25,", f"upland,{text},")
        return int(self.made()["line"]["N-S"]["resistance"])

    def test_as_spreadsheets_write_them(self) -> None:
        for text, micro_ohm in (
            ("3.2E+00", 3200000),
            (" +3.25 ", 3250000),
            ("3250e-3", 3250000),
            (".325e1", 3250000),
            ("3.2500005", 3250000),  # in the middle of two the even one
            ("3.2500015", 3250002),
            ("3.2500006", 3250001),
            ("3.25" + "0" * 60 + "1", 3250000),
        ):
            self.texts = dict(TABLES)
            self.assertEqual(self.micro_ohm(text), micro_ohm, text)

    def test_points_in_a_table_of_semicolons(self) -> None:
        """They could stand between thousands."""
        self.texts["buses"] = self.texts["buses"].replace(",", ";").replace("N345;North;345", "N345;North;345.0")
        number = '"345.0" is no number; write one with a decimal comma, as this table has semicolons'
        self.assertEqual(self.findings(), [f"buses.csv line 2, kv: {number}"])

    def test_spans_are_rounded_to_a_metre(self) -> None:
        self.change("lines", "0,71.7,", "0.0004,71.7126,")
        row = self.made()["line"]["N-E"]
        self.assertEqual((row["north"], row["east"]), (0, 71713))

    def test_empty_rows_and_columns_at_the_end(self) -> None:
        lines = self.texts["lines"].splitlines()
        self.texts["lines"] = "".join(f"{line},,\n" for line in [*lines, "", ",,"]) + ",,,,,,,,,,\n\n"
        self.assertEqual(list(self.made()["line"]), ["N-S", "N-E", "S-E", "low"])

    def test_columns_in_another_order(self) -> None:
        self.texts["buses"] = "kv,name,substation\n345,N345,North\n" + "".join(
            f"{kv},{name},{station}\n"
            for name, station, kv in (line.split(",") for line in self.texts["buses"].splitlines()[2:])
        )
        self.assertEqual(self.made()["bus"]["N345"], {"name": "N345", "substation": "North"})


class Usual(unittest.TestCase):
    def test_the_table_of_the_readme_is_that_of_the_code(self) -> None:
        text = (TOP / "desk" / "README.md").read_text().partition("| kV above |")[2].partition("\n\n")[0]
        rows = [[cell.strip() for cell in line.strip("|").split("|")] for line in text.splitlines()[2:]]
        self.assertEqual(len(rows), 6)
        for kilovolts, *cells in rows:
            for cell, usual in zip(cells, (LINES, WINDINGS, GROUNDS, REACTORS), strict=True):
                least, most = usual_at(usual, decimal.Decimal(kilovolts) + 1)
                self.assertEqual(cell, f"{least} to {most}", kilovolts)


class Rows(CaseTest):
    def test_a_third_winding_is_one_of_its_unit(self) -> None:
        self.texts["buses"] += "N69,North,69\n"
        self.change("transformers", "0.19,,YNa0d1,,,", "0.19,2,YNa0yn0,N69,69,0.05")
        unit = self.made()["transformer"]["T1"]
        third = {"third": "N69", "third_volts": 69000, "third_resistance": 50000}
        self.assertEqual({key: unit[key] for key in third}, third)
        self.assertEqual((unit["kind"], unit["neutral"]), ("auto-wye", 2000000))
        self.assertEqual(self.out.read_text().splitlines()[1], "format = 3")

    def test_a_third_winding_of_a_wye_wye(self) -> None:
        self.texts["buses"] += "S13,South,13.8\n"
        self.change("transformers", "YNyn0,,,", "YNyn0yn0,S13,13.8,0.01")
        self.assertEqual(self.made()["transformer"]["T2"]["kind"], "wye-wye-wye")

    def test_a_third_voltage_above_the_high_one(self) -> None:
        self.texts["buses"] += "N500,North,500\n"
        self.change("transformers", "YNa0d1,,,", "YNa0yn0,N500,500,0.05")
        self.assertEqual(
            self.findings(), ["transformers.csv line 2, third_kv: it is 500, above high_kv, 345; look at both"]
        )

    def test_a_reactor(self) -> None:
        self.texts["transformers"] += "R1,reactor,E345,,,,1.2,,,,0.5,YN,,,,line reactor\n"
        self.change("substations", "-99.0,,", "-99.0,0.4,")
        self.assertEqual(
            self.made()["transformer"]["R1"],
            {
                "name": "R1",
                "kind": "reactor",
                "high_volts": 345000,
                "high": "E345",
                "high_resistance": 1200000,
                "neutral": 500000,
            },
        )
        self.assertEqual(self.out.read_text().splitlines()[1], "format = 3")

    def test_a_case_that_format_2_can_say_is_of_it(self) -> None:
        self.made()
        self.assertEqual(self.out.read_text().splitlines()[1], "format = 2")

    def test_a_case_with_more_rows_than_format_2_takes(self) -> None:
        """3584 transformers are of format 2, and one more makes it format 3."""
        self.parallel("transformers", "T3", "20")
        row = "T5,delta-wye,S345,,362,,0.23,,,,,YNd1,,,,"
        self.texts["transformers"] += "".join(f"{row},20\n".replace("T5", f"P{place}") for place in range(178))
        for name, most, number in (("T5", 3584, 2), ("T6", 3585, 3)):
            self.texts["transformers"] += f"{row},\n".replace("T5", name)
            self.assertEqual(len(self.made()["transformer"]), most)
            self.assertEqual(self.out.read_text().splitlines()[1], f"format = {number}")

    def parallel(self, table: str, name: str, many: str) -> None:
        """A column `parallel` at the end of a table, with a cell in one row."""
        lines = self.texts[table].splitlines()
        cells = ["parallel", *(many if line.startswith(f"{name},") else "" for line in lines[1:])]
        self.texts[table] = "".join(f"{line},{cell}\n" for line, cell in zip(lines, cells))

    def test_lines_per_unit(self) -> None:
        """0.00273 per unit on 100 MVA at 345 kV are 3.2493825 ohm, and 0.0467 at 138 kV 8.893548."""
        rows = self.texts["lines"].splitlines()
        self.texts["lines"] = "\n".join([f"{rows[0]},per_unit", *(f"{row}," for row in rows[1:]), ""])
        self.change("lines", "3.25,,,,,", ",,,,,0.00273")
        self.change("lines", "8.9,,,,,", ",,,,,0.0467")
        lines = self.made()["line"]
        self.assertEqual([lines[name]["resistance"] for name in ("N-S", "low", "N-E")], [3249382, 8893548, 2100000])
        self.assertIn("# 3.249382 ohm per phase, from 0.00273 per unit\n", self.out.read_text())
        self.out.unlink()
        for old, new, words in (
            (",,,,,0.00273", "3.25,,,,,0.00273", "it is 0.00273, and ohm is 3.25; leave one of the two empty"),
            ("0.00273", "0.0273", "32.49 ohm over 111.2 km are 0.2922 ohm per km, and not the 0.005 to 0.15 that most "
            "lines of 345 kV have; mend it, or change it to 100 MVA, or give --accept=line:N-S"),
            ("0.00273", "3.25", "it is 3.25, which on 100 MVA at 345 kV is 3868 ohm, and not 0.001 to 1000; is it in "
            "ohm, or on another base?"),
            ("0.00273", "32.5", "it is 32.5, and not 0.0000001 to 10 per unit; is it in ohm?"),
        ):
            before = dict(self.texts)
            self.change("lines", old, new)
            self.assertEqual(self.findings(), [f"lines.csv line 2, per_unit: {words}"])
            self.texts = before

    def test_parallel_rows(self) -> None:
        """Rows between the same buses stay rows, and one that stands for three is three."""
        self.parallel("lines", "S-E", "3")
        self.texts["lines"] += "N-S-2,N345,S345,upland,3.25,,,,,\n"
        lines = self.made()["line"]
        self.assertEqual(list(lines), ["N-S", "N-E", "S-E-1", "S-E-2", "S-E-3", "low", "N-S-2"])
        for one, other in (("S-E-1", "S-E-3"), ("N-S", "N-S-2")):
            self.assertEqual({**lines[one], "name": ""}, {**lines[other], "name": ""})

    def test_parallel_rows_that_cannot_be(self) -> None:
        for many in ("0", "1.5", "two", "21", "-1"):
            self.texts = dict(TABLES)
            self.parallel("lines", "S-E", many)
            words = f"it is {many}, and not a whole number from 1 to 20; write how many equal ones the row stands for"
            self.assertEqual(self.findings(), [f"lines.csv line 4, parallel: {words}"])
        self.texts = dict(TABLES)
        self.parallel("lines", "S-E", "2")
        self.texts["lines"] += "S-E-2,S345,E345,coast,3.9,,,,,\n"
        words = '"S-E-2" is taken, or longer than 32 letters; give the row another name'
        self.assertEqual(self.findings(), [f"lines.csv line 4, parallel: {words}"])

    def test_parallel_units(self) -> None:
        self.parallel("transformers", "T3", "2")
        self.assertEqual(list(self.made()["transformer"]), ["T1", "T2", "T3-1", "T3-2", "T4"])

    def test_an_autotransformer_that_is_not_earthed(self) -> None:
        self.change("transformers", "0.19,,YNa0d1", "0.19,blocked,Ya0d1")
        self.assertEqual(self.made()["transformer"]["T1"]["neutral"], "blocked")

    def test_an_autotransformer_that_is_not_earthed_beside_an_earthed_third_winding(self) -> None:
        self.texts["buses"] += "N69,North,69\n"
        self.change("transformers", "0.19,,YNa0d1,,,", "0.19,blocked,Ya0yn0,N69,69,0.05")
        words = '"Ya0yn0" has an earthed third winding and a neutral that isn\'t earthed, and a case joins the two'
        words += "; it can't be written: leave one of them out"
        self.assertEqual(self.findings(), [f"transformers.csv line 2, vector_group: {words}"])

    def test_two_wyes_that_join_transmission_voltages(self) -> None:
        """Of 500 and 230 kV; at 345 and 138 kV, as T2 is, nothing is asked."""
        self.change("buses", "S345,South,345", "S345,South,500")
        self.change("buses", "S138,South,138", "S138,South,230")
        self.change("buses", "N345,North,345", "N345,North,500")
        self.change("buses", "N138,North,138", "N138,North,230")
        self.change("buses", "E345,East,345", "E345,East,500")
        self.change("transformers", "345,138,0.42", "500,230,0.42")
        self.change("transformers", "345,138,,,0.24", "500,230,,,0.24")
        self.change("transformers", "S345,,362", "S345,,512")
        self.change("transformers", "S138,,138", "S138,,230")
        (line,) = self.findings()
        words = "transformers.csv line 3, kind: two earthed wyes of 500 and 230 kV: a unit that joins two voltages above 200 kV is"
        self.assertTrue(line.startswith(words), line)
        self.assertTrue(line.endswith("or give --accept=vector:T2"), line)
        self.assertEqual(self.made("--accept=vector:T2")["transformer"]["T2"]["low_volts"], 230000)

    def test_a_wye_that_is_earthed_on_the_low_side(self) -> None:
        self.change("transformers", "T3,delta-wye,S345,,362", "T3,delta-wye,S138,,138")
        self.change("transformers", "YNd1", "Dyn1")
        (line,) = self.findings()
        self.assertIn("its verdict means nothing; write kind reactor, which has no verdict, without high_kv", line)
        self.assertEqual(self.made("--accept=vector:T3")["transformer"]["T3"]["high"], "S138")


class Zones(CaseTest):
    def setUp(self) -> None:
        super().setUp()
        self.texts["polygons"] = POLYGONS
        self.change("lines", "upland,3.25", ",3.25")

    TOLD = (
        "lines.csv line 2, zone: it is empty, and the line crosses borders: upland to 44.5 km, coast to 111.2 km; "
        "it has 2 parts"
    )

    def test_a_line_across_a_border_is_in_parts_and_told(self) -> None:
        made = self.made()
        # The line `low` has the zone coast in its cell, and goes the same way.
        crosses = "by the polygons the line crosses borders: upland to 44.5 km, coast to 111.2 km; all of it is in coast here"
        told = f"lines.csv line 5, zone: it is coast, and {crosses}: leave the cell empty for parts"
        self.assertEqual(self.told, [self.TOLD, told])
        line = made["line"]["N-S"]
        self.assertEqual((line["from"], line["to"], line["resistance"]), ("N345", "S345", 3250000))
        self.assertEqual(
            line["part"],
            [{"zone": "upland", "north": -44488, "east": 0}, {"zone": "coast", "north": -66733, "east": 0}],
        )
        self.assertFalse({"zone", "north", "east"} & set(line))
        self.assertEqual(self.out.read_text().splitlines()[1], "format = 3")

    def test_a_line_through_more_zones_than_it_has_parts(self) -> None:
        """Between upland and coast lie strips of other zones: with 14 of them the line has 16 parts."""
        for count in (14, 15):
            borders = [f"{49.05 + 0.9 * place / count:.4f}" for place in range(count + 1)]
            self.texts["zones"] = TABLES["zones"] + "".join(f"s{place},57.3,0.85,\n" for place in range(count))
            self.texts["polygons"] = POLYGONS.replace("coast,49.6", "coast,49.05").replace("upland,49.6", "upland,49.95")
            for place, (south, north) in enumerate(zip(borders, borders[1:])):
                corners = (f"{south},-101", f"{north},-101", f"{north},-98", f"{south},-98")
                self.texts["polygons"] += "".join(f"s{place},{corner}\n" for corner in corners)
            if count == 14:
                parts = self.made()["line"]["N-S"]["part"]
                zones = ["upland", *(f"s{place}" for place in reversed(range(14))), "coast"]
                self.assertEqual([part["zone"] for part in parts], zones)
                self.out.unlink()
        words = "it is empty, and the line has 17 parts by the polygons, and not up to 16"
        self.assertEqual(
            self.findings(), [f"lines.csv line 2, zone: {words}; mend the polygons, or write its zone"]
        )

    def test_the_parts_of_a_measured_span_add_up(self) -> None:
        self.change("lines", ",3.25,,", ",3.251,-110.5,3.3")
        parts = self.made()["line"]["N-S"]["part"]
        sums = [sum(part[key] for part in parts) for key in ("north", "east")]
        self.assertEqual(sums, [-110500, 3300])

    def test_a_line_within_a_zone_has_it(self) -> None:
        self.change("lines", "S345,,3.25", "S345,upland,3.25")
        self.change("lines", "upland,2.1", ",2.1")
        self.assertEqual(self.made()["line"]["N-E"]["zone"], "upland")

    def test_a_blocked_line_is_in_one_zone(self) -> None:
        self.change("lines", "coast,3.9", ",3.9")
        lines = self.made()["line"]
        self.assertEqual(lines["S-E"]["zone"], "coast")

    def test_a_zone_in_which_the_line_is_not(self) -> None:
        self.change("lines", "upland,2.1", "coast,2.1")
        self.assertEqual(
            self.findings(),
            [
                "lines.csv line 3, zone: it is coast, and by the polygons the line lies in upland; write its zone, or "
                "leave the cell empty, or give --accept=zone:N-E"
            ],
        )

    def test_a_gap_between_polygons(self) -> None:
        self.texts["polygons"] = self.texts["polygons"].replace("coast,49.6", "coast,49.5")
        self.assertEqual(
            self.findings(),
            [
                "lines.csv line 2, zone: it is empty, and a part of the line lies in no polygon; mend the polygons, or "
                "write its zone"
            ],
        )

    def test_polygons_that_are_none(self) -> None:
        self.texts["polygons"] = POLYGONS + "cost,48,-101\ncoast,95,-101\n"
        self.assertEqual(
            self.findings(),
            [
                'polygons.csv line 10, zone: "cost" is none of coast, upland; write one of these',
                "polygons.csv line 11, latitude: it is 95, and not -90 to 90 degrees",
            ],
        )
        self.texts["polygons"] = "zone,latitude,longitude\nupland,49,-100\n"
        words = "upland has 1 corner; a polygon has 3 or more, a row for each"
        self.assertIn(f"polygons.csv: {words}", self.findings())

    def test_a_polygon_in_two_pieces(self) -> None:
        self.texts["polygons"] = POLYGONS + "upland,49.7,-100\n"
        words = "upland has rows above those of coast already; a zone has one polygon, its rows together"
        self.assertIn(f"polygons.csv line 10, zone: {words}", self.findings())

    def test_polygons_that_overlap(self) -> None:
        self.texts["polygons"] = POLYGONS.replace("coast,49.6", "coast,49.7")
        ways = "mend the polygons, or write its zone"
        words = f"it is empty, and a part of the line lies in upland and in coast; {ways}"
        self.assertEqual(self.findings(), [f"lines.csv line 2, zone: {words}"])

    def test_along_a_border(self) -> None:
        """A line that runs along the border lies in the first of the two."""
        self.change("substations", "North,50.0", "North,49.6")
        self.change("substations", "East,50.0", "East,49.6")
        self.change("lines", "upland,2.1", ",2.1")
        self.assertEqual(self.made()["line"]["N-E"]["zone"], "upland")


class Accepting(CaseTest):
    def test_a_kind_or_a_row(self) -> None:
        self.change("transformers", "0.24,0.19", "240,190")
        self.change("substations", "0.2,", "180,")
        self.assertEqual(len(self.findings()), 3)
        self.assertEqual(len(self.findings("--accept=winding")), 1)
        self.assertEqual(len(self.findings("--accept=ground:North")), 2)
        self.made("--accept=winding:T1", "--accept=ground")
        self.assertEqual([line.endswith(" (accepted)") for line in self.told], [True] * 3)

    def test_what_is_not_there_is_told(self) -> None:
        self.made("--accept=winding:T9")
        self.assertEqual(self.told, ["--accept=winding:T9: it takes nothing away; leave it out"])

    def test_a_name_that_no_finding_has(self) -> None:
        (line,) = self.findings("--accept=windings:T1")
        self.assertEqual(
            line,
            "--accept=windings:T1: no finding has this name; allowed are alpha, latitude, beta, ground, line, winding, "
            "turned, neutral, volts, "
            "vector, span, zone, unused, or one of them with a colon and the name of a row",
        )

    def test_a_refusal_cannot_be_accepted(self) -> None:
        self.change("lines", "upland,3.25", "upland,0")
        for kind in ("line", "line:N-S"):
            self.assertEqual(len(self.findings(f"--accept={kind}")), 1)

    def test_findings_of_all_tables_stand_in_their_order(self) -> None:
        self.change("zones", "0.79", "79")
        self.change("substations", "0.3,", "300,")
        self.change("buses", "S138,South", "S138,Soth")
        self.change("lines", "3.25", "x")
        self.change("transformers", "0.42", "420")
        self.assertEqual(
            [line.partition(":")[0] for line in self.findings()],
            [
                "zones.csv line 3, beta",
                "substations.csv line 3, ground_ohm",
                "buses.csv line 5, substation",
                "lines.csv line 2, ohm",
                "transformers.csv line 3, low",
                "transformers.csv line 3, high_ohm",
            ],
        )


class Output(CaseTest):
    def test_a_case_that_is_there_stays(self) -> None:
        self.out.write_text("mine")
        (line,) = self.refused(*self.words())
        self.assertEqual(line, f"{self.out}: it is there already; choose another name, or give --force to replace it")
        self.change("buses", "N345,North,345", "N345,North,345000")
        self.refused(*self.words("--force"))
        self.assertEqual(self.out.read_text(), "mine")

    def test_a_case_that_is_too_long_has_no_remarks_or_is_refused(self) -> None:
        self.made()
        text = self.out.read_text()
        most = len(text.encode()) - 1
        with mock.patch.object(cases, "MOST_BYTES", most):
            self.made()
        words = f"the case has no remarks, since it would have more than {most} bytes with them"
        self.assertEqual(self.told, [f"tables: {words}"])
        bare = self.out.read_text()
        self.assertNotIn("  #", bare)
        self.assertEqual(tomllib.loads(bare), tomllib.loads(text))
        self.out.unlink()
        size = len(bare.encode())
        with mock.patch.object(cases, "MOST_BYTES", size - 1):
            (line,) = self.findings()
        self.assertIn(f": the case would have {size} bytes, and the program takes {size - 1}; give shorter names", line)

    def test_a_case_that_is_stopped_leaves_nothing_beside_it(self) -> None:
        self.out.write_text("mine")
        with mock.patch("os.link", side_effect=KeyboardInterrupt):
            status, out, err = desk(*self.words("--force"))
        self.assertEqual((status, out, err), (130, "", "gicdesk: stopped\n"))
        self.assertEqual(sorted(path.name for path in self.folder.iterdir()), ["case.toml", "tables"])
        self.assertEqual(self.out.read_text(), "mine")

    def test_notes_are_remarks(self) -> None:
        self.change("substations", "a switching station", "Kraftwerk\u2028 S\u00fcd\u0007!")
        self.made()
        self.assertIn("[[substation]]  # Kraftwerk S\u00fcd!\n", self.out.read_text())

    def test_no_folder(self) -> None:
        allowed = "make one with zones.csv, substations.csv, buses.csv, lines.csv, transformers.csv"
        for name in ("none", "case.txt"):
            self.file("case.txt", "")
            (line,) = self.refused("case", self.folder / name, f"--out={self.out}")
            self.assertEqual(line, f"{self.folder}/{name}: there is no such folder; {allowed}")

    def test_more_rows_than_a_case_has(self) -> None:
        self.texts["zones"] += "".join(f"z{place},50,1,\n" for place in range(255))
        self.assertEqual(
            self.findings("--accept=alpha"), ["zones.csv: a case of it has 257 rows zone, and at most 256"]
        )


if __name__ == "__main__":
    unittest.main()
