"""`gicdesk psse`: a case from a pair of files. One pair is made of the sample region by make_pair.py; another is a
small one of three substations with what a pair can have beside that."""

import csv
import decimal
import pathlib
import subprocess
import tomllib
import unittest
from collections.abc import Callable
from fractions import Fraction
from typing import Any
from unittest import mock

import make_pair
from shared import BUILT, EXAMPLES, REPORTS, TESTS, DeskTest

from gicdesk import cases, factors
from gicdesk.findings import Finding
from gicdesk.network import read_degrees
from gicdesk.places import Point
from gicdesk.polygons import Polygon
from gicdesk.psse_stations import is_node, read_stations
from gicdesk.psse_text import Layout, SectionLine, fields_of, read_sections
from gicdesk.vectors import letters_of

PAIR = TESTS / "pair"
Made = dict[str, dict[str, dict[str, Any]]]  # the rows of a case by their lists and their names
LISTS = ("zone", "substation", "bus", "line", "transformer")

RAW = """\
0, 100.0, 33, 0, 1, 60.0 / a small network
first title
second title
1,'NORTH 345',345.0,1
2,'NORTH 138',138.0,1
3,'NORTH 13 ',13.8,1
4,'SOUTH A  ',345.0,1
5,'SOUTH B  ',345.0,1
6,'SOUTH LV ',138.0,1
7,'EAST     ',345.0,1
8,'APART    ',345.0,4
0 / END OF BUS DATA, BEGIN LOAD DATA
0 / END OF LOAD DATA, BEGIN FIXED SHUNT DATA
7,'1 ',1,0.0,-50.0
7,'2 ',0,0.0,-50.0
0 / END OF FIXED SHUNT DATA, BEGIN GENERATOR DATA
0 / END OF GENERATOR DATA, BEGIN BRANCH DATA
1,4,'1 ',0.0025,0.03,0.1,0,0,0,0,0,0,0,1,1,0
1,-7,'1 ',0.0025,0.03,0.1,0,0,0,0,0,0,0,1,1,0
4,5,'1 ',0.00008,0.001,0.0,0,0,0,0,0,0,0,1,1,0
5,7,'1 ',0.0,-0.02,0.0,0,0,0,0,0,0,0,1,1,0
5,7,'2 ',0.0025,0.03,0.0,0,0,0,0,0,0,0,0,1,0
1,8,'1 ',0.0025,0.03,0.0,0,0,0,0,0,0,0,1,1,0
0 / END OF BRANCH DATA, BEGIN TRANSFORMER DATA
1,2,3,'1 ',1,1,1,0,0,2,'BANK',1,1,1.0
0.001,0.02,100,0.001,0.03,100,0.001,0.04,100,1.0,0.0
1.0,345.0,0.0
1.0,138.0,0.0
1.0,13.8,0.0
4,6,0,'1 ',1,1,1,0,0,2,'',1,1,1.0
0.001,0.02,100
1.0,0.0,0.0
1.0,0.0
5,6,0,'2 ',1,1,1,0,0,2,'SPARE',0,1,1.0
0.001,0.02,100
1.0,0.0,0.0
1.0,0.0
0 / END OF TRANSFORMER DATA, BEGIN AREA DATA
Q
"""
GIC = """\
GICFILEVRSN=3
1,'NORTH',0,50.0,-100.0,0.2,''
2,'SOUTH',0,49.0,-100.0,0.3,''
3,'EAST STATION',0,50.0,-99.0,,''
0 / END OF SUBSTATION DATA, BEGIN BUS SUBSTATION DATA
1,1
2,1
3,1
4,2
5,2
6,2
7,3
8,3
0 / END OF BUS SUBSTATION DATA, BEGIN TRANSFORMER DATA
1,2,3,'1 ',0.2,0.1,0.05,0,0,0,'YNa0yn0',1,0.6,0.0,0.0,0.0,0
4,6,0,'1 ',0.3,0.1,0.0,0,0,0,'YNd1',1,0.6,2.5,0.0,0.0,0
0 / END OF TRANSFORMER DATA, BEGIN FIXED SHUNT DATA
7,'1 ',1.5,0.0
7,'2 ',1.5,0.0
0 / END OF FIXED SHUNT DATA, BEGIN BRANCH DATA
1,4,'1 ',3.25,0.0,0.0,0.0,0.0
0 / END OF BRANCH DATA, BEGIN EARTH MODEL DATA
'BR1',2
1.0,2.0
0
Q
"""
ZONES = "name,geomagnetic_latitude,beta\nall,60,0.81\n"


class PsseTest(DeskTest):
    def words(self, raw: str = RAW, gic: str = GIC, zones: str = ZONES) -> list[object]:
        self.raw, self.gic = self.file("net.raw", raw), self.file("net.gic", gic)
        self.out = self.folder / "case.toml"
        words = ["psse", self.raw, self.gic, f"--zones={self.file('zones.csv', zones)}", f"--out={self.out}"]
        return [*words, "--alpha=table"]

    def case(self, words: list[object], number: int = 2) -> Made:
        """The lists of the case that is made, which has this format at least, each row by its name."""
        self.shown = self.done(*words).splitlines()
        read = tomllib.loads(self.out.read_text())
        self.assertEqual(read["format"], 3 if "--beyond=model" in words else number)
        return {name: {row["name"]: row for row in read[name]} for name in LISTS}

    def told(self, words: list[object], *expected: str) -> None:
        """The words are refused with these lines, without the folder; and nothing is written."""
        lines = [line.replace(f"{self.folder}/", "") for line in self.refused(*words)]
        self.assertEqual(lines, list(expected))
        self.assertEqual(sorted(self.folder.glob("case*")), [])


class Region(DeskTest):
    def pair_case(self, folder: pathlib.Path) -> pathlib.Path:
        out = self.folder / "region.toml"
        files = [folder / "region.raw", folder / "region.gic", f"--zones={folder / 'zones.csv'}", "--alpha=table"]
        self.done("psse", *files, f"--lines={folder / 'lines.csv'}", f"--out={out}", "--force")
        return out

    def names(self, out: pathlib.Path, pair: make_pair.Pair) -> dict[str, str]:
        """Each name of the case with that of the region, by the table of names beside it."""
        buses = {str(number): name for name, number in pair.buses.items()}
        lines = {}
        for row in pair.lines:
            lines[f"{pair.buses[row['from']]} {pair.buses[row['to']]}", pair.circuit(row)] = row["name"]
        units = {(" ".join(map(str, pair.ends(unit))), pair.unit_circuit(unit)): unit["name"] for unit in pair.units}
        names = {}
        with open(out.with_suffix(".names.csv"), newline="") as file:
            for row in csv.DictReader(file):
                key = (row["numbers"], row["circuit"])
                stations = {str(number): name for name, number in pair.substations.items()}
                by_list: dict[str, Callable[[], str]] = {
                    "substation": lambda: stations[key[0]],
                    "bus": lambda: buses[key[0]],
                    "line": lambda: lines[key],
                    "transformer": lambda: units[key],
                }
                names[row["name"]] = by_list[row["list"]]()
        return names

    def test_the_pair_that_stands_here_is_the_one_that_is_made(self) -> None:
        for name, text in make_pair.Pair(33).files().items():
            self.assertEqual((PAIR / name).read_text(), text, name)

    def test_the_case_of_the_pair_is_the_region_name_for_name(self) -> None:
        region = tomllib.loads((EXAMPLES / "region.toml").read_text())
        for version in (33, 34):
            pair = make_pair.Pair(version)
            for name, text in pair.files().items():
                self.file(name, text)
            out = self.pair_case(self.folder) if version == 34 else self.pair_case(PAIR)
            made = tomllib.loads(out.read_text())
            names = self.names(out, pair)
            for rows in made.values():
                for row in rows if isinstance(rows, list) else []:
                    for key in ("name", "substation", "from", "to", "high", "low"):
                        if key in row:
                            row[key] = names.get(row[key], row[key])
            for name in LISTS:
                self.assertEqual(made[name], region[name], (version, name))

    @unittest.skipUnless(BUILT.is_file(), "no program is built")
    def test_the_screen_of_the_pair_is_that_of_the_region(self) -> None:
        out = self.pair_case(PAIR)
        names = self.names(out, make_pair.Pair(33))
        printed = subprocess.run([BUILT, "screen", f"--case={out}"], capture_output=True, text=True, check=True).stdout
        lines = [line.split(" ") for line in printed.splitlines()]
        for words in lines:
            if words[0] == "transformer":
                words[1] = names[words[1]]
        self.assertEqual(list(map(" ".join, lines)), (REPORTS / "region_screen.txt").read_text().splitlines())


class Small(PsseTest):
    def test_what_the_small_pair_is_as_a_case(self) -> None:
        case = self.case([*self.words(), "--beyond=model"])
        self.assertEqual(case["zone"], {"all": {"name": "all", "latitude": 6000, "beta": 81}})
        self.assertEqual(
            case["substation"],
            {
                "NORTH": {"name": "NORTH", "ground": 200000},
                "SOUTH": {"name": "SOUTH", "ground": 300000},
                "EAST_STATION": {"name": "EAST_STATION"},
            },
        )
        stations = {name: row["substation"] for name, row in case["bus"].items()}
        # The buses 4 and 5 are tied together; the 8 is isolated; of the 6 no winding is grounded.
        self.assertEqual(
            stations,
            {"1_NORTH_345": "NORTH", "2_NORTH_138": "NORTH", "3_NORTH_13": "NORTH", "4_SOUTH_A": "SOUTH"}
            | {"7_EAST": "EAST_STATION"},
        )
        # A degree of latitude at the mean of 49 and 50 degrees is 111.133 - 0.56 cos 99 = 111.2206 km; a degree of
        # longitude at 50 degrees is (111.5065 - 0.1872 cos 100) cos 50 = 71.6958 km, and at 49.5 it is 72.4367 km.
        self.assertEqual(
            case["line"],
            {
                "L1-4-1": {"name": "L1-4-1", "from": "1_NORTH_345", "to": "4_SOUTH_A", "zone": "all"}
                | {"resistance": 3250000, "north": -111221, "east": 0},
                # 0.0025 per unit on 100 MVA at 345 kV are 0.0025 * 345 * 345 / 100 = 2.975625 ohm.
                "L1-7-1": {"name": "L1-7-1", "from": "1_NORTH_345", "to": "7_EAST", "zone": "all"}
                | {"resistance": 2975625, "north": 0, "east": 71696},
                "L5-7-1": {"name": "L5-7-1", "from": "4_SOUTH_A", "to": "7_EAST", "zone": "all"}
                | {"resistance": 1000000, "north": 111221, "east": 72437, "blocked": True},
            },
        )
        self.assertEqual(
            case["transformer"],
            {
                "BANK": {"name": "BANK", "kind": "auto-wye", "high_volts": 345000, "high": "1_NORTH_345"}
                | {"low_volts": 138000, "low": "2_NORTH_138", "series_resistance": 200000, "common_resistance": 100000}
                | {"third_volts": 13800, "third": "3_NORTH_13", "third_resistance": 50000},
                "T4-6-1": {"name": "T4-6-1", "kind": "delta-wye", "high_volts": 345000, "high": "4_SOUTH_A"}
                | {"high_resistance": 300000, "neutral": 2500000},
                "R7-1": {"name": "R7-1", "kind": "reactor", "high_volts": 345000, "high": "7_EAST"}
                | {"high_resistance": 1500000},
            },
        )

    def test_what_is_told(self) -> None:
        self.case([*self.words(), "--beyond=leave"])
        names = [line.replace(f"{self.folder}/", "") for line in self.shown]
        self.assertIn("case.toml: the program's intervals hold for this case; the rounding of spans, alpha and beta changes ", names.pop(-2))
        self.assertEqual(
            names,
            [
                "net.gic line 4: EAST_STATION: RG is empty, which is taken as no ground; see whether the file means that, or "
                "else write its ohm, or give --blank-ground",
                # 0.00008 per unit on 100 MVA at 345 kV are 0.09522 ohm.
                "net.raw line 20: the branch 4-5 '1' of 0.095220 ohm ties two buses of one substation: they are one "
                "bus, 4",
                "net.raw line 22: the branch 5-7 '2' is out of service: it is left out",
                "net.raw line 23: the branch 1-8 '1' is out of service: it is left out",
                "net.raw line 21: L5-7-1 has a negative X: it is a series capacitor, and blocked",
                "net.raw line 25: the third grounded winding of BANK, at the bus 3, is left out",
                "net.raw line 34: the transformer 5-6 '2' is out of service: it is left out",
                "net.gic line 18: the reactor 7 '1' is left out",
                "net.gic line 19: the reactor 7 '2' is out of service: it is left out",
                "net.raw: 3 of 8 buses have no line and no grounded winding: they are left out",
                "zones.csv: zone all: the geomagnetic latitude is 60 degrees, 2.0 off the 57.0 to 58.0 of its stations as seen "
                "from the pole of the earth's dipole: is it that of this region and of this year?",
                "net.gic: T4-6-1 has a neutral resistor of 2.5 ohm, and few have more than 1 ohm: is it there, and in ohm?",
                "net.gic: 2 of 2 units have a KFACTOR, or a CORE with a factor: --factors writes a table of them for "
                "the losses of study",
                "case.toml is made, and case.names.csv says what its names stand for",
            ],
        )

    def test_a_section_that_is_skipped_is_told(self) -> None:
        shunts = "0 / END OF AREA DATA, BEGIN SWITCHED SHUNT DATA\n7,1,0,1\n0 / END OF SWITCHED SHUNT DATA\nQ\n"
        self.case([*self.words(RAW.replace("Q\n", shunts)), "--beyond=leave"])
        words = "the section SWITCHED SHUNT is skipped, with 1 line; see whether a case needs what stands there"
        self.assertEqual(self.shown[0].replace(f"{self.folder}/", ""), f"net.raw line 40: {words}")

    def test_other_names_of_sections(self) -> None:
        made = self.case([*self.words(), "--beyond=model"])
        for shunts, earth in (("BUS FIXED SHUNT", "USER EARTH MODEL"), ("FIXED BUS SHUNT", "EARTH MODEL")):
            gic = GIC.replace("FIXED SHUNT DATA", f"{shunts} DATA").replace("BEGIN EARTH MODEL", f"BEGIN {earth}")
            shown = self.shown
            self.assertEqual(self.case([*self.words(gic=gic), "--beyond=model", "--force"]), made)
            self.assertEqual(self.shown, shown)

    @unittest.skipUnless(BUILT.is_file(), "no program is built")
    def test_the_program_takes_the_case(self) -> None:
        self.case([*self.words(), "--beyond=model"])
        words = [str(BUILT), "list", f"--case={self.out}"]
        printed = subprocess.run(words, capture_output=True, text=True, check=True).stdout.splitlines()
        # Two grounds, two lines without the capacitor, two windings of the auto, three others, and a neutral resistor.
        self.assertEqual(printed[1], "nodes 9 elements 10")
        self.assertIn("element L1-7-1 line 1_NORTH_345 7_EAST 3 2975625", printed)
        self.assertIn("element T4-6-1 neutral T4-6-1 SOUTH 1 2500000", printed)

    def test_what_is_of_nothing_is_told(self) -> None:
        raw = RAW.replace("7,'2 ',0,0.0,-50.0", "7,'2 ',1,0.0,-50.0")
        gic = GIC.replace("7,'2 ',1.5,0.0\n", "").replace("1,4,'1 ',3.25", "1,4,'3 ',3.25")
        gic = gic.replace("3,'EAST STATION',0,50.0,-99.0", "3,'EAST STATION',0,50.0,-100.0")
        self.case([*self.words(raw, gic), "--beyond=leave"])
        told = [line.replace(f"{self.folder}/", "") for line in self.shown]
        for line in (
            "net.gic line 20: there is no branch of these buses and this circuit in net.raw",
            "net.raw line 15: the reactor 7 '2' has no record in net.gic: it is taken as not grounded",
            "net.raw line 19: L1-7-1 has a span of less than 100 m: look at the coordinates of its ends",
        ):
            self.assertIn(line, told)

    def test_names_of_another_code_page(self) -> None:
        words = [*self.words(gic=GIC), "--beyond=leave"]
        self.gic.write_bytes(GIC.replace("NORTH", "ZÜRICH").encode("latin-1"))
        self.assertIn("Z_RICH", self.case(words)["substation"])
        self.assertIn("substation,Z_RICH,ZÜRICH,1,,50.0,-100.0\n", self.out.with_suffix(".names.csv").read_text())

    def test_the_table_of_names(self) -> None:
        self.case([*self.words(), "--beyond=model"])
        with open(self.folder / "case.names.csv", newline="") as file:
            rows = [tuple(row.values()) for row in csv.DictReader(file)]
        for row in (
            ("substation", "EAST_STATION", "EAST STATION", "3", "", "50.0", "-99.0"),
            ("line", "L1-7-1", "", "1 7", "1", "", ""),
            ("transformer", "BANK", "BANK", "1 2 3", "1", "", ""),
            ("transformer", "R7-1", "", "7", "", "", ""),
            ("bus", "4_SOUTH_A", "SOUTH A", "4 5", "", "", ""),
        ):
            self.assertIn(row, rows)
        # It serves as a table of places.
        places = read_degrees(str(self.folder / "case.names.csv"), ["NORTH", "EAST_STATION"], [])
        self.assertEqual(places, {"NORTH": (50.0, -100.0), "EAST_STATION": (50.0, -99.0)})

    def test_windings_that_are_out(self) -> None:
        bank = {"name": "BANK", "kind": "auto", "high_volts": 345000, "high": "1_NORTH_345", "low_volts": 138000}
        bank |= {"low": "2_NORTH_138", "series_resistance": 200000, "common_resistance": 100000}
        for status, letters, expected in (
            (3, "YNa0yn0", bank),
            (3, "YNa0y0", bank),
            (2, "YNa0yn0", None),
            (4, "YNa0d1", None),
        ):
            raw = RAW.replace("'BANK',1", f"'BANK',{status}")
            made = self.case([*self.words(raw, GIC.replace("YNa0yn0", letters)), "--beyond=leave", "--force"])
            self.assertEqual(made["transformer"].get("BANK"), expected, (status, letters))
            words = "side of the autotransformer is out of service, and all of it is left out"
            self.assertEqual(words in "".join(self.shown), expected is None, (status, letters))
        # The bus of a winding that is out may be isolated.
        raw = RAW.replace("'BANK',1", "'BANK',3").replace("3,'NORTH 13 ',13.8,1", "3,'NORTH 13 ',13.8,4")
        made = self.case([*self.words(raw), "--beyond=leave", "--force"])
        self.assertEqual(made["transformer"].get("BANK"), bank)

    def test_letters_of_buses_stand_in_the_order_of_their_own_record(self) -> None:
        # The same unit from its other bus in the file of resistances: its first letter is that of bus 6 by the buses.
        gic = GIC.replace("4,6,0,'1 ',0.3,0.1,0.0,0,0,0,'YNd1'", "6,4,0,'1 ',0.1,0.3,0.0,0,0,0,'Dyn1'")
        made = self.case([*self.words(gic=gic), "--beyond=leave", "--vector=buses"])
        unit = made["transformer"]["T4-6-1"]
        self.assertEqual((unit["high"], unit["high_volts"], unit["high_resistance"]), ("4_SOUTH_A", 345000, 300000))
        lines = self.refused(*self.words(gic=gic), "--beyond=leave", "--force")
        self.assertIn("can be read in two ways", lines[0])

    def test_a_status_that_is_none(self) -> None:
        for name, status, is_taken in (("BANK", 4, True), ("BANK", 5, False), ("SPARE", 2, False)):
            old = 0 if name == "SPARE" else 1
            words = self.words(RAW.replace(f"'{name}',{old}", f"'{name}',{status}"))
            if is_taken:
                self.case([*words, "--beyond=leave"])
                self.out.unlink()
                continue
            lines = [line for line in self.refused(*words, "--beyond=leave", "--force") if ", ST" in line]
            self.assertEqual(len(lines), 1)
            self.assertIn(f"ST: it is {status}, and not 0 or 1, nor for a unit of three buses 2, 3 or 4", lines[0])

    def test_more_rows_than_a_case_has(self) -> None:
        with mock.patch.dict(cases.MOST_ROWS_3, {"bus": 3}):
            (line,) = self.refused(*self.words(), "--beyond=leave")
        self.assertIn("net.raw: a case of it has 4 rows bus, and at most 3", line)

    def test_a_resistance_of_0_ends_no_section(self) -> None:
        made = self.case([*self.words(), "--beyond=leave"])
        raw = RAW.replace("\n0.001,0.02,100\n", "\n0,0.02,100\n")
        self.assertEqual(self.case([*self.words(raw), "--beyond=leave", "--force"]), made)
        raw = RAW.replace("0 / END OF TRANSFORMER DATA, ", "0, END OF TRANSFORMER DATA, ")
        self.assertEqual(self.case([*self.words(raw), "--beyond=leave", "--force"]), made)

    def test_reactors_of_a_branch_within_a_substation(self) -> None:
        tie = "1,4,'1 ',3.25,0.0,0.0,0.0,0.0\n4,5,'1 ',0.0,0.0,0.0,1.5,0.0\n"
        words = self.words(gic=GIC.replace("1,4,'1 ',3.25,0.0,0.0,0.0,0.0\n", tie))
        reactor = {"name": "L4-5-1_4", "kind": "reactor", "high_volts": 345000, "high": "4_SOUTH_A"}
        made = self.case([*words, "--beyond=model"])["transformer"]
        self.assertEqual(made["L4-5-1_4"], reactor | {"high_resistance": 1500000})
        self.case([*words, "--beyond=leave", "--force"])
        self.assertIn("the reactor of L4-5-1 at the bus 4 is left out", "".join(self.shown))

    def test_what_has_no_key_is_refused_without_a_choice(self) -> None:
        ways = "--beyond=leave leaves it out, --beyond=model writes a case of format 3, which has one"
        self.told(
            self.words(),
            f"net.raw line 25: the third grounded winding of BANK, at the bus 3, has no key in a case of format 2; {ways}",
            f"net.gic line 18: the reactor 7 '1' has no key in a case of format 2; {ways}",
        )


class Groups(PsseTest):
    """How vector groups become kinds; the unit is the one at the buses 4 and 6."""

    def unit(self, *changes: tuple[str, str], words: tuple[str, ...] = ()) -> dict[str, object]:
        raw, gic = RAW, GIC
        for before, after in changes:
            self.assertTrue((before in raw) != (before in gic), before)
            raw, gic = raw.replace(before, after), gic.replace(before, after)
        return self.case([*self.words(raw, gic), "--beyond=leave", "--force", *words])["transformer"]["T4-6-1"]

    RECORD = "0.3,0.1,0.0,0,0,0,'YNd1',1,0.6,2.5"

    def test_kinds(self) -> None:
        delta_wye = {"name": "T4-6-1", "kind": "delta-wye"}
        high = {"high_volts": 345000, "high": "4_SOUTH_A", "high_resistance": 300000}
        low = {"low_volts": 138000, "low": "6_SOUTH_LV", "low_resistance": 100000}
        auto = {"name": "T4-6-1", "kind": "auto", "high_volts": 345000, "high": "4_SOUTH_A", "low_volts": 138000}
        auto |= {"low": "6_SOUTH_LV", "series_resistance": 300000, "common_resistance": 100000}
        own_low = {"high_volts": 138000, "high": "6_SOUTH_LV", "high_resistance": 100000}
        listed = {"name": "T4-6-1", "kind": "delta-delta", "high_volts": 345000}
        for record, expected in (
            ("0.3,0.1,0.0,1,0,0,'YNd1',1,0.6,0.0", delta_wye | high | {"neutral": "blocked"}),
            ("0.3,0.1,0.0,0,0,0,'YNyn0',1,0.6,0.0", {"name": "T4-6-1", "kind": "wye-wye"} | high | low),
            ("0.3,0.1,0.0,0,0,0,'YNyn0d1',1,0.6,0.0", {"name": "T4-6-1", "kind": "wye-wye"} | high | low),
            ("0.3,0.1,0.0,0,0,0,'YNy0',1,0.6,0.0", delta_wye | high),
            ("0.3,0.1,0.0,0,0,0,'Dyn11',1,0.6,0.0", delta_wye | own_low),
            ("0.3,0.1,0.0,1,0,0,'YNyn0',1,0.6,0.0", delta_wye | own_low),
            ("0.3,0.1,0.0,1,1,0,'YNyn0',1,0.6,0.0", {"name": "T4-6-1", "kind": "wye-wye"} | high | low | {"neutral": "blocked"}),
            ("0.3,0.1,0.0,0,0,0,'YNa0d1',1,0.6,0.0", auto),
            ("0.3,0.1,0.0,0,1,0,'YNa0',1,0.6,0.0", auto | {"neutral": "blocked"}),
            ("0.3,0.1,0.0,0,0,0,'Ya0',1,0.6,0.0", auto | {"neutral": "blocked"}),
            ("0.3,0.1,0.0,0,0,0,'YNa0',1,0.6,1.5", auto | {"neutral": 1500000}),
            ("0.3,0.1,0.0,0,0,0,'Yd1',1,0.6,0.0", listed),
            ("0.3,0.1,0.0,0,0,0,'Dd0',1,0.6,0.0", listed),
        ):
            self.assertEqual(self.unit((self.RECORD, record)), expected, record)

    def test_the_order_of_the_letters(self) -> None:
        # The low bus is bus I: by volts YN is of the bus 4, by buses of the bus 6.
        turned = (("4,6,0,'1 ',1,1", "6,4,0,'1 ',1,1"), (f"4,6,0,'1 ',{self.RECORD}", f"6,4,0,'1 ',{self.RECORD}"))
        raw, gic = RAW.replace(*turned[0]), GIC.replace(*turned[1])
        ways = "--vector=volts takes the first letters for the highest voltage, --vector=buses for bus I"
        self.told(
            [*self.words(raw, gic), "--beyond=leave"],
            'net.gic line 16, VECGRP: "YNd1" can be read in two ways: bus I isn\'t the one of the highest voltage; '
            + ways,
        )
        for order, bus, ohm in (("volts", "4_SOUTH_A", 100000), ("buses", "6_SOUTH_LV", 300000)):
            words = [*self.words(raw, gic), "--beyond=leave", f"--vector={order}", "--force"]
            unit = self.case(words)["transformer"]["T6-4-1"]
            self.assertEqual((unit["high"], unit["high_resistance"]), (bus, ohm))

    def test_letters(self) -> None:
        for vector, letters in (
            ("YNd1", ["YN", "D"]),
            ("YNyn0d11", ["YN", "YN", "D"]),
            ("YNa0yn0", ["YN", "A", "YN"]),
            ("D yn 11", ["D", "YN"]),
            ("Dzn0", None),
            ("", None),
            ("wye", None),
        ):
            self.assertEqual(letters_of(vector), letters, vector)


class Refusals(PsseTest):
    def one(self, before: str, after: str, *expected: str) -> None:
        """One change of one of the two files is refused so."""
        self.assertTrue((before in RAW) != (before in GIC), before)
        self.told([*self.words(RAW.replace(before, after), GIC.replace(before, after)), "--beyond=leave"], *expected)

    def test_fields(self) -> None:
        write = "write ohm a phase"
        number = "write one with a decimal point"
        self.one("2,'NORTH 138',138.0", "2,'NORTH 138',abc", f'net.raw line 5, BASKV: "abc" is no number; {number}')
        self.one(
            "2,'SOUTH',0,49.0", "2,'SOUTH',1,49.0", "net.gic line 3, UNIT: it is 1; degrees are read, which is 0"
        )
        degrees = "and not -90 to 90 degrees"
        self.one("2,'SOUTH',0,49.0", "2,'SOUTH',0,94.0", f"net.gic line 3, LATITUDE: it is 94.0, {degrees}")
        self.one("2,'SOUTH',0,49.0", "2,'SOUTH',0,1e999", f"net.gic line 3, LATITUDE: it is 1e999, {degrees}")
        # At the mean of 50 and 60 degrees a degree has 111.133 - 0.56 cos 110 = 111.3245 km.
        words = "its ends lie 1113.245 km apart to the north, and not up to 1000; look at the coordinates of"
        self.one(
            "2,'SOUTH',0,49.0",
            "2,'SOUTH',0,60.0",
            f"net.raw line 18: {words} NORTH and SOUTH",
            f"net.raw line 21: {words} SOUTH and EAST STATION",
        )
        half = "it is 0, which means: take it from the power flow; --windings=half takes half of R1-2 for each winding, or "
        half += "write ohm a phase"
        ground = "it is 0, which programs take in different ways; write its ohm, or give --ungrounded=0 where it has no ground"
        self.one("-100.0,0.2,''", "-100.0,0,''", f"net.gic line 2, RG: {ground}")
        self.one("3.25,0.0", "3250000,0.0", f"net.gic line 21, RBRN: it is 3250000 ohm, and not 0.001 to 1000; {write}")
        self.one("'1 ',0.3,0.1", "'1 ',0.0,0.1", f"net.gic line 16, WRI: {half}")
        allowed = "allowed are groups of YN, Y, D, Z and A, as YNd1, YNyn0 and YNa0d1"
        self.one("'YNd1'", "'wye'", f'net.gic line 16, VECGRP: "wye" is no vector group; {allowed}')
        words = "it is 2; allowed are 0, and 1 for a blocking device"
        self.one("0.3,0.1,0.0,0,0", "0.3,0.1,0.0,2,0", f"net.gic line 16, GICBDI: {words}")

    def test_what_one_file_has_and_the_other_has_not(self) -> None:
        self.one("6,2\n", "", "net.raw line 30: the bus 6 is in no substation of net.gic; write its record there")
        words = "there is no substation 4 in this file; write its record"
        self.one("6,2\n", "6,4\n", f"net.gic line 11, SUBSTATION: {words}")
        words = "the transformer 4-6 '1' has no record in net.gic; write it there"
        self.one("4,6,0,'1 ',0.3", "4,6,0,'2 ',0.3", f"net.raw line 30: {words}")
        self.one("1,-7,'1 '", "1,-9,'1 '", "net.raw line 19: there is no bus 9 in net.raw; write its record")
        words = "there is no fixed shunt of this bus and id in net.raw; write it there"
        self.one("7,'1 ',1.5", "7,'3 ',1.5", f"net.gic line 18: {words}")
        words = "the transformer 4-6 '1' has buses in different substations; a station is one of net.gic"
        self.one("6,2\n", "6,1\n", f"net.raw line 30: {words}")

    def test_what_stands_twice(self) -> None:
        one = "leave one of the two"
        self.one("2,'NORTH 138'", "1,'NORTH 138'", f"net.raw line 5, I: the bus 1 stands in line 4 already; {one}")
        words = f"these buses and this circuit stand in line 21 already; {one}"
        self.one("5,7,'2 '", "7,5,'1 '", f"net.raw line 22: {words}")
        self.one("1,2,3,'1 ',0.2", "6,4,0,'1 ',0.2", "net.gic line 16: " + words.replace("21", "15"))
        words = f"these buses and this circuit stand in line 18 already; {one}"
        self.one("7,'2 ',1.5", "7,'1 ',1.5", f"net.gic line 19: {words}")
        self.one("7,'2 ',0,0.0", "7,'1 ',0,0.0", f"net.raw line 15: {words.replace('18', '14')}")
        words = f"net.gic line 3, I: the substation 1 stands in line 2 already; {one}"
        lines = self.refused(*self.words(gic=GIC.replace("2,'SOUTH'", "1,'SOUTH'")))
        self.assertTrue(any(line.endswith(words) for line in lines), lines)

    def test_other_files(self) -> None:
        self.told(
            self.words(raw="time,north,east\n", gic="hello\n", zones="zone;beta\n"),
            "net.raw line 1: the first line isn't IC, SBASE, REV, ..; is it another file, or a binary one? Save it as "
            ".raw",
            "net.gic line 1: the first line isn't GICFILEVRSN=..; is it another file?",
            'zones.csv line 1: it has no column name, geomagnetic_latitude, and "zone" is none of its columns; allowed '
            "are name,geomagnetic_latitude,beta, and alpha,earth_model,note",
        )
        words = "the version is 23; 30 to 36 are read. Save it as one of these"
        self.told(self.words(raw=RAW.replace(" 33,", " 23,")), f"net.raw line 1, REV: {words}")
        (line,) = self.refused(*self.words(raw=RAW.replace(" 33,", " 3\u00b2,")))  # a raised 2 is no digit
        self.assertIn("the first line isn't IC, SBASE, REV, ..", line)

    def test_zones(self) -> None:
        heads = "name,geomagnetic_latitude,beta\n"
        self.told(
            self.words(zones=f"{heads}a b,60,0.81\nnorth,6000,0.81\nnorth,57.123,1.6\n"),
            'zones.csv line 2, name: "a b" is no name of a case; allowed are 1 to 32 letters, digits and _ - .',
            "zones.csv line 3, geomagnetic_latitude: it is 6000, and not 0 to 90 degrees; is it in hundredths, or a southern "
            "one with its sign?",
            "zones.csv line 4, name: north stands in the table already; leave one of the two",
            "zones.csv line 4, beta: it is 1.6, and not 0.01 to 1.5 as a factor; is it in hundredths?",
        )
        self.told(
            self.words(zones=f"{heads}north,57.123,0.81\n"),
            "zones.csv line 2, geomagnetic_latitude: it is 57.123, and a case has two decimals of it; round it the way that "
            "you mean, or choose --alpha=formula or a number",
        )
        two = f"{heads}north,60,0.81\nsouth,50,0.81\n"
        words = [*self.words(zones=two), "--beyond=leave"]
        table = "write it into the table of --substations, or give --polygons"
        self.told(
            words,
            f"net.gic line 2: the substation 1 has no zone; {table}",
            f"net.gic line 3: the substation 2 has no zone; {table}",
            f"net.gic line 4: the substation 3 has no zone; {table}",
        )
        stations = self.file("stations.csv", "substation,zone\n1,north\n2,south\n3,north\n22,south\n")
        self.told(
            [*words, f"--substations={stations}"],
            "net.raw line 18: its ends are in north and in south; give --polygons, which cut it at the border, or write its zone into "
            "the table of --lines",
            "net.raw line 21: its ends are in south and in north; give --polygons, which cut it at the border, or write its zone into "
            "the table of --lines",
        )
        heads = "bus_i,bus_j,circuit,zone,north_km,east_km\n"
        lines = self.file("lines.csv", f"{heads}4,1,1,north,,\n5,7,1,south,110.5,72\n")
        case = self.case([*words, f"--substations={stations}", f"--lines={lines}"])
        told = "stations.csv line 5: there is no substation 22 in net.gic: this row is of none"
        self.assertIn(told, [line.replace(f"{self.folder}/", "") for line in self.shown])
        found = {name: (row["zone"], row["north"], row["east"]) for name, row in case["line"].items()}
        self.assertEqual(
            found,
            {"L1-4-1": ("north", -111221, 0), "L1-7-1": ("north", 0, 71696), "L5-7-1": ("south", 110500, 72000)},
        )

    def test_zones_as_polygons(self) -> None:
        words = [*self.words(zones="name,geomagnetic_latitude,beta\nnorth,60,0.81\nsouth,50,0.81\n"), "--beyond=leave"]
        heads = "zone,latitude,longitude\n"
        # The border is the parallel of 49.5 degrees: the stations 1 and 3 lie in the north, and 2 in the south.
        north = "north,49.5,-101\nnorth,51,-101\nnorth,51,-98\nnorth,49.5,-98\n"
        south = "south,48,-101\nsouth,49.5,-101\nsouth,49.5,-98\nsouth,48,-98\n"
        lines = self.file("lines.csv", "bus_i,bus_j,circuit,zone,north_km,east_km\n4,1,1,south,,\n5,7,1,north,,\n")
        polygons = self.file("polygons.csv", heads + north + south)
        case = self.case([*words, f"--polygons={polygons}", f"--lines={lines}"])
        found = {name: row["zone"] for name, row in case["line"].items()}
        self.assertEqual(found, {"L1-4-1": "south", "L1-7-1": "north", "L5-7-1": "north"})
        for made in (self.out, self.out.with_suffix(".names.csv")):
            made.unlink()
        self.told(
            [*words, f"--polygons={self.file('p.csv', heads + north)}"],
            "net.gic line 3: it lies at 49.0, -100.0, in no polygon; widen one, or look at its coordinates",
        )
        table = heads + north + "south,48,-101\nx,48,-100\n"
        self.told(
            [*words, f"--polygons={self.file('p.csv', table)}"],
            'p.csv line 7, zone: "x" is none of north, south; write one of these',
            "p.csv: south has 1 corner; a polygon has 3 or more, a row for each",
        )
        overlapping = heads + north + north.replace("north", "south")
        self.told(
            [*words, f"--polygons={self.file('p.csv', overlapping)}"],
            "net.gic line 2: it lies at 50.0, -100.0, in north and in south; let these polygons not overlap",
            "net.gic line 3: it lies at 49.0, -100.0, in no polygon; widen one, or look at its coordinates",
            "net.gic line 4: it lies at 50.0, -99.0, in north and in south; let these polygons not overlap",
        )

    NORTH = "north,49.5,-101\nnorth,51,-101\nnorth,51,-98\nnorth,49.5,-98\n"
    SOUTH = "south,48,-101\nsouth,49.5,-101\nsouth,49.5,-98\nsouth,48,-98\n"
    TWO = "name,geomagnetic_latitude,beta\nnorth,60,0.81\nsouth,50,0.81\n"

    def border_words(self, lines: str = "") -> list[object]:
        """The words with the parallel of 49.5 degrees as a border: half of the line from 1 to 4 lies on either side."""
        polygons = self.file("polygons.csv", "zone,latitude,longitude\n" + self.NORTH + self.SOUTH)
        table = self.file("lines.csv", "bus_i,bus_j,circuit,zone,north_km,east_km\n" + lines)
        return [*self.words(zones=self.TWO), "--beyond=leave", f"--polygons={polygons}", f"--lines={table}"]

    def test_a_line_over_a_border_is_in_parts_and_told(self) -> None:
        case = self.case(self.border_words(), 3)
        # 111221 m to the south, of which half lies on either side.
        self.assertEqual(
            case["line"]["L1-4-1"],
            {"name": "L1-4-1", "from": "1_NORTH_345", "to": "4_SOUTH_A", "resistance": 3250000}
            | {"part": [{"zone": "north", "north": -55610, "east": 0}, {"zone": "south", "north": -55611, "east": 0}]},
        )
        # A series capacitor has the zone where it begins, as in `case`.
        self.assertEqual([case["line"][name]["zone"] for name in ("L1-7-1", "L5-7-1")], ["north", "south"])
        words = "the branch 1-4 '1' crosses borders: north to 55.6 km, south to 111.2 km; it has 2 parts"
        self.assertIn(f"net.raw line 18: {words}", [line.replace(f"{self.folder}/", "") for line in self.shown])

    @unittest.skipUnless(BUILT.is_file(), "no program is built")
    def test_the_voltage_of_a_line_over_a_border(self) -> None:
        """In 8 V/km to the north: its metres in each zone times alpha times beta there, by the table 1.0 at 60 degrees and 0.3
        at 50. In one zone alone it was another."""
        self.case(self.border_words(), 3)
        words = [str(BUILT), "volts", f"--case={self.out}", "--north=8000"]
        printed = subprocess.run(words, capture_output=True, text=True, check=True).stdout.splitlines()
        nanovolts = -8000 * (55610 * 10 * 81 + 55611 * 3 * 81)
        self.assertIn(f"line L1-4-1 {nanovolts}", printed)
        self.case([*self.border_words("4,1,1,south,,\n"), "--force"])
        printed = subprocess.run(words, capture_output=True, text=True, check=True).stdout.splitlines()
        self.assertIn(f"line L1-4-1 {-8000 * 111221 * 3 * 81}", printed)

    def test_a_line_over_a_border_that_is_written_in_one_zone_is_told(self) -> None:
        case = self.case(self.border_words("4,1,1,south,,\n1,7,1,south,,\n"))
        self.assertEqual([case["line"][name]["zone"] for name in ("L1-4-1", "L1-7-1")], ["south", "south"])
        told = [line.replace(f"{self.folder}/", "") for line in self.shown]
        words = "it is south, and by the polygons the line lies in"
        several = "several: north to 55.6 km, south to 111.2 km"
        self.assertIn(f"lines.csv line 2, zone: {words} {several}; leave the cell empty for parts", told)
        self.assertIn(f"lines.csv line 3, zone: {words} north; leave the cell empty", told)

    def test_a_table_of_substations_beside_polygons(self) -> None:
        """Where it has the zones of the polygons a line has parts all the same; where it has others they hold, and it is told."""
        both = self.file("both.csv", "substation,zone\n1,north\n2,south\n3,north\n")
        case = self.case([*self.border_words(), f"--substations={both}"], 3)
        self.assertEqual([part["zone"] for part in case["line"]["L1-4-1"]["part"]], ["north", "south"])
        both.write_text("substation,zone\n1,north\n2,north\n3,north\n")
        case = self.case([*self.border_words(), f"--substations={both}", "--force"])
        self.assertEqual(case["line"]["L1-4-1"]["zone"], "north")
        words = "it is in north by the table of --substations, and by the polygons in north and south; look at both"
        self.assertIn(f"net.raw line 18: {words}", [line.replace(f"{self.folder}/", "") for line in self.shown])

    def test_a_line_over_a_gap_between_polygons(self) -> None:
        words = self.border_words()
        self.file("polygons.csv", "zone,latitude,longitude\n" + self.NORTH + self.SOUTH.replace("49.5", "49.4"))
        fault = "a part of the line lies in no polygon"
        self.told(
            words, f"net.raw line 18: {fault}; mend the polygons, or write its zone into the table of --lines"
        )

    def test_a_span_whose_sign_is_turned_and_a_line_that_is_none(self) -> None:
        heads = "bus_i,bus_j,circuit,zone,north_km,east_km\n"
        words = [*self.words(), "--beyond=leave"]
        lines = self.file("lines.csv", f"{heads}4,1,1,,-111,0\n5,8,1,,,\n")
        self.told(
            [*words, f"--lines={lines}"],
            "lines.csv line 2, north_km: it is -111, by the coordinates 111.221; is its sign turned?",
            "lines.csv line 3, bus_i: there is no branch of these buses and this circuit in net.raw",
        )

    def test_both_files_are_there_already(self) -> None:
        words = [*self.words(), "--beyond=leave"]
        self.done(*words)
        lines = self.refused(*words)
        more = "it is there already; choose another name, or give --force to replace it"
        self.assertEqual(lines, [f"{self.folder}/case.toml: {more}", f"{self.folder}/case.names.csv: {more}"])
        for out in (".", "/"):
            (line,) = self.refused(*words[:-2], f"--out={out}", "--beyond=leave")
            self.assertEqual(line, f"{out}: it is there already, and no plain file; choose another name")


class Sections(PsseTest):
    """The line from 1 to 4 in three sections, with the buses 11 and 12 between them, and branches within a station."""

    RAW = (
        RAW.replace("8,'APART    ',345.0,4\n", "8,'APART    ',345.0,4\n11,'DUM A',345.0,1\n12,'DUM B',345.0,1\n")
        .replace(
            "1,4,'1 ',0.0025,0.03,0.1,0,0,0,0,0,0,0,1,1,0\n",
            "1,11,'1 ',0.0010,0.01,0.1,0,0,0,0,0,0,0,1,1,0\n11,12,'1 ',0.0020,0.01,0.1,0,0,0,0,0,0,0,1,1,0\n"
            "4,-12,'1 ',0.0004,0.01,0.1,0,0,0,0,0,0,0,1,1,0\n",
        )
        .replace("AREA DATA\n", "AREA DATA\n0 / END OF AREA DATA, BEGIN MULTI-SECTION LINE DATA\n1,-4,'&1',2,11,12\n")
    )
    GIC = GIC.replace("1,4,'1 ',3.25,", "11,12,'1 ',1.5,")

    def test_a_line_of_three_sections_is_one_line(self) -> None:
        case = self.case([*self.words(self.RAW, self.GIC), "--beyond=leave"])
        # 1.5 ohm by the .gic, and 0.0014 per unit on 100 MVA at 345 kV, which are 1.66635 ohm.
        expected = {"name": "M1-4-1", "from": "1_NORTH_345", "to": "4_SOUTH_A", "zone": "all", "resistance": 3166350}
        self.assertEqual(case["line"]["M1-4-1"], expected | {"north": -111221, "east": 0})
        self.assertEqual(sorted(case["line"]), ["L1-7-1", "L5-7-1", "M1-4-1"])
        told = "the line 1-4 '&1' has 3 sections: it is one line, and the buses 11, 12 between them are left out"
        self.assertIn(f"net.raw line 44: {told}", [line.replace(f"{self.folder}/", "") for line in self.shown])
        lines = self.file("lines.csv", "bus_i,bus_j,circuit,zone,north_km,east_km\n4,1,&1,,110.5,0.3\n")
        case = self.case([*self.words(self.RAW, self.GIC), "--beyond=leave", f"--lines={lines}", "--force"])
        self.assertEqual([case["line"]["M1-4-1"][way] for way in ("north", "east")], [-110500, -300])

    def test_sections_at_stations_stay_lines(self) -> None:
        gic = self.GIC.replace("8,3\n", "8,3\n11,3\n12,3\n")
        case = self.case([*self.words(self.RAW, gic), "--beyond=leave"])
        self.assertEqual(sorted(case["line"]), ["L1-11-1", "L1-7-1", "L11-12-1", "L4-12-1", "L5-7-1"])

    def test_a_section_with_a_capacitor_blocks_the_line(self) -> None:
        raw = self.RAW.replace("11,12,'1 ',0.0020,0.01", "11,12,'1 ',0.0,-0.01")
        case = self.case([*self.words(raw, GIC.replace("1,4,'1 ',3.25,", "8,7,'1 ',1,")), "--beyond=leave"])
        self.assertEqual(case["line"]["M1-4-1"]["blocked"], True)
        words = "M1-4-1 has a section of a negative X, which is a series capacitor: it is blocked"
        self.assertIn(f"net.raw line 44: {words}", [line.replace(f"{self.folder}/", "") for line in self.shown])

    def test_a_section_that_is_out_or_missing(self) -> None:
        raw = self.RAW.replace("11,12,'1 ',0.0020,0.01,0.1,0,0,0,0,0,0,0,1", "11,12,'1 ',0.0020,0.01,0.1,0,0,0,0,0,0,0,0")
        case = self.case([*self.words(raw, self.GIC), "--beyond=leave"])
        self.assertEqual(sorted(case["line"]), ["L1-7-1", "L5-7-1"])
        for made in (self.out, self.out.with_suffix(".names.csv")):
            made.unlink()
        raw = self.RAW.replace("'&1',2,11,12", "'&1',2,12,11")
        words = "which follow each other in this line; a section is one branch"
        self.told(
            [*self.words(raw, self.GIC), "--beyond=leave"],
            f"net.raw line 44: there is no branch between the buses 1 and 12, {words}",
            f"net.raw line 44: there is no branch between the buses 11 and 4, {words}",
        )

    TAP = "7,11,'1 ',0.0025,0.03,0.1,0,0,0,0,0,0,0,1,1,0\n"

    def test_a_branch_at_a_bus_between_sections(self) -> None:
        raw = self.RAW.replace("4,-12,'1 '", f"{self.TAP}4,-12,'1 '")
        self.told(
            [*self.words(raw, self.GIC), "--beyond=leave"],
            "net.raw line 22: it ends at a bus between two sections of a line; give that bus a substation",
        )
        raw = self.RAW.replace("4,-12,'1 '", f"{self.TAP.replace(',1,1,0', ',0,1,0')}4,-12,'1 '")
        self.assertIn("M1-4-1", self.case([*self.words(raw, self.GIC), "--beyond=leave"])["line"])

    def test_a_bus_between_sections_without_a_record(self) -> None:
        for buses, missing in (("11,'DUM A',345.0,1\n", "11"), ("12,'DUM B',345.0,1\n", "12")):
            raw = self.RAW.replace(buses, "")
            told = f"net.raw line 43: there is no bus {missing} in net.raw; write its record"
            self.told([*self.words(raw, self.GIC), "--beyond=leave"], told)

    def test_resistances_of_a_whole_line(self) -> None:
        """They are in its sections; a record of nothing but zeros says nothing."""
        words = "this record is of a line of several sections, and isn't used; write one for each section"
        for numbers in ("3.25,0.0,0.0,0.0,0.0", "0.0,0.0,0.0,1.5,0.0"):
            gic = self.GIC.replace("11,12,'1 ',1.5,", f"1,4,'&1',{numbers}\n11,12,'1 ',1.5,")
            for stations in (gic, gic.replace("8,3\n", "8,3\n11,3\n12,3\n")):
                line = 21 + stations.count("\n") - gic.count("\n")
                self.told([*self.words(self.RAW, stations), "--beyond=leave"], f"net.gic line {line}: {words}")
        gic = self.GIC.replace("11,12,'1 ',1.5,", "1,4,'&1',0.0,0.0,0.0,0.0,0.0\n11,12,'1 ',1.5,")
        self.assertIn("M1-4-1", self.case([*self.words(self.RAW, gic), "--beyond=leave"])["line"])

    def test_a_branch_of_a_resistance_within_a_station_is_a_line(self) -> None:
        # 3.84 ohm on 100 MVA at 345 kV are 0.00322621 per unit.
        raw = RAW.replace("4,5,'1 ',0.00008", "4,5,'1 ',0.00322621")
        case = self.case([*self.words(raw), "--beyond=leave"])
        line = case["line"]["L4-5-1"]
        self.assertEqual((line["resistance"], line["north"], line["east"]), (3839996, 0, 0))
        self.assertEqual({"4_SOUTH_A", "5_SOUTH_B"} - set(case["bus"]), set())
        told = "the branch 4-5 '1' of 3.8399964525 ohm lies within one substation: it is kept as a line, which has no span; "
        told += "if it leads to another one, mend the substation of a bus in net.gic"
        self.assertIn(f"net.raw line 20: {told}", [line.replace(f"{self.folder}/", "") for line in self.shown])


class Meant(PsseTest):
    """What several programs take in different ways, and what only one of the two files says."""

    def told_of(self, words: list[object]) -> list[str]:
        self.made = self.case([*words, "--force"])
        return [line.replace(f"{self.folder}/", "") for line in self.shown]

    def test_grounds_that_are_empty_0_and_99(self) -> None:
        words = [*self.words(), "--beyond=leave"]
        told = self.told_of([*words, "--blank-ground=0.5"])
        self.assertIn("net.gic line 4: EAST_STATION: RG is empty: 0.5 ohm are taken, by --blank-ground", told)
        self.assertEqual(self.made["substation"]["EAST_STATION"]["ground"], 500000)
        zero = [*self.words(gic=GIC.replace("-100.0,0.2,''", "-100.0,0,''")), "--beyond=leave"]
        self.assertEqual(
            [line.replace(f"{self.folder}/", "") for line in self.refused(*zero, "--force")],
            [
                "net.gic line 2, RG: it is 0, which programs take in different ways; write its ohm, or give --ungrounded=0 "
                "where it has no ground"
            ],
        )
        told = self.told_of([*zero, "--ungrounded=0"])
        self.assertIn("net.gic line 2: NORTH: RG is 0: it has no ground, by --ungrounded", told)
        self.assertEqual(self.made["substation"]["NORTH"], {"name": "NORTH"})
        many = [*self.words(gic=GIC.replace("-100.0,0.2,''", "-100.0,99.0,''")), "--beyond=leave"]
        way = "RG is 99.0 ohm; to some programs that is no ground: then give --ungrounded=99.0"
        self.assertIn(f"net.gic line 2: NORTH: {way}", self.told_of(many))
        self.assertEqual(self.made["substation"]["NORTH"]["ground"], 99000000)
        self.assertIn("net.gic line 2: NORTH: RG is 99.0: it has no ground, by --ungrounded", self.told_of([*many, "--ungrounded=99"]))
        self.assertEqual(self.made["substation"]["NORTH"], {"name": "NORTH"})

    def test_words_that_are_no_grounds(self) -> None:
        words = [*self.words(), "--beyond=leave"]
        self.told(
            [*words, "--blank-ground=none", "--ungrounded=x"],
            "--blank-ground=none: allowed are numbers from 0.001 to 1000, in ohm",
            "--ungrounded=x: allowed is a number, as 99: an RG that means no ground",
        )

    def test_windings_of_0_are_refused_or_have_half(self) -> None:
        # The bank's R1-2 is 0.001 per unit on 100 MVA at 345 kV: 1.19025 ohm, half of it 0.595125. The common winding of an
        # auto of 345/138 kV, which is n = 2.5, carries n - 1 times the current of the series one: 0.595125 / 2.25 = 0.2645.
        gic = GIC.replace("'1 ',0.2,0.1,0.05", "'1 ',0,0,0.05").replace("'1 ',0.3,0.1,0.0", "'1 ',0,0,0.0")
        words = [*self.words(gic=gic), "--beyond=leave"]
        way = "it is 0, which means: take it from the power flow; --windings=half takes half of R1-2 for each winding, or "
        way += "write ohm a phase"
        self.told(
            words, f"net.gic line 15, WRI: {way}; so also in line 16", f"net.gic line 15, WRJ: {way}"
        )
        told = self.told_of([*words, "--windings=half"])
        self.assertIn(
            "net.gic line 15, WRI: it is 0: 0.595125 ohm are taken, half of R1-2 of the power flow at 345 kV", told
        )
        self.assertIn(
            "net.gic line 15, WRJ: it is 0: 0.2645 ohm are taken, half of R1-2 of the power flow at 345 kV, over (2.5 - 1)²", told
        )
        units = self.made["transformer"]
        self.assertEqual([units["BANK"][key] for key in ("series_resistance", "common_resistance")], [595125, 264500])
        self.assertEqual(units["T4-6-1"]["high_resistance"], 595125)

    def test_half_by_the_ways_of_cz(self) -> None:
        """On the system's base, on the unit's own of 400 MVA, and as 476.1 kW of losses at 400 MVA, which are
        0.00119025 per unit."""
        for way, second, micro_ohm in (
            ("1", "0.001,0.02,400", 595125),
            ("2", "0.004,0.02,400", 595125),
            ("3", "476100,0.02,400", 177087),
        ):
            raw = RAW.replace("4,6,0,'1 ',1,1,1,0,0,2,'',1,1,1.0\n0.001,0.02,100", f"4,6,0,'1 ',1,{way},1,0,0,2,'',1,1,1.0\n{second}")
            gic = GIC.replace("'1 ',0.3,0.1,0.0", "'1 ',0,0,0.0")
            self.told_of([*self.words(raw, gic), "--beyond=leave", "--windings=half"])
            self.assertEqual(self.made["transformer"]["T4-6-1"]["high_resistance"], micro_ohm, way)

    def test_half_of_nothing_and_of_a_third_winding(self) -> None:
        raw = RAW.replace("1.0\n0.001,0.02,100\n1.0,0.0,0.0", "1.0\n0.0,0.02,100\n1.0,0.0,0.0", 1)
        gic = GIC.replace("0.2,0.1,0.05", "0.2,0.1,0.0").replace("'1 ',0.3,0.1,0.0", "'1 ',0,0,0.0")
        self.told(
            [*self.words(raw, gic), "--beyond=model", "--windings=half"],
            "net.gic line 15, WRK: it is 0, which means: take it from the power flow; --windings=half takes half of R1-2 for each "
            "winding, or write ohm a phase",
            "net.raw line 31, R1-2: there is no resistance in it of which a winding could have half; write WRI and WRJ in ohm",
        )

    def test_a_jumper_between_stations(self) -> None:
        raw = RAW.replace("1,-7,'1 ',0.0025,0.03", "1,-7,'1 ',0.0,0.0001")
        told = self.told_of([*self.words(raw), "--beyond=leave"])
        words = "has no resistance, and next to no reactance: it is taken as a jumper, of 0.001 ohm"
        self.assertIn(f"net.raw line 19: the branch 1-7 '1' {words}", told)
        self.assertEqual(self.made["line"]["L1-7-1"]["resistance"], 1000)
        self.assertEqual(self.made["line"]["L1-7-1"]["east"], 71696)
        for made in (self.out, self.out.with_suffix(".names.csv")):
            made.unlink()
        raw = RAW.replace("1,-7,'1 ',0.0025,0.03", "1,-7,'1 ',0.0,0.03")
        self.told(
            [*self.words(raw), "--beyond=leave"],
            "net.raw line 19, R: it is 0.00 ohm, and not 0.001 to 1000; write ohm a phase",
        )

    def test_two_wyes_that_join_transmission_voltages(self) -> None:
        raw = RAW.replace("2,'NORTH 138',138.0", "2,'NORTH 230',230.0").replace("1.0,138.0,0.0", "1.0,230.0,0.0")
        told = self.told_of([*self.words(raw, GIC.replace("YNa0yn0", "YNyn0d1")), "--beyond=leave"])
        words = "two earthed wyes of 345 and 230 kV: a unit that joins two voltages above 200 kV is mostly an autotransformer, as"
        self.assertIn(f"net.raw line 25: BANK: {words} YNa; look at its vector group", told)
        told = self.told_of([*self.words(gic=GIC.replace("YNa0yn0", "YNyn0d1")), "--beyond=leave"])
        self.assertNotIn("two earthed wyes", "".join(told))

    def test_factors_for_losses(self) -> None:
        gic = GIC.replace("'YNd1',1,0.6", "'YNd1',3,0.0")
        told = self.told_of([*self.words(gic=gic), "--beyond=leave", "--factors"])
        words = "2 of 2 units have a KFACTOR, or a CORE with a factor: they stand in the table of factors"
        self.assertIn(f"net.gic: {words}", told)
        table = self.out.with_suffix(".factors.csv").read_text()
        origin = "KFACTOR of the .gic, taken for the unit's own voltage"
        self.assertEqual(
            table,
            "transformer,mvar_per_ampere,at_kv,note\n"
            f"BANK,0.6,345,\"{origin}\"\n"
            "T4-6-1,0.29,500,CORE 3: published for three limbs of 500 kV\n",
        )
        findings: list[Finding] = []
        read = factors.read_factors(str(self.out.with_suffix(".factors.csv")), {"BANK": 345000, "T4-6-1": 345000}, findings)
        self.assertEqual(([], [factor.own for factor in read.values()]), (findings, [decimal.Decimal("0.6"), decimal.Decimal("0.2001")]))
        none = GIC.replace(",1,0.6,", ",0,0.0,")
        for made in self.folder.glob("case*"):
            made.unlink()
        self.told(
            [*self.words(gic=none), "--beyond=leave", "--factors"],
            "net.gic: no unit has a KFACTOR above 0 or a CORE of -1, 1, 3, 5, 7; leave out --factors, or give --core-factors",
        )

    STATIONS = (
        "0 / END OF AREA DATA, BEGIN SUBSTATION DATA\n1,'NORTH',50.0,-100.0,0.2\n"
        "1,'N1',1,1,1.0,0.0\n2,'N2',2,1,1.0,0.0\n3,'N3',3,1,1.0,0.0\n"
        "0 / END OF SUBSTATION NODE DATA, BEGIN SUBSTATION DATA\n2,'SOUTH',49.0,-100.0,0.3\n"
        "1,'S1',4,1,1.0,0.0\n2,'S2',5,1,1.0,0.0\n3,'S3',6,1\n"
        "0 / END OF SUBSTATION NODE DATA, BEGIN SUBSTATION DATA\n3,'EAST STATION',50.0,-99.0,\n1,'E1',7,1\n2,'E2',8,1\n"
        "0 / END OF SUBSTATION DATA\nQ\n"
    )

    def test_substations_of_version_35(self) -> None:
        """The same network with places, grounds and buses of stations in the .raw alone, and with the numbers of stations in
        both files."""
        expected = self.case([*self.words(), "--beyond=model"])
        raw = RAW.replace(" 33,", " 35,").replace("0 / END OF BUS DATA, BEGIN LOAD DATA", "0 / END OF BUS DATA, BEGIN LOAD DATA")
        raw = raw.replace("Q\n", self.STATIONS).replace("0,0,0,0,0,0,0,1,1,0", "'',0,0,0,0,0,0,0,0,0,0,0,0,0,0,0,0,1,1,0")
        raw = raw.replace("'',0,0,0,0,0,0,0,0,0,0,0,0,0,0,0,0,1,1,0\n1,8", "'',0,0,0,0,0,0,0,0,0,0,0,0,0,0,0,0,0,1,0\n1,8")
        raw = raw.replace("0.03,0.0,0,0,0,0,0,0,0,0,1,0", "0.03,0.0,'',0,0,0,0,0,0,0,0,0,0,0,0,0,0,0,0,0,1,0")
        head, rest = raw.split("second title\n")
        raw = f"{head}second title\n0 / END OF SYSTEM-WIDE DATA, BEGIN BUS DATA\n{rest}"
        alone = GIC[: GIC.index("1,'NORTH'")] + GIC[GIC.index("0 / END OF SUBSTATION DATA") :]
        alone = alone[: alone.index("1,1\n")] + alone[alone.index("0 / END OF BUS SUBSTATION") :]
        words = "substations, their places and SRG as their grounds are taken from here"
        told = self.told_of([*self.words(raw, alone), "--beyond=model"])
        self.assertEqual((self.made, f"net.raw: {words}" in told), (expected, True))
        numbers = GIC.replace("1,'NORTH',0,50.0,-100.0,0.2,''", "1,'',0,,,,''")
        told = self.told_of([*self.words(raw, numbers), "--beyond=model"])
        place = "it has no place here: that of the power flow is taken, and its SRG"
        self.assertEqual((self.made, f"net.gic line 2: {place}" in told), (expected, True))
        apart = GIC.replace("1,'NORTH',0,50.0,", "1,'NORTH',0,50.2,")
        told = self.told_of([*self.words(raw, apart), "--beyond=model"])
        where = "it lies at 50.2, -100.0, and in the power flow at 50.0, -100.0; look at both"
        self.assertIn(f"net.gic line 2: {where}", told)


class Nodes(unittest.TestCase):
    def test_a_substation_at_whole_degrees_is_no_node(self) -> None:
        """Its latitude may be the number of a bus."""
        rows = [["1", "NORTH", "50", "-100", "0.2"], ["1", "N1", "50", "1"], ["2", "SOUTH", "50", "2", "0.3"], ["1", "S1", "51", "0"]]
        findings: list[Finding] = []
        found = read_stations("net.raw", [SectionLine(place, row, []) for place, row in enumerate(rows, 1)], {50, 51}, findings)
        self.assertEqual((findings, found.station_of), ([], {50: 1, 51: 2}))
        self.assertEqual({number: station.name for number, station in found.stations.items()}, {1: "NORTH", 2: "SOUTH"})
        for row in (["1", "N1", "52", "1"], ["1", "N1", "x", "1"], ["1", "N1", "50", "9"], ["1", "N1", "50"]):
            self.assertFalse(is_node(row, {50}), row)
        for row in (["1", "N1", "50", "1"], ["1", "N1", "50", "1", ""], ["1", "N1", "50", "0", "1.02", "-3.1"]):
            self.assertTrue(is_node(row, {50}), row)

    def test_a_substation_on_the_meridian_is_no_node(self) -> None:
        """Its longitude may be a status: its ground tells it, or the names of columns do."""
        self.assertFalse(is_node(["3", "MERIDIAN", "50", "1", "0.2"], {50}))
        columns = {"S": ["IS", "NAME", "LATI", "LONG", "SRG"], "N": ["NI", "NAME", "I", "ST", "VM", "VA"]}
        rows = (("S", "1 NORTH 50 1"), ("N", "1 N1 50 1"), ("S", "2 SOUTH 51 0"), ("N", "1 S1 51 0"))
        lines = [SectionLine(place, row.split(" "), columns[kind]) for place, (kind, row) in enumerate(rows, 1)]
        findings: list[Finding] = []
        found = read_stations("net.raw", lines, {50, 51}, findings)
        self.assertEqual((findings, found.station_of, set(found.stations)), ([], {50: 1, 51: 2}, {1, 2}))

    def test_names_of_columns_are_those_last_above_a_line(self) -> None:
        lines = [
            "@! IS,'NAME',LATI,LONG,SRG",
            "1,'NORTH',50,1",
            "@! BEGIN SUBSTATION NODE DATA",
            "@! NI,'NAME',I,STATUS,VM,VA",
            "@! of a second line, that a record doesn't have",
            "1,'N1',50,1",
        ]
        findings: list[Finding] = []
        read = read_sections("net.raw", lines, 1, Layout(["SUBSTATION"], {}, {}), findings)["SUBSTATION"]
        self.assertEqual([(line.number, line.named[0], len(line.named)) for line in read], [(2, "IS", 5), (6, "NI", 6)])


class Polygons(unittest.TestCase):
    def test_inside_outside_and_on_the_border(self) -> None:
        def places(*pairs: tuple[str, str]) -> list[Point]:
            return [(Fraction(north), Fraction(east)) for north, east in pairs]

        # An L: the square from 0 to 2 without its quarter to the north and the east.
        shape = Polygon("z", places(("0", "0"), ("0", "2"), ("1", "2"), ("1", "1"), ("2", "1"), ("2", "0")))
        turned = Polygon("z", shape.corners[::-1])
        for polygon in (shape, turned):
            for place in places(("0.5", "0.5"), ("1", "0.5"), ("1.999", "0.999"), ("0.5", "1.5")):
                self.assertTrue(polygon.inside(place), place)
            for place in places(("1.5", "1.5"), ("1", "2.5"), ("-0.1", "1"), ("2.1", "0.5"), ("0", "-1"), ("1", "-1")):
                self.assertFalse(polygon.inside(place) or polygon.on_border(place), place)
            for place in places(("0", "0"), ("1", "1"), ("1", "1.5"), ("1.5", "1"), ("0", "1"), ("2", "0.5")):
                self.assertTrue(polygon.on_border(place) and not polygon.inside(place), place)


class Fields(unittest.TestCase):
    def test_a_line(self) -> None:
        for line, fields in (
            ("1,'BUS, 1  ', 345.0,, 1 / it's a comment", ["1", "BUS, 1", "345.0", "", "1"]),
            ("1 'BUS 1'  345.0\t1", ["1", "BUS 1", "345.0", "1"]),
            ("0 / END OF BUS DATA, BEGIN LOAD DATA", ["0"]),
            ("1,'it/s'", ["1", "it/s"]),
            ("1,'no end", None),
        ):
            self.assertEqual(fields_of(line), fields, line)


if __name__ == "__main__":
    unittest.main()
