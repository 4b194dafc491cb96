"""`gicdesk losses`: what units draw by direction and over a storm, and as loads of a power flow."""

import csv
import io
import math
import subprocess
import tomllib
import unittest
from typing import Any
from unittest import mock

import plain
from shared import BUILT, EXAMPLES, TESTS, DeskTest

from gicdesk.findings import Finding
from gicdesk.forms import Interval
from gicdesk.losses import magnitude
from gicdesk.psse_text import Layout, read_sections
from gicdesk.study import Runs

FACTORS = "transformer,mvar_per_ampere,at_kv\nKS-A2,1.18,\nEM-T1,0.29,345\n"


class Magnitudes(unittest.TestCase):
    def test_the_absolute_value_of_an_interval(self) -> None:
        for low, high, expected in ((2, 5, (2, 5)), (-5, -2, (2, 5)), (-5, 2, (0, 5)), (0, 3, (0, 3))):
            self.assertEqual(magnitude(Interval(low, high)), Interval(*expected))


@unittest.skipUnless(BUILT.is_file(), "no program is built")
class Losses(DeskTest):
    def made(self, *words: object) -> dict[str, list[dict[str, str]]]:
        out = self.folder / "out"
        self.told = self.done("losses", *words, f"--program={BUILT}", f"--out={out}", "--force")
        return {path.stem: list(csv.DictReader(io.StringIO(path.read_text()))) for path in out.glob("*.csv")}

    def test_by_direction_against_a_plain_solver(self) -> None:
        tables = self.made(EXAMPLES / "region.toml", f"--factors={self.file('factors.csv', FACTORS)}")
        case = tomllib.loads((EXAMPLES / "region.toml").read_text())
        alphas = {5730: 0.8, 5540: 0.6}  # of the program's table, for the latitudes of the region
        scales = {row["name"]: alphas[row["latitude"]] * row["beta"] / 100 for row in case["zone"]}
        currents = plain.effective_currents(case, scales.__getitem__, 8.0)
        # 1.18 Mvar an ampere for 500 kV is 0.69 of it for a unit of 345 kV.
        own = {"KS-A2": 1.18 * 345 / 500, "EM-T1": 0.29}
        self.assertEqual(len(tables["losses"]), 2 * 12)
        for row in tables["losses"]:
            angle = math.radians(int(row["bearing_degrees"]))
            north, east = currents[row["transformer"]]
            drawn = own[row["transformer"]] * abs(math.cos(angle) * north + math.sin(angle) * east)
            self.assertLessEqual(float(row["low_Mvar"]), drawn + 1e-6, row)
            self.assertGreaterEqual(float(row["high_Mvar"]), drawn - 1e-6, row)
            self.assertLess(float(row["high_Mvar"]) - float(row["low_Mvar"]), 0.01, row)
        self.assertEqual({row["bus"] for row in tables["buses"]}, {"Kestrel-345", "Elmstead-345"})
        self.assertEqual({row["number"] for row in tables["buses"]}, {""})
        self.assertIn("losses in a field of 8.000 V/km by its bearing", self.told)

    def test_over_a_storm_by_step(self) -> None:
        storm = EXAMPLES / "region_storm.csv"
        tables = self.made(EXAMPLES / "region.toml", f"--factors={self.file('factors.csv', FACTORS)}", f"--storm={storm}")
        words = [str(BUILT), "series", f"--case={EXAMPLES / 'region.toml'}", f"--storm={storm}", "--transformer=EM-T1"]
        printed = subprocess.run(words, capture_output=True, text=True, check=True).stdout.splitlines()
        steps = [line.split(" ") for line in printed if line.startswith("step ")]
        rows = [row for row in tables["steps"] if row["transformer"] == "EM-T1"]
        self.assertEqual([row["time_s"] for row in rows], [words[3] for words in steps])
        for row, (*_, low, high) in zip(rows, steps):
            greatest = 0.29 * max(abs(int(low)), abs(int(high))) / 1000
            self.assertLess(abs(float(row["high_Mvar"]) - greatest), 0.0011, row)

    def test_a_block_of_loads_reads_back(self) -> None:
        """The region by the files of a power flow: the block stands in the section of loads, and its buses and Mvar are those
        of the table of buses."""
        pair, case = TESTS / "pair", self.folder / "made.toml"
        files = [pair / "region.raw", pair / "region.gic", f"--zones={pair / 'zones.csv'}", f"--lines={pair / 'lines.csv'}"]
        self.done("psse", *files, "--alpha=table", "--factors", f"--out={case}")
        given = [f"--factors={self.folder / 'made.factors.csv'}", f"--names={self.folder / 'made.names.csv'}"]
        tables = self.made(case, *given)
        layout = Layout(["BUS", "LOAD", "FIXED SHUNT"], {"LOAD": "I ID STATUS AREA ZONE PL QL IP IQ"}, {"LOAD": "I"})
        for bearing in (0, 90):
            block = (self.folder / "out" / f"loads_{bearing:03}.raw").read_text()
            head, rest = (pair / "region.raw").read_text().split("0 / END OF LOAD DATA")
            findings: list[Finding] = []
            lines = f"{head}{block}0 / END OF LOAD DATA{rest}".split("\n")
            loads = [line.fields for line in read_sections("net.raw", lines, 4, layout, findings)["LOAD"]]
            self.assertEqual(findings, [])
            expected = [row for row in tables["buses"] if row["bearing_degrees"] == str(bearing) and float(row["high_Mvar"]) > 0]
            self.assertTrue(expected)
            self.assertEqual([(load[0], load[8]) for load in loads], [(row["number"], row["high_Mvar"]) for row in expected])
            self.assertEqual({(load[1], load[2], float(load[6])) for load in loads}, {("GI", "1", 0.0)})
            self.assertEqual({(load[3], load[4], load[11], len(load)) for load in loads}, {("", "", "", 13)})
        sums = {row["number"]: 0.0 for row in tables["losses"]}
        for row in tables["losses"]:
            if row["bearing_degrees"] == "90":
                sums[row["number"]] += float(row["high_Mvar"])
        for row in tables["buses"]:
            if row["bearing_degrees"] == "90":
                self.assertAlmostEqual(float(row["high_Mvar"]), sums[row["number"]], 6)

    def test_tables_of_another_case(self) -> None:
        names = self.file("names.csv", "list,name,numbers\nbus,Kestrel-345,109\n")
        factors = self.file("factors.csv", FACTORS + "OR-L1,1,\n")
        lines = self.refused(
            "losses", EXAMPLES / "region.toml", f"--factors={factors}", f"--names={names}", f"--program={BUILT}",
            f"--out={self.folder / 'none'}",
        )  # fmt: skip
        self.assertEqual(
            lines,
            [
                f"{factors}: OR-L1 has no winding in the network, so it draws nothing; leave it out",
                f"{names}: it has no bus Elmstead-345; is it the table of another case?",
            ],
        )

    def test_tables_are_read_in_front_of_the_screen(self) -> None:
        """Those of a case without transformers too."""
        text = (EXAMPLES / "region.toml").read_text()
        bare = self.file("bare.toml", text[: text.index("[[transformer]]")])
        asked = []

        def report(runs: Runs, kind: type[Any], name: str, mode: str, *words: str) -> Any:
            asked.append(mode)
            return given(runs, kind, name, mode, *words)

        given, words = Runs.report, [f"--program={BUILT}", f"--out={self.folder / 'none'}"]
        with mock.patch.object(Runs, "report", report):
            for case, name in ((bare, "KS-A2"), (EXAMPLES / "region.toml", "KS-A9")):
                factors = self.file("factors.csv", f"transformer,mvar_per_ampere,at_kv\n{name},1,\n")
                (line,) = self.refused("losses", case, f"--factors={factors}", *words)
                self.assertIn(f'line 2, transformer: "{name}" is no transformer of the case', line)
        self.assertEqual(asked, ["list", "list"])
