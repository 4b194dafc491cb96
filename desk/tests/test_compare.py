"""`gicdesk compare`: two reports beside each other."""

import csv
import os
import subprocess
import sys
import unittest

from shared import REPORTS, TOP, DeskTest

GICDESK = TOP / "desk" / "gicdesk"


def screen(*units: str, head: str = "width 100 threshold 75000 field 8000") -> str:
    """A screen; each unit is its name, the ends of its worst current and its verdict."""
    text = f"screen\n{head}\n"
    for unit in units:
        name, low, high, verdict = unit.split(" ")
        text += f"transformer {name} north 0 1 east 0 1 worst {low} {high} {verdict}\n"
    return text + "end\n"


class Output(DeskTest):
    def test_a_name_of_a_file_that_is_no_utf_8(self) -> None:
        before, after = (self.file(os.fsdecode(name), screen("T 1 2 below")) for name in (b"\xff.txt", b"after.txt"))
        self.assertIn(f"before: {self.folder}/\\udcff.txt: report screen", self.done("compare", before, after))
        before.unlink()
        (line,) = self.refused("compare", before, after)
        self.assertTrue(line.startswith(f"{self.folder}/\\udcff.txt: it can't be read (No such file"), line)

    def test_streams_that_are_closed(self) -> None:
        report = self.file("report.txt", screen("T 1 2 below"))
        for closed, status, out, err in (
            (">&-", 1, "", "gicdesk: the output: it can't be written (it is closed); see where the output goes\n"),
            ("2>&-", 1, "", ""),
        ):
            words = "none.txt" if closed == "2>&-" else str(report)
            command = ["sh", "-c", f'exec "$@" {closed}', "sh", sys.executable, str(GICDESK), "csv", words]
            done = subprocess.run(command, cwd=self.folder, capture_output=True, text=True, check=False)
            self.assertEqual((done.returncode, done.stdout, done.stderr), (status, out, err))


class Compare(DeskTest):
    def compared(self, before: str, after: str) -> list[dict[str, str]]:
        """The table of --out, of two reports with these texts."""
        out = self.folder / "changes.csv"
        out.unlink(missing_ok=True)
        self.shown = self.done(
            "compare", self.file("before.txt", before), self.file("after.txt", after), f"--out={out}"
        )
        with open(out, newline="") as file:
            return list(csv.DictReader(file))

    def test_the_change_is_an_interval_of_the_two(self) -> None:
        (row,) = self.compared(screen("T 10000 10003 below"), screen("T 20010 20017 below"))
        # Any two values from 10.000 to 10.003 and from 20.010 to 20.017 A lie 10.007 to 10.017 A apart.
        self.assertEqual(
            row,
            {
                "kind": "transformer",
                "name": "T",
                "before_low_A_per_phase": "10.000",
                "before_high_A_per_phase": "10.003",
                "before": "below",
                "after_low_A_per_phase": "20.010",
                "after_high_A_per_phase": "20.017",
                "after": "below",
                "change_low_A_per_phase": "10.007",
                "change_high_A_per_phase": "10.017",
                "crosses": "",
            },
        )
        self.assertIn("T            10.000 to 10.003  20.010 to 20.017  +10.007 to +10.017  below\n", self.shown)

    def test_the_greatest_change_comes_first(self) -> None:
        before = screen("A 10000 10001 below", "B 50000 50001 below", "C 20000 20001 below", "D 1 2 below")
        after = screen("A 12000 12001 below", "B 10000 10001 below", "C 50000 50001 below", "D 1 2 below")
        rows = self.compared(before, after)
        self.assertEqual([row["name"] for row in rows], ["B", "C", "A", "D"])
        self.assertIn("4 transformers in both reports: 3 changed for certain, 0 perhaps, 1 told alike\n", self.shown)
        self.assertNotIn("\nD ", self.shown)

    def test_which_way_the_threshold_is_crossed(self) -> None:
        words = {"below": "10 20", "undecided": "74990 75010", "reaches": "80000 80001", "outside": "10 20"}
        crossings = {
            ("below", "below"): "",
            ("below", "undecided"): "perhaps up",
            ("below", "reaches"): "up",
            ("below", "outside"): "below to outside",
            ("undecided", "below"): "perhaps down",
            ("undecided", "undecided"): "",
            ("undecided", "reaches"): "perhaps up",
            ("reaches", "below"): "down",
            ("reaches", "undecided"): "perhaps down",
            ("reaches", "reaches"): "",
            ("outside", "reaches"): "outside to reaches",
            ("outside", "outside"): "",
        }
        for (before, after), crossing in crossings.items():
            (row,) = self.compared(screen(f"T {words[before]} {before}"), screen(f"T {words[after]} {after}"))
            self.assertEqual(row["crosses"], crossing, (before, after))

    def test_a_change_within_the_intervals_is_not_certain(self) -> None:
        self.compared(screen("T 10000 10003 below", "U 5 6 below"), screen("T 10002 10005 below", "U 5 6 below"))
        self.assertIn("2 transformers in both reports: 0 changed for certain, 1 perhaps, 1 told alike\n", self.shown)
        self.assertIn("-0.001 to +0.005", self.shown)

    def test_transformers_in_one_report_alone(self) -> None:
        rows = self.compared(screen("A 1 2 below", "B 3 4 below"), screen("B 3 4 below", "C 5 6 below"))
        cells = [(row["name"], row["before"], row["after"], row["after_high_A_per_phase"]) for row in rows]
        expected = [("B", "below", "below", "0.004"), ("A", "below", "not there", "")]
        expected.append(("C", "not there", "below", "0.006"))
        self.assertEqual(cells, expected)
        self.assertIn("in the report before alone: A\nin the report after alone: C\n", self.shown)

    def test_heads_that_differ_are_told(self) -> None:
        self.compared(screen("A 1 2 below"), screen("A 1 2 below", head="width 100 threshold 85000 field 12000"))
        self.assertIn("the head lines differ: threshold 75.000 A before, 85.000 A after\n", self.shown)
        self.assertIn("the head lines differ: field 8.000 V/km before, 12.000 V/km after\n", self.shown)
        self.assertNotIn("width 0.100 A before", self.shown)

    def test_outages_that_end_otherwise(self) -> None:
        head = "outage\nwidth 100 threshold 75000 field 8000\n"
        before = (
            f"{head}outage L below 0 reaches 2 undecided 0 outside 0\noutage K unearthed B\noutage M idle\n"
            "transformer TA worst 80000 80001 reaches\ntransformer TB none\nend\n"
        )
        after = (
            f"{head}outage L below 2 reaches 0 undecided 0 outside 0\noutage K unearthed B\n"
            "outage N unresolved A\ntransformer TA worst 0 2 below\ntransformer TB worst 5 6 below\nend\n"
        )
        rows = self.compared(before, after)
        outages = [(row["name"], row["before"], row["after"]) for row in rows if row["kind"] == "outage"]
        counts = "below 0 reaches 2 undecided 0 outside 0", "below 2 reaches 0 undecided 0 outside 0"
        expected = [("L", *counts), ("M", "idle", "not there"), ("N", "not there", "unresolved A")]
        self.assertEqual(outages, expected)
        units = [row for row in rows if row["kind"] == "transformer"]
        cells = [(row["name"], row["crosses"], row["change_low_A_per_phase"]) for row in units]
        # TB has no number before, so no change in amperes: it comes first.
        self.assertEqual(cells, [("TB", "none to below", ""), ("TA", "down", "-80.001")])

    def test_the_region_with_one_item_out(self) -> None:
        # docs/RECIPES.md, "Each line and each transformer out by itself", has these with the high end of their current.
        out = self.folder / "changes.csv"
        self.done("compare", REPORTS / "region_screen.txt", REPORTS / "region_outage.txt", f"--out={out}")
        with open(out, newline="") as file:
            up = {row["name"]: row["after_high_A_per_phase"] for row in csv.DictReader(file) if row["crosses"] == "up"}
        rounded = {name: f"{float(amperes):.1f}" for name, amperes in up.items()}
        recipe = {"IB-A1": "155.8", "IB-A2": "155.8", "QR-T1": "104.4", "AD-T1": "98.9"}
        recipe |= {"DM-G1": "82.2", "DM-G2": "82.2"}
        self.assertEqual(rounded, recipe)

    def test_a_report_beside_itself(self) -> None:
        path = REPORTS / "valley_screen.txt"
        lines = self.done("compare", path, path).splitlines()
        self.assertEqual(
            lines[2:],
            [
                "3 transformers in both reports: 0 changed for certain, 0 perhaps, 3 told alike",
                "across the threshold: 0 up, 0 down, 0 perhaps",
            ],
        )

    def test_other_reports_are_refused_both_at_once(self) -> None:
        field, volts = REPORTS / "valley_field.txt", REPORTS / "valley_volts.txt"
        words = "compare takes two of screen, two of outage, or one of each"
        self.assertEqual(
            self.refused("compare", field, volts),
            [f"{field} line 1: it is a report of field; {words}", f"{volts} line 1: it is a report of volts; {words}"],
        )


if __name__ == "__main__":
    unittest.main()
