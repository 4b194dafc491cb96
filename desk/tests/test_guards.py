"""What comes from outside, as a spreadsheet, a shell and a terminal take it: no cell is worked out, no name makes a line."""

import csv
import io
import os
import shlex
import subprocess
import unittest

from shared import REPORTS, DeskTest
from test_outages import HEADS
from test_psse import GIC, RAW, ZONES
from test_study import STORM, StudyTest

from gicdesk.events import name_fault
from gicdesk.findings import Finding, visible
from gicdesk.study_files import shell_word
from gicdesk.tables import Table, guarded

FORMULAS = (
    "=1+1", "+1+1", "-1+1", "@SUM(A1)", " =1+1", '=HYPERLINK("http://x";"y")', "\uff1d1+1", "\uff0b1+1", "\uff0d1+1",
    "\uff20SUM(A1)", "\ufe661+1", "\ufe62a b", "\ufe63a b", "\ufe6ba b",
)  # fmt: skip
PLAIN = (
    "", "1", "-42.139", "+5", "0.5", "KS-A2", "-T1", "1-2", "a=b", "bus \"west\"", "a; b", "Z\xfcrich", "\u6771\u4eac", "5 - 3",
)  # fmt: skip


def rows(text: str) -> list[list[str]]:
    return list(csv.reader(io.StringIO(text, newline="")))


class Cells(unittest.TestCase):
    def test_formulas_have_a_sign_in_front(self) -> None:
        for cell in FORMULAS:
            self.assertEqual(guarded(cell), f"'{cell}")

    def test_numbers_and_names_stay_as_they_are(self) -> None:
        for cell in PLAIN:
            self.assertEqual(guarded(cell), cell)
        table = Table(["name"], [[cell] for cell in (*PLAIN, *FORMULAS)])
        self.assertEqual([row for [row] in rows(table.csv())[2:]], [*PLAIN[1:], *(f"'{cell}" for cell in FORMULAS)])

    def test_a_formula_behind_another_separator_has_none_before_it(self) -> None:
        for cell, shown in (
            ("N;=1+1", "N\\x3b=1+1"), ("A,=1+1", "A\\x2c=1+1"), ("A; @x", "A\\x3b @x"), ("a;-b,+c", "a\\x3b-b\\x2c+c"),
            ("=1;=2", "'=1\\x3b=2"), ("a; b", "a; b"), ("a,b;", "a,b;"), ("a;;\uff1d1", "a;\\x3b\uff1d1"),
        ):  # fmt: skip
            self.assertEqual(guarded(cell), shown)

    def test_letters_without_a_shape_are_seen(self) -> None:
        for cell, shown in (
            ("a\nb", "a\\x0ab"), ("a\r\n=1", "a\\x0d\\x0a=1"), ("\t=1+1", "'\\x09=1+1"), ("a\x1b[2Jb", "a\\x1b[2Jb"),
            ("\u200b=1", "\\u200b=1"), ("a\u202eb", "a\\u202eb"), ("a\u2028b", "a\\u2028b"), ("\U000e0001x", "\\U000e0001x"),
        ):  # fmt: skip
            self.assertEqual(guarded(cell), shown)
            self.assertNotIn("\n", visible(cell))

    def test_a_name_of_an_event_has_no_formula_behind_a_separator(self) -> None:
        for name in ("x;=1+1", "A,=1+1", "A, @x"):
            told = f'"{name}" has a formula behind a separator, to some spreadsheets; write it without that'
            self.assertEqual(name_fault(name), told)
        for name in ("x; y", "a,b", "a=b"):
            self.assertIsNone(name_fault(name))

    def test_a_finding_is_one_line(self) -> None:
        self.assertEqual(str(Finding("a\nb.csv", "it \x1b[31m", 5)), "a\\x0ab.csv line 5: it \\x1b[31m")


class Names(DeskTest):
    def test_names_of_a_power_flow_are_guarded(self) -> None:
        raw = RAW.replace("'NORTH 345'", "'=HYPERLINK(\"http://x\")'").replace("'NORTH 138'", "'\uff1d1+1\x07\x1b[2J'")
        gic = GIC.replace("'NORTH'", "'@SUM(A1)'").replace("'SOUTH'", "'S\x0bUTH\x1b[2J'")
        files = [self.file(name, text) for name, text in (("n.raw", raw), ("n.gic", gic), ("zones.csv", ZONES))]
        shown = self.done("psse", *files[:2], f"--zones={files[2]}", "--beyond=leave", f"--out={self.folder / 'made.toml'}")
        names = {row[1]: row[2] for row in rows((self.folder / "made.names.csv").read_text())}
        self.assertEqual(names["SUM_A1"], "'@SUM(A1)")
        self.assertEqual(names["S_UTH_2J"], "S\\x0bUTH\\x1b[2J")
        self.assertIn("'=HYPERLINK(\"http://x\")", names.values())
        self.assertIn("'\uff1d1+1\\x07\\x1b[2J", names.values())
        for text in (shown, (self.folder / "made.toml").read_text(), (self.folder / "made.names.csv").read_text()):
            self.assertTrue(all(line.isprintable() for line in text.split("\n")))

    def test_names_of_files_make_no_line(self) -> None:
        report = self.file("a\nb.txt", (REPORTS / "region_screen.txt").read_bytes())
        shown = self.done("compare", report, REPORTS / "region_outage.txt")
        self.assertIn(f"before: {self.folder}/a\\x0ab.txt: report screen", shown)
        (line,) = self.refused("csv", self.folder / "gone\ngicdesk: all is well")
        self.assertIn("/gone\\x0agicdesk: all is well: it can't be read", line)


class Commands(StudyTest):
    def test_a_name_with_a_line_feed_makes_no_line(self) -> None:
        name = "storm\n0 screen gicstudy screen --case=forged\n'x' \\ \x1b[2J\udcff.csv"
        self.page(f"--storm={self.file(name, STORM)}")
        lines = (self.out / "commands.txt").read_text().splitlines()
        self.assertEqual([line for line in lines if "--case=forged" in line and line.startswith("0 screen")], [])
        for line in lines[1:]:
            self.assertRegex(line, r"^\d+ \S+ gicstudy \S+ --case=")
            self.assertTrue(line.isprintable(), line)
        self.assertEqual(len(lines), 1 + len(list((self.out / "reports").glob("*.txt"))))

    def test_a_word_is_the_same_to_a_shell(self) -> None:
        for word in ("a", "a b", "it's", "a\nb", "'\n'", "\\\n\\n", "\x07\t9", "\u20ac\n1", "\udcff\n\udcfe7", "$(x)\n`y`"):
            given = shell_word(word)
            self.assertTrue(given.isprintable(), given)
            if word.isprintable():
                self.assertEqual(shlex.split(given), [word])
            told = subprocess.run(["bash", "-c", f"printf %s {given}"], capture_output=True, check=True).stdout
            self.assertEqual(told, os.fsencode(word))

    def test_lines_of_another_program_make_no_line(self) -> None:
        self.prints("study", "gicstudy: unearthed: step 2 node B\n")
        self.page(f"--storm={self.file('storm.csv', STORM)}")
        self.assertIn("  # gicstudy: unearthed: step 2 node B\n", (self.out / "commands.txt").read_text())

    def test_wide_forms_of_signs_begin_no_event(self) -> None:
        for name in ("=1", "\uff1d1", "\uff0b1", "\uff0d1", "\uff201", "\ufe661"):
            (line,) = self.refused(*self.words(f"--events={self.file('events.csv', f'{HEADS}{name},K,open{chr(10)}')}"))
            self.assertIn("is a formula to a spreadsheet; begin it with another letter", line)


if __name__ == "__main__":
    unittest.main()
