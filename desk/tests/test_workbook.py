"""The tables of a study as one workbook, by each library that is there, read back by the parts of the file itself."""

import importlib.util
import io
import re
import unittest
import xml.etree.ElementTree
import zipfile
from unittest import mock

from shared import desk
from test_study import STORM, StudyTest

from gicdesk import workbook
from gicdesk.tables import Table

SHEET = "{http://schemas.openxmlformats.org/spreadsheetml/2006/main}"
TABLES = {
    "units": Table(
        ["transformer", "worst_low_A_per_phase", "seconds", "verdict"],
        [["1-2", "-12.5", "60", "=1+1"], ["12", "", "60 to 70", "a\nb"], ["T", "1e5", "7", "x" * 40000]],
    ),
    "gict summary": Table(["transformer"], []),
}
Cell = str | float
EXPECTED: list[list[Cell]] = [
    ["transformer", "worst_low_A_per_phase", "seconds", "verdict"],
    ["1-2", -12.5, 60.0, "=1+1"],
    ["12", "", "60 to 70", "a\\x0ab"],
    ["T", "1e5", 7.0, "x" * 32767],
]


def sheets_in(data: bytes) -> dict[str, list[list[Cell]]]:
    """The cells of each sheet by its name, as they stand in the parts of a workbook; no formula is one."""
    with zipfile.ZipFile(io.BytesIO(data)) as book:
        names = [sheet.get("name", "") for sheet in xml.etree.ElementTree.fromstring(book.read("xl/workbook.xml")).iter(f"{SHEET}sheet")]
        shared: list[str] = []
        if "xl/sharedStrings.xml" in book.namelist():
            for one in xml.etree.ElementTree.fromstring(book.read("xl/sharedStrings.xml")).iter(f"{SHEET}si"):
                shared.append("".join(text.text or "" for text in one.iter(f"{SHEET}t")))
        found = {}
        for place, name in enumerate(names, 1):
            root = xml.etree.ElementTree.fromstring(book.read(f"xl/worksheets/sheet{place}.xml"))
            assert not list(root.iter(f"{SHEET}f")), "a formula"
            found[name] = [[cell_of(cell, shared) for cell in row.iter(f"{SHEET}c")] for row in root.iter(f"{SHEET}row")]
    return found


def cell_of(cell: xml.etree.ElementTree.Element, shared: list[str]) -> Cell:
    value = cell.findtext(f"{SHEET}v")
    if cell.get("t") == "s":
        return shared[int(value or 0)]
    if cell.get("t") == "inlineStr":
        return "".join(text.text or "" for text in cell.iter(f"{SHEET}t"))
    return "" if value is None else float(value)


def filled(rows: list[list[Cell]]) -> list[list[Cell]]:
    return [[cell for cell in row if cell != ""] for row in rows]


class Workbook(unittest.TestCase):
    def test_each_library_that_is_there(self) -> None:
        for name, write in workbook.WRITERS.items():
            if importlib.util.find_spec(name) is None:
                continue
            with self.subTest(library=name):
                found = sheets_in(write(importlib.import_module(name), TABLES))
                self.assertEqual(list(found), list(TABLES))
                # (an empty text may be no cell at all)
                self.assertEqual(filled(found["units"]), filled(EXPECTED))
                self.assertEqual(found["gict summary"], [["transformer"]])

    def test_cells(self) -> None:
        self.assertEqual(workbook.cells_of(TABLES["units"]), EXPECTED)

    def test_without_a_library(self) -> None:
        with mock.patch("importlib.import_module", side_effect=ImportError):
            self.assertIsNone(workbook.workbook(TABLES))


class OfAStudy(StudyTest):
    def test_the_sheets_of_a_study(self) -> None:
        made: list[workbook.Sheets] = []

        def kept(sheets: workbook.Sheets) -> bytes:
            made.append(sheets)
            return b"a workbook"

        storm = self.file("storm.csv", STORM)
        with mock.patch("gicdesk.study_files.workbook", kept):
            self.page("--xlsx", f"--storm={storm}")
        names = {"units", "review", "check", "list", "volts", "screen", "supplemental", "study", "outage", "flows"}
        self.assertEqual(set(made[0]), names)
        self.assertTrue(all(re.fullmatch(r"[a-z_ ]{1,31}", name) for name in made[0]))
        self.assertEqual((self.out / "tables.xlsx").read_bytes(), b"a workbook")
        self.assertIn("tables.xlsx", (self.out / "checksums.txt").read_text())

    def test_without_a_library_the_tables_are_csv_alone(self) -> None:
        with mock.patch("gicdesk.study_files.workbook", return_value=None):
            status, _, told = desk(*self.words("--xlsx"))
        words = "tables.xlsx isn't made, since no library that writes it is there (python3-openpyxl or python3-xlsxwriter)"
        self.assertEqual((status, told), (0, f"gicdesk: {words}; the tables are CSV alone\n"))
        self.assertTrue((self.out / "units.csv").exists())
        self.assertFalse((self.out / "tables.xlsx").exists())


if __name__ == "__main__":
    unittest.main()
