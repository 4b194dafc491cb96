#!/usr/bin/env python3
"""Tests of the tables of what runs gave: bench/runs and trials.

    python3 .ci/tests.py bench/tests/test_runs.py
"""

from __future__ import annotations

import csv
import re
import unittest
from pathlib import Path

TOP = Path(__file__).resolve().parents[2]
TABLES = sorted([*TOP.glob("bench/runs/*.csv"), *TOP.glob("trials/*.csv")])
DATE = re.compile(r"(\d{4}-\d\d-\d\d)?")


class Tables(unittest.TestCase):
    def test_each_row_has_a_field_for_each_head(self) -> None:
        for table in TABLES:
            with self.subTest(table=table.name), open(table, newline="", encoding="utf-8") as file:
                heads, *rows = csv.reader(file)
                self.assertTrue(rows)
                self.assertEqual({len(row) for row in rows}, {len(heads)})

    def test_dates_are_dates(self) -> None:
        for table in TABLES:
            with self.subTest(table=table.name), open(table, newline="", encoding="utf-8") as file:
                for row in csv.DictReader(file):
                    self.assertTrue(DATE.fullmatch(row.get("date", "")), row)

    def test_each_table_is_named_on_its_page(self) -> None:
        for table in TABLES:
            folder = table.relative_to(TOP).parts[0]
            page = (TOP / folder / "README.md").read_text(encoding="utf-8")
            with self.subTest(table=table.name):
                self.assertIn(f"({table.relative_to(TOP / folder)})", page)


if __name__ == "__main__":
    unittest.main()
