#!/usr/bin/env python3
"""Tests of named.py and libraries.py.

    python3 .ci/tests.py docs/tests/test_named.py
"""

from __future__ import annotations

import contextlib
import io
import tempfile
import unittest
from pathlib import Path

import libraries
import named

CRATES = "# The crates.\nlow:\nhigh: low\n"
LIB = """mod net;
pub mod laws;
mod far;

pub use far::{Far, reach as far_reach};
pub use net::Net;

pub const MOST: u16 = 3;
"""
NET = """pub struct Net {
    nodes: u16,
}

impl Net {
    /// Builds it.
    pub fn build(alloc: Global) -> Net {
    }

    fn own(&self) {
    }
}

impl<L: Ledger> Sink for Net {
    fn write(&mut self) {
    }
}

pub fn hidden() {
}
"""
LAWS = "pub fn net_law()\n{}\n"
FAR = """pub trait Far: Drop {
    fn see(&mut self);
}

impl<'a> Cells<'a> {
    pub fn take(&mut self) {
    }
}
"""
TABLES = """# Names

## Crates

| planned | today | why |
|---|---|---|
| `gic_low` | `low`, `high` | Merged. |

## Calls and types

| name | planned for | today | why |
|---|---|---|---|
"""
CHANGED = "| `Net::build` changed | `gic_low` | with an allocator | Memory. |\n"
NONE = "| `Null`, `Null::new` | `gic_low` | `Net` | Nobody asked for it. |\n"


class Said(unittest.TestCase):
    """A repository in a folder of its own, and what a script says of it."""

    def setUp(self) -> None:
        folder = tempfile.TemporaryDirectory()
        self.addCleanup(folder.cleanup)
        self.top = Path(folder.name)

    def write(self, path: str, text: str) -> None:
        (self.top / path).parent.mkdir(parents=True, exist_ok=True)
        (self.top / path).write_text(text, encoding="utf-8")


class Public(Said):
    def test_what_others_may_use(self) -> None:
        for name, text in (("lib", LIB), ("net", NET), ("laws", LAWS), ("far", FAR)):
            self.write(f"src/{name}.rt", text)
        found = named.public_of(self.top / "src")
        self.assertEqual(found.items, {"Far", "far_reach", "Net", "MOST", "net_law"})
        self.assertEqual(found.calls, {"Net::build", "Net::write", "Far::see", "Cells::take"})
        self.assertTrue(found.has("Net::build") and found.has("net_law"))
        self.assertFalse(found.has("Net::own") or found.has("hidden") or found.has("Cells::take") or found.has("reach"))

    def test_a_program_has_its_main(self) -> None:
        self.write("src/main.rt", "fn main(rt: HostRuntime) -> ExitCode {\n}\n")
        self.assertTrue(named.public_of(self.top / "src").has("main"))

    def test_a_folder_without_a_root_is_refused(self) -> None:
        self.write("src/other.rt", "")
        with self.assertRaises(ValueError):
            named.public_of(self.top / "src")


class Names(Said):
    def setUp(self) -> None:
        super().setUp()
        self.write("crates.txt", CRATES)
        for crate in ("low", "high"):
            self.write(f"crates/{crate}/src/lib.rt", "")
        self.write("crates/high/src/lib.rt", LIB)
        self.write("crates/high/src/net.rt", NET)
        self.write("docs/named.txt", "# Names.\ngic_low Net\ngic_low Net::build\ngic_low Null\ngic_low Null::new\n")

    def said(self, document: str) -> tuple[int, list[str]]:
        self.write("docs/NAMED.md", document)
        with contextlib.redirect_stdout(io.StringIO()) as out, contextlib.redirect_stderr(out):
            status = named.main([], self.top)
        return status, out.getvalue().splitlines()

    def test_names_that_are_there_or_have_a_row(self) -> None:
        self.assertEqual(self.said(TABLES + CHANGED + NONE), (0, ["4 names, 0 faults"]))

    def test_a_name_without_a_row(self) -> None:
        status, lines = self.said(TABLES + NONE.replace("`Null`, ", ""))
        self.assertEqual((status, lines[0]), (1, "Null of gic_low is no public item and has no row"))

    def test_a_row_of_a_name_that_is_there(self) -> None:
        _, lines = self.said(TABLES + NONE + CHANGED.replace(" changed", ""))
        self.assertEqual(lines[0], "Net::build of gic_low is a public item, and its row says that it is none")

    def test_a_changed_name_that_is_gone(self) -> None:
        _, lines = self.said(TABLES + NONE.replace("`Null::new`", "`Null::new` changed"))
        told = "of gic_low is no public item, and its row says that it is changed"
        self.assertEqual(lines[:2], [f"{it} {told}" for it in ("Null", "Null::new")])

    def test_a_name_with_two_rows(self) -> None:
        _, lines = self.said(TABLES + NONE + CHANGED + CHANGED)
        self.assertEqual(lines[0], "Net::build of gic_low has 2 rows")

    def test_a_row_of_no_planned_name(self) -> None:
        _, lines = self.said(TABLES + NONE + "| `Other` | `gic_low` | `Net` | Why. |\n")
        self.assertEqual(lines[0], "Other of gic_low has a row and isn't in named.txt")

    def test_a_row_without_a_reason(self) -> None:
        _, lines = self.said(TABLES + NONE + "| `Net` changed | `gic_low` | `Net` |  |\n")
        self.assertIn("a row isn't of four cells", lines[0])

    def test_crates_are_listed(self) -> None:
        _, lines = self.said(TABLES.replace("`low`, `high`", "`high`, `gone`") + NONE)
        self.assertEqual(lines[0], "gic_low: crates.txt doesn't list gone")

    def test_a_planned_crate_without_a_row(self) -> None:
        _, lines = self.said(TABLES.replace("`gic_low`", "`gic_other`") + NONE)
        self.assertEqual(lines[0], "gic_low has no row in the table of crates")

    def test_a_list_that_is_gone_is_told_in_a_line(self) -> None:
        (self.top / "docs/named.txt").unlink()
        status, lines = self.said(TABLES)
        self.assertEqual((status, len(lines), lines[0].startswith("named.py: ")), (1, 1, True))


class Libraries(Said):
    def setUp(self) -> None:
        super().setUp()
        self.write("crates.txt", "".join(f"of_{it}: {it}\n" for it in libraries.LIBRARIES))
        for it in libraries.LIBRARIES:
            self.write(f"crates/of_{it}/src/lib.rt", f"// {it}::\nuse {it}::Thing;\n")
        for name in libraries.DOCUMENTS:
            self.write(name, " ".join(f"`{it}`" for it in libraries.LIBRARIES))

    def said(self) -> tuple[int, list[str]]:
        with contextlib.redirect_stdout(io.StringIO()) as out, contextlib.redirect_stderr(out):
            status = libraries.main([], self.top)
        return status, out.getvalue().splitlines()

    def test_all_are_there(self) -> None:
        self.assertEqual(self.said(), (0, ["5 libraries, 0 faults"]))

    def test_one_that_no_crate_lists(self) -> None:
        for it in libraries.LIBRARIES:
            with self.subTest(it):
                self.write("crates.txt", "".join(f"of_{one}: {one}\n" for one in libraries.LIBRARIES if one != it))
                self.assertEqual(self.said(), (1, [f"crates.txt lists {it} for no crate", "5 libraries, 1 faults"]))

    def test_one_that_its_crate_does_not_use(self) -> None:
        for text in ("// use csv::Reader;\n", "fn rows() {\n    csvs::rows();\n}\n", "use crate::csv::Reader;\n"):
            with self.subTest(text):
                self.write("crates/of_csv/src/lib.rt", text)
                self.assertEqual(self.said(), (1, ["of_csv lists csv and doesn't use it", "5 libraries, 1 faults"]))

    def test_ways_of_use(self) -> None:
        for text in ("use csv;\n", "fn rows() {\n    csv::rows();\n}\n", "#[derive(Debug, csv::Error)]\nenum Fault {}\n"):
            with self.subTest(text):
                self.write("crates/of_csv/src/lib.rt", text)
                self.assertEqual(self.said()[0], 0)

    def test_one_that_a_document_does_not_name(self) -> None:
        for name in libraries.DOCUMENTS:
            with self.subTest(name):
                text = (self.top / name).read_text(encoding="utf-8")
                self.write(name, text.replace("`thiserror`", "thiserror"))
                self.assertEqual(self.said(), (1, [f"{name} doesn't name `thiserror`", "5 libraries, 1 faults"]))
                self.write(name, text)

    def test_a_document_that_is_gone_is_told_in_a_line(self) -> None:
        (self.top / "README.md").unlink()
        status, lines = self.said()
        self.assertEqual((status, len(lines), lines[0].startswith("libraries.py: ")), (1, 1, True))


if __name__ == "__main__":
    unittest.main()
