#!/usr/bin/env python3
"""Tests of what desk_attacks.py finds, over places that are furnished by hand.

    python3 .ci/tests.py trials/tests/test_desk_attacks.py
"""

from __future__ import annotations

import contextlib
import io
import os
import pathlib
import random
import subprocess
import tempfile
import unittest

import desk_attacks
import shared
from desk_attacks import MARK, Desk, Ran, Tree, Trial, tree_of


class Look(unittest.TestCase):
    def setUp(self) -> None:
        folder = tempfile.TemporaryDirectory()
        self.addCleanup(folder.cleanup)
        self.desk = Desk(pathlib.Path("desk"), "program", pathlib.Path(folder.name))
        self.desk.clear()
        (self.desk.place / "out").write_text("whole")
        self.whole = tree_of(self.desk.place)

    def faults(self, ran: Ran, *allowed: Tree) -> int:
        trial = Trial(self.desk, random.Random(1), shared.Clock(1), 1)
        with contextlib.redirect_stdout(io.StringIO()):
            trial.look("a test", ran, allowed, (0, 1))
        return trial.faults.count

    def test_what_is_whole_is_no_fault(self) -> None:
        self.assertEqual(self.faults(Ran(0, ""), {}, self.whole), 0)

    def test_other_files_statuses_and_tracebacks_are(self) -> None:
        self.assertEqual(self.faults(Ran(0, "")), 1)
        self.assertEqual(self.faults(Ran(2, ""), self.whole), 1)
        self.assertEqual(self.faults(Ran(1, "Traceback (most recent call last):"), self.whole), 1)
        (self.desk.place / "out").write_text("half")
        self.assertEqual(self.faults(Ran(0, ""), {}, self.whole), 1)

    def test_what_is_left_is(self) -> None:
        (self.desk.place / ".out.x").write_text("")
        self.assertEqual(self.faults(Ran(0, ""), tree_of(self.desk.place)), 1)
        self.desk.clear()
        (self.desk.passing / "gicdesk.x").mkdir()
        self.assertEqual(self.faults(Ran(0, ""), {}), 1)

    def test_the_page_and_the_sums_of_a_study_are_looked_at(self) -> None:
        page, sums, marker = (self.desk.place / name for name in ("study.html", "checksums.txt", ".gicdesk"))
        sums_line = "{}  out\n{}  study.html\n"

        def write(text: bytes) -> None:
            page.write_bytes(text)
            sums.write_text(sums_line.format(desk_attacks.sum_of(b"whole"), desk_attacks.sum_of(text)))
            marker.write_text(f"a study of gicdesk\n{desk_attacks.sum_of(sums.read_bytes())}  checksums.txt\n")

        write(b"<td>01 December 2026, 06:49 +0000</td> 5 A")
        before = tree_of(self.desk.place)
        self.assertEqual(desk_attacks.unsummed(self.desk.place), [])
        write(b"<td>02 December 2026, 06:50 +0100</td> 5 A")
        self.assertEqual((desk_attacks.unsummed(self.desk.place), tree_of(self.desk.place)), ([], before))
        write(b"<td>02 December 2026, 06:50 +0100</td> 6 A")
        self.assertNotEqual(tree_of(self.desk.place), before)
        page.write_bytes(b"<td>01 December 2026, 06:49 +0000</td> 5 A")
        self.assertEqual(desk_attacks.unsummed(self.desk.place), [str(page)])
        (self.desk.place / "more").write_text("")
        self.assertEqual(desk_attacks.unsummed(self.desk.place), [str(self.desk.place / "more"), str(page)])
        sums.write_text("")
        self.assertIn(str(marker), desk_attacks.unsummed(self.desk.place))

    def test_a_process_that_goes_on_is(self) -> None:
        desk_attacks.SOON = 0.1
        process = subprocess.Popen(["sleep", "60"], env=os.environ | {MARK: str(self.desk.top)})
        self.addCleanup(process.wait)
        self.addCleanup(process.kill)
        self.assertEqual(self.faults(Ran(0, ""), self.whole), 1)

    def test_folders_and_links_are_told_apart(self) -> None:
        (self.desk.place / "empty").mkdir()
        (self.desk.place / "link").symlink_to("out")
        there = tree_of(self.desk.place)
        self.assertEqual((there["empty"], there["link"]), ("a folder", "a link"))
        self.assertEqual(there["out"], self.whole["out"])

    def test_a_case_gets_the_text_of_another(self) -> None:
        case, other = self.desk.case(1), self.desk.case(2)
        other.write_text("other")
        for seed in range(8):
            case.write_text("case")
            desk_attacks.change(case, other, random.Random(seed))
            self.assertEqual(case.read_text(), "other")


if __name__ == "__main__":
    unittest.main()
