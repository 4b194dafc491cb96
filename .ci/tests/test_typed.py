#!/usr/bin/env python3
"""Tests of the check of types, with a stand-in for mypy.

    python3 .ci/tests.py .ci/tests/test_typed.py
"""

from __future__ import annotations

import contextlib
import io
import os
import shutil
import subprocess
import tempfile
import unittest
from pathlib import Path
from unittest import mock

import typed

# It finds a fault in the files of one folder.
MYPY = """#!/bin/sh
case "$*" in *"$PLACE/docs/"*) exit 1 ;; esac
"""


class Typed(unittest.TestCase):
    def setUp(self) -> None:
        folder = tempfile.TemporaryDirectory()
        self.addCleanup(folder.cleanup)
        self.top = Path(folder.name)
        for name in typed.FOLDERS:
            (self.top / name).mkdir()
            (self.top / name / "one.py").write_text("")

    def checked(self) -> tuple[int, list[str]]:
        """The status and the lines of the check where there is no other command than those made here."""
        words = {"PATH": str(self.top), "PLACE": str(self.top)}
        with mock.patch.dict(os.environ, words), contextlib.redirect_stdout(io.StringIO()) as told:
            status = typed.main([], self.top)
        return status, told.getvalue().splitlines()

    def test_each_folder_with_python_is_looked_at(self) -> None:
        for name in typed.FOLDERS:
            self.assertTrue(any((typed.TOP / name).rglob("*.py")), name)

    def test_each_folder_that_git_tracks_is_looked_at(self) -> None:
        """What else lies in a checkout says nothing."""
        git = shutil.which("git")
        if git is None or not (typed.TOP / ".git").exists():
            self.skipTest("this is no checkout of git")
        told = subprocess.run([git, "ls-files", "*/*.py"], cwd=typed.TOP, capture_output=True, text=True)
        if told.returncode != 0:
            self.skipTest("git doesn't tell what it tracks")
        self.assertLessEqual({line.split("/")[0] for line in told.stdout.splitlines()}, set(typed.FOLDERS))

    def test_without_mypy_nothing_is_counted(self) -> None:
        status, lines = self.checked()
        self.assertEqual((status, lines[-1], len(lines)), (0, "0 passed, 0 failed", 2))

    def test_a_fault_is_counted(self) -> None:
        (self.top / "mypy").write_text(MYPY)
        (self.top / "mypy").chmod(0o755)
        status, lines = self.checked()
        self.assertEqual((status, lines[-1]), (1, f"{len(typed.FOLDERS) - 1} passed, 1 failed"))
        self.assertIn("docs: mypy finds faults", lines)


if __name__ == "__main__":
    unittest.main()
