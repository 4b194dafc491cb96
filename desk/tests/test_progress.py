"""Each command that takes its time shows on a terminal how far it has come, up to the last piece."""

import re
import unittest
from unittest import mock

import shared
import test_grounds
from shared import FAKE, desk
from test_study import SERIES, STORM, StudyTest

BAR = re.compile(r"\] ([0-9]+) of ([0-9]+) ")


class OnATerminal(StudyTest):
    def bars(self, *words: object) -> list[tuple[int, int]]:
        """What the bar says of a command, piece by piece: the number of the piece, and of all."""
        with mock.patch.object(shared.Stream, "isatty", lambda _: True):
            status, _, err = desk(*words)
        self.assertEqual(status, 0, err)
        self.assertTrue(err.endswith("\r\x1b[K"), err)
        return [(int(piece), int(every)) for piece, every in BAR.findall(err)]

    def test_the_last_piece_is_the_last_of_all(self) -> None:
        storm, drawn = self.file("storm.csv", STORM), self.file("factors.csv", "transformer,mvar_per_ampere,at_kv\nTA,1.2,\n")
        given = self.file("events.csv", "event,item,action\nboth,K,open\n")
        self.prints("screen~TA", (self.reports / "screen.txt").read_text())
        self.prints("screen~TA~TB", (self.reports / "screen.txt").read_text())
        self.prints("series@TA", SERIES)
        program = f"--program={FAKE}"
        commands = {
            "outages": ("outages", self.case, program),
            "events": ("outages", self.case, program, f"--events={given}"),
            "mitigate": ("mitigate", self.case, program),
            "study": ("study", self.case, program, f"--out={self.folder / 'study'}"),
            "losses": ("losses", self.case, program, f"--factors={drawn}", f"--storm={storm}", f"--out={self.folder / 'losses'}"),
        }
        for name, words in commands.items():
            bars = self.bars(*words)
            self.assertEqual([piece for piece, _ in bars], list(range(1, len(bars) + 1)), name)
            self.assertEqual(bars[-1][0], bars[-1][1], (name, bars))

    def test_grounds(self) -> None:
        case = self.file("grounds.toml", test_grounds.CASE)
        bars = self.bars("grounds", case, f"--program={test_grounds.GroundsTest.program}", "--tolerance=50")
        self.assertEqual(bars[0][0], 1)
        self.assertGreater(len(bars), 3)
        # A unit that no ground leaves open any more ends the search for what to measure before its last piece.
        self.assertLessEqual(bars[-1][0], bars[-1][1])


if __name__ == "__main__":
    unittest.main()
