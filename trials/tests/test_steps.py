#!/usr/bin/env python3
"""Tests of the program over steps of a storm: what no contract tells of them, or no other test compares.

    python3 .ci/tests.py trials/tests/test_steps.py

The program is the one that `GICSTUDY` names, or else the one that is built in crates/gicstudy/out; where there is none, or it is too
slow to be the proved one, the tests that need it are left out. The times are processor seconds of the program alone.
"""

from __future__ import annotations

import os
import re
import subprocess
import sys
import tempfile
import unittest
from pathlib import Path

from paths import TOP

PROGRAM = Path(os.environ.get("GICSTUDY") or TOP / "crates/gicstudy/out/gicstudy").resolve()
CASES = TOP / "trials/referee/cases"
# A ground in a report: what flows through it into the earth.
GROUND = re.compile(r"ground \S+ (-?\d+) (-?\d+)")
STEP = re.compile(r"step (\d+) time \d+")

# The loops, of 100 ohm each. Without rough corrections a step that is solved from another one's guesses takes thousands of sweeps there.
LOOPS = 20
# A storm of this many steps, and one switching for each two of them, which is as many as there may be.
STEPS = 8000
# How many runs of each way are timed; the least time counts.
RUNS = 5
# A step that is solved afresh takes at least this much as long as one that is put together; README of bench/ has the ratios.
RATIO = 1.5
# A run of a tenth of the steps that takes longer than this is one of a program without proof.
SLOW_SECONDS = 0.5


def sums_of_grounds(report: str) -> list[tuple[int, int]]:
    """The sums of the low and of the high ends of all grounds, for each step in detail that a report has."""
    found: list[tuple[int, int]] = []
    is_step = False
    for line in report.splitlines():
        if STEP.fullmatch(line):
            found.append((0, 0))
            is_step = True
        elif line == "peaks":
            is_step = False
        elif is_step and (ends := GROUND.fullmatch(line)):
            low, high = found[-1]
            found[-1] = (low + int(ends[1]), high + int(ends[2]))
    return found


def weak_loops() -> str:
    """The text of the case with the loops: a ground of 5 ohm at each end, and a line of 100 km towards the north."""

    def rows(text: str) -> str:
        return "".join("  " + text.replace("@", str(number)) + ",\n" for number in range(LOOPS))

    def winding(end: str) -> str:
        return f'{{ name = "T{end.upper()}@", kind = "delta-wye", high_volts = 345000, high = "{end}@", high_resistance = 15000 }}'

    lists = {
        "substation": ['{ name = "A@", ground = 5000000 }', '{ name = "B@", ground = 5000000 }'],
        "bus": ['{ name = "a@", substation = "A@" }', '{ name = "b@", substation = "B@" }'],
        "line": ['{ name = "L@", from = "a@", to = "b@", zone = "Z", resistance = 269970000, north = 100000, east = 0 }'],
        "transformer": [winding("a"), winding("b")],
    }
    head = 'format = 1\nzone = [{ name = "Z", latitude = 6000, beta = 100 }]\n'
    return head + "".join(f"{name} = [\n{''.join(map(rows, texts))}]\n" for name, texts in lists.items())


def turning_storm(steps: int) -> str:
    """Fields to the north and to the south by turns, no two of one strength."""
    return "time,north,east\n" + "".join(f"{at},{(20000 - at) * (1 if at % 2 == 0 else -1)},0\n" for at in range(steps))


def closings(steps: int, *, is_afresh: bool) -> str:
    """Closings of a line that is closed, which change nothing: one in front of each two steps, or as many at the first time.

    The program puts together the steps of an epoch with more than twice as many steps as zones, so none of one with two."""
    return "time,item,action\n" + "".join(f"{at if is_afresh else 0},L0,close\n" for at in range(2, steps, 2))


class Sums(unittest.TestCase):
    def test_sums_of_a_step(self) -> None:
        report = "study\nstep 2 time 60\nground A -7 -5\nground B 6 6\nground C open\npeaks\nground A 5 7\nend\n"
        self.assertEqual(sums_of_grounds(report), [(-1, 1)])

    def test_closings_are_as_many_either_way(self) -> None:
        afresh, together = (closings(STEPS, is_afresh=it).splitlines() for it in (True, False))
        self.assertEqual(len(afresh), len(together))
        self.assertLessEqual(len(afresh) - 1, 4096)
        self.assertEqual(afresh[:3], ["time,item,action", "2,L0,close", "4,L0,close"])


@unittest.skipUnless(PROGRAM.is_file(), f"there is no program {PROGRAM}")
class Program(unittest.TestCase):
    def setUp(self) -> None:
        folder = tempfile.TemporaryDirectory()
        self.addCleanup(folder.cleanup)
        self.folder = Path(folder.name)

    def ran(self, words: list[str], folder: Path) -> tuple[str, float]:
        """The report of a run, and the processor seconds that it took."""
        with open(self.folder / "report", "w+", encoding="utf-8") as out:
            process = subprocess.Popen([str(PROGRAM), *words], cwd=folder, stdin=subprocess.DEVNULL, stdout=out)
            _, status, used = os.wait4(process.pid, 0)
            process.returncode = os.waitstatus_to_exitcode(status)
            self.assertEqual(process.returncode, 0, words)
            out.seek(0)
            return out.read(), used.ru_utime + used.ru_stime

    def test_at_each_step_of_the_realistic_network_the_grounds_sum_to_0(self) -> None:
        for number in range(1, 6):
            with self.subTest(number):
                case = CASES / f"realistic_study_detail_{number}"
                report, _ = self.ran((case / "words").read_text(encoding="utf-8").splitlines(), case)
                [(low, high)] = sums_of_grounds(report)
                self.assertLessEqual(low, 0)
                self.assertGreaterEqual(high, 0)

    def test_a_study_does_not_solve_each_step_afresh(self) -> None:
        (self.folder / "case").write_text(weak_loops(), encoding="utf-8")
        for steps in (STEPS, STEPS // 10):
            (self.folder / f"storm{steps}").write_text(turning_storm(steps), encoding="utf-8")
        for is_afresh in (True, False):
            (self.folder / f"switch{is_afresh}").write_text(closings(STEPS, is_afresh=is_afresh), encoding="utf-8")
        words = ["study", "--case=case", "--width=10"]
        _, seconds = self.ran([*words, f"--storm=storm{STEPS // 10}"], self.folder)
        if seconds > SLOW_SECONDS:
            self.skipTest(f"{STEPS // 10} steps take {seconds:.1f} s: {PROGRAM} isn't the proved program")
        least = {True: sys.float_info.max, False: sys.float_info.max}
        for _ in range(RUNS):
            for is_afresh in least:
                _, seconds = self.ran([*words, f"--storm=storm{STEPS}", f"--switch=switch{is_afresh}"], self.folder)
                least[is_afresh] = min(least[is_afresh], seconds)
        told = f"{STEPS} steps took {least[False]:.3f} s, and solved afresh {least[True]:.3f} s"
        self.assertGreater(least[True] / least[False], RATIO, told)


if __name__ == "__main__":
    unittest.main()
