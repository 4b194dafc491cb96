"""Signals that end a command: each run of the program and each scratch ends with it, and one line tells it, whenever the
signal comes."""

import contextlib
import os
import pathlib
import random
import signal
import subprocess
import sys
import time
import unittest
from collections.abc import Callable

from shared import FAKE, REPORTS, TESTS, DeskTest
from test_outages import OutagesTest

from gicdesk import stops
from gicdesk.running import RUNNING, STOPPING

DESK = TESTS.parent / "gicdesk"
LONG = 60  # seconds: no run of a test takes so long
SOON = 5  # seconds, in which what was killed is gone
MOMENTS = 12  # signals at moments of the start


def defaults() -> None:
    """Lets the signals end a process: a shell's background ignores some of them."""
    for number in stops.STOPS:
        signal.signal(number, signal.SIG_DFL)


def alive(group: int) -> list[str]:
    """The processes of a group that haven't ended."""
    found = []
    for path in pathlib.Path("/proc").glob("[0-9]*/stat"):
        with contextlib.suppress(OSError):
            fields = path.read_text().rpartition(") ")[2].split()
            if int(fields[2]) == group and fields[0] != "Z":
                found.append(path.parent.name)
    return found


class Runs(OutagesTest):
    def setUp(self) -> None:
        super().setUp()
        self.begun, self.passing, self.out = self.folder / "begun", self.folder / "passing", self.folder / "place" / "out"
        self.passing.mkdir()
        self.out.parent.mkdir()

    def stopped(self, number: int, stop: Callable[[int, int], None], *words: str) -> None:
        """The desk is stopped while runs of the program wait."""
        slow = self.file(
            "slow", f'#!/bin/sh\ncase "$*" in screen*) echo $$ >>{self.begun}; sleep 600; exit ;; esac\nexec {FAKE} "$@"\n'
        )
        slow.chmod(0o755)
        process = subprocess.Popen(
            [DESK, *words, f"--program={slow}", f"--out={self.out}"],
            env=os.environ | {"TMPDIR": str(self.passing)},
            stdout=subprocess.DEVNULL,
            stderr=subprocess.PIPE,
            text=True,
            start_new_session=True,
            preexec_fn=defaults,
        )
        self.addCleanup(process.kill)
        assert process.stderr is not None
        self.addCleanup(process.stderr.close)
        end = time.monotonic() + LONG
        while not (self.begun.exists() and self.begun.read_text().endswith("\n")):
            self.assertLess(time.monotonic(), end, "no run has begun")
            time.sleep(0.02)
        there = [self.out.name] if self.out.exists() else []
        self.assertNotEqual(os.listdir(self.out.parent), there, "no scratch is there")
        stop(process.pid, number)
        _, err = process.communicate(timeout=LONG)
        self.assertEqual((process.returncode, err), (128 + number, "gicdesk: stopped\n"))
        for group in self.begun.read_text().split():  # (of a script and of what it has started)
            end = time.monotonic() + SOON
            while alive(int(group)) and time.monotonic() < end:
                time.sleep(0.02)
            self.assertEqual(alive(int(group)), [])
        self.assertEqual((os.listdir(self.passing), os.listdir(self.out.parent)), ([], there))
        self.begun.unlink()

    def test_all_runs_end_and_a_line_tells_it(self) -> None:
        for number in stops.STOPS:
            with self.subTest(number):
                self.stopped(number, os.kill, "outages", "case.toml")

    def test_all_runs_end_on_a_terminal(self) -> None:
        self.stopped(signal.SIGINT, os.killpg, "outages", "case.toml")

    def test_a_study_that_replaces_another_leaves_it(self) -> None:
        self.out.mkdir()
        self.prints("review", "review\nfindings 0\nend\n")
        self.stopped(signal.SIGTERM, os.kill, "study", "case.toml", "--force")


class Moments(DeskTest):
    def test_signals_at_moments_of_the_start(self) -> None:
        drawn = random.Random(60)
        place = self.folder / "place"
        place.mkdir()
        words = [str(DESK), "csv", "-", f"--out={place / 'table.csv'}"]
        begun = []
        for _ in range(MOMENTS):
            process = subprocess.Popen(
                words, stdin=subprocess.PIPE, stdout=subprocess.PIPE, stderr=subprocess.PIPE, preexec_fn=defaults
            )
            number = drawn.choice(stops.STOPS)
            time.sleep(drawn.choice((0.03, 0.5)) * drawn.random())
            process.send_signal(number)
            begun.append((process, number))
        for process, number in begun:
            out, err = process.communicate(timeout=LONG)
            # (before Python has begun the signal ends the shell)
            self.assertIn((process.returncode, err), ((128 + number, b"gicdesk: stopped\n"), (-number, b"")))
            self.assertEqual(out, b"")
        self.assertEqual(os.listdir(place), [])

    def test_one_that_is_ignored_stays_so(self) -> None:
        def ignored() -> None:
            signal.signal(signal.SIGHUP, signal.SIG_IGN)

        process = subprocess.Popen(
            [DESK, "csv", "-"], stdin=subprocess.PIPE, stdout=subprocess.PIPE, stderr=subprocess.DEVNULL, preexec_fn=ignored
        )
        time.sleep(0.1)
        process.send_signal(signal.SIGHUP)
        out, _ = process.communicate((REPORTS / "region_screen.txt").read_bytes(), timeout=LONG)
        self.assertEqual((process.returncode, out.decode()), (0, self.done("csv", REPORTS / "region_screen.txt")))

    def test_the_desk_is_started_by_a_shell_and_by_python(self) -> None:
        for words in ([str(DESK)], ["sh", str(DESK)], [sys.executable, "-B", str(DESK)]):
            done = subprocess.run([*words, "csv", "/none"], capture_output=True, text=True, check=False)
            self.assertEqual((done.returncode, done.stdout), (1, ""))
            self.assertTrue(done.stderr.startswith("gicdesk: /none: it can't be read"), done.stderr)


class Lost(unittest.TestCase):
    """A stop that is raised where it can't be, as in the end of an object."""

    def test_it_is_raised_again(self) -> None:
        class Ending:
            def __del__(self) -> None:
                os.kill(os.getpid(), signal.SIGTERM)
                for _ in range(100):
                    time.sleep(0)

        with self.assertRaises(stops.Stopped) as stopped, stops.signals_taken():
            ending: list[Ending] = [Ending()]
            ending.clear()
        self.assertEqual(stopped.exception.status, 143)
        self.assertTrue(STOPPING.is_set())
        self.assertEqual(RUNNING, set())

    def test_signals_wait_while_they_are_held(self) -> None:
        before = signal.getsignal(signal.SIGTERM)
        reached = False
        with self.assertRaises(stops.Stopped), stops.signals_taken():
            with stops.held():
                os.kill(os.getpid(), signal.SIGTERM)
                time.sleep(0.01)
                reached = True
        self.assertTrue(reached)
        self.assertIs(signal.getsignal(signal.SIGTERM), before)
        with stops.signals_taken():
            self.assertFalse(STOPPING.is_set())


if __name__ == "__main__":
    unittest.main()
