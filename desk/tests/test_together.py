"""Runs beside each other: in order, several at once, not too many ahead, and none behind one that fails."""

import itertools
import threading
import time
import unittest
from unittest import mock

import shared  # which finds the desk

from gicdesk import together as module
from gicdesk.findings import Refused, refuse
from gicdesk.together import together

LONG = 30  # seconds: nobody waits so long for a thread that works
SHORT = 0.2  # seconds, in which a thread begins what it can


class Together(unittest.TestCase):
    def setUp(self) -> None:
        patch = mock.patch.object(module, "runs_at_once", return_value=3)
        patch.start()
        self.addCleanup(patch.stop)

    def test_answers_come_in_the_order_of_the_questions(self) -> None:
        second_is_done = threading.Event()

        def run(number: int) -> int:
            if number == 0:
                second_is_done.wait(LONG)
            if number == 1:
                second_is_done.set()
            return 10 * number

        self.assertEqual(list(together(run, range(20))), list(range(0, 200, 10)))
        self.assertEqual(list(together(run, [])), [])

    def test_several_run_at_once(self) -> None:
        barrier = threading.Barrier(3)
        self.assertEqual(len(list(together(lambda _: barrier.wait(LONG), range(9)))), 9)

    def test_what_nobody_takes_is_not_run_ahead(self) -> None:
        asked = itertools.count()
        answers = together(lambda number: number, asked)
        self.assertEqual([next(answers) for _ in range(5)], [0, 1, 2, 3, 4])
        self.assertLessEqual(next(asked), 5 + 2 * 3)
        answers.close()

    def test_behind_a_fault_nothing_begins(self) -> None:
        begun: list[int] = []

        def run(number: int) -> int:
            begun.append(number)
            if number == 4:
                raise refuse("file", "it is wrong")
            if number > 4:
                time.sleep(SHORT)
            return number

        with self.assertRaises(Refused):
            list(together(run, range(1000)))
        # 5 and 6 run beside it, and the thread that had it may have begun 7; 8 and 9 had been asked for.
        self.assertLessEqual(max(begun), 7)

    def test_a_thread_that_cannot_be_started_is_told(self) -> None:
        with mock.patch("threading.Thread.start", side_effect=RuntimeError("can't start new thread")):
            with self.assertRaises(Refused) as refused:
                list(together(lambda number: number, range(9)))
        self.assertEqual(refused.exception.lines(), ["the runs: none can be begun beside another (can't start new thread)"])

    def test_where_the_caller_goes_no_further_nothing_begins(self) -> None:
        begun: list[int] = []

        def run(number: int) -> None:
            begun.append(number)
            if number > 0:
                time.sleep(SHORT)

        answers = together(run, range(1000))
        next(answers)
        answers.close()
        # 1 and 2 run, and the thread that had 0 may have begun 3; 4 and 5 had been asked for.
        self.assertLessEqual(max(begun), 3)
        self.assertFalse([it for it in threading.enumerate() if it.name.startswith("ThreadPool")])


class AtOnce(shared.DeskTest):
    def test_as_many_as_processors_and_memory_have_room_for_up_to_eight(self) -> None:
        for many, kilobytes, expected in ((1, 10**8, 1), (4, 10**8, 4), (64, 10**8, 8), (8, 2_000_000, 3), (8, 1000, 1)):
            told = self.file("meminfo", f"MemTotal:       99999999 kB\nMemAvailable:   {kilobytes} kB\n")
            with (
                self.subTest(many=many, kilobytes=kilobytes),
                mock.patch("os.sched_getaffinity", return_value=set(range(many))),
                mock.patch.object(module, "MEMORY", told),
            ):
                self.assertEqual(module.runs_at_once(), expected)

    def test_where_the_system_tells_no_memory_processors_decide(self) -> None:
        with (
            mock.patch("os.sched_getaffinity", return_value={0, 1}),
            mock.patch.object(module, "MEMORY", self.folder / "none"),
        ):
            self.assertEqual(module.runs_at_once(), 2)


if __name__ == "__main__":
    unittest.main()
