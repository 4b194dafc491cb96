"""Runs of the program beside each other, with what comes of them in order."""

import collections
import concurrent.futures
import os
import pathlib
import re
from collections.abc import Callable, Generator, Iterable
from typing import TypeVar

from .findings import refuse
from .running import STOPPING, result_of, stop_running
from .stops import TAKEN

Question = TypeVar("Question")
Answer = TypeVar("Answer")

MOST_AT_ONCE = 8
ONE_RUN = 600_000_000  # bytes, as over a case at every limit; most take a sixth of that and less
MEMORY = pathlib.Path("/proc/meminfo")


def runs_at_once() -> int:
    """As many as there are processors for this process, and as the free memory has room for."""
    many = min(len(os.sched_getaffinity(0)), MOST_AT_ONCE)
    try:
        free = re.search(r"^MemAvailable: +([0-9]+) kB", MEMORY.read_text(), re.MULTILINE)
    except OSError:
        free = None
    return many if free is None else max(1, min(many, 1024 * int(free[1]) // ONE_RUN))


def together(run: Callable[[Question], Answer], questions: Iterable[Question]) -> Generator[Answer, None, None]:
    """What comes of each run, in the order in which they are asked for. Of what nobody has taken yet there is no more
    than twice as many as runs at once. Where the caller goes no further, the runs that go on are ended, and no other
    begins."""
    at_once = runs_at_once()
    waiting: collections.deque[concurrent.futures.Future[Answer]] = collections.deque()
    try:
        with concurrent.futures.ThreadPoolExecutor(at_once) as pool:
            try:
                for question in questions:
                    waiting.append(begun(pool, run, question))
                    if len(waiting) == 2 * at_once:
                        yield result_of(waiting.popleft())
                while waiting:
                    yield result_of(waiting.popleft())
            except BaseException:
                stop_running()
                pool.shutdown(wait=False, cancel_futures=True)
                raise
    except (Exception, GeneratorExit):
        # (behind a signal nothing is to run any more)
        if not TAKEN:
            STOPPING.clear()
        raise


def begun(
    pool: concurrent.futures.ThreadPoolExecutor, run: Callable[[Question], Answer], question: Question
) -> concurrent.futures.Future[Answer]:
    try:
        return pool.submit(run, question)
    except RuntimeError as error:
        raise refuse("the runs", f"none can be begun beside another ({error})") from None
