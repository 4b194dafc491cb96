"""Signals that end a call: what it has begun is ended and removed first, and then it ends by that signal."""

import os
import signal
import subprocess
from collections.abc import Iterator, Sequence
from contextlib import contextmanager
from pathlib import Path
from types import FrameType
from typing import Any, NoReturn

from runs import end_with_parent

STOPS = (signal.SIGINT, signal.SIGTERM, signal.SIGHUP)
# How long what was begun may take to remove what it has made, once it is told to end.
PATIENCE = 10.0


class Stopped(Exception):
    """A signal that ends the call."""

    def __init__(self, number: int):
        super().__init__(number)
        self.number = number


def stop_on_signals() -> None:
    def stop(number: int, _: FrameType | None) -> None:
        for it in STOPS:
            signal.signal(it, signal.SIG_IGN)
        raise Stopped(number)

    for it in STOPS:
        if signal.getsignal(it) is not signal.SIG_IGN:
            signal.signal(it, stop)


def go_on_without() -> None:
    """From here on a signal ends this process at once, as there is nothing left to remove."""
    for it in STOPS:
        if signal.getsignal(it) is not signal.SIG_IGN:
            signal.signal(it, signal.SIG_DFL)


def end_by(number: int) -> NoReturn:
    """Ends this process by a signal, as if nothing had caught it."""
    signal.signal(number, signal.SIG_DFL)
    signal.pthread_sigmask(signal.SIG_UNBLOCK, [number])
    os.kill(os.getpid(), number)
    # (the first process of a container has no such end)
    os._exit(128 + number)


def begin_as_child() -> None:
    """Between its fork and its own words a run has no handler of ours."""
    go_on_without()
    end_with_parent()
    signal.pthread_sigmask(signal.SIG_UNBLOCK, STOPS)


@contextmanager
def held_back() -> Iterator[None]:
    """Within the block no signal ends the call; one that comes there ends it behind the block."""
    try:
        signal.pthread_sigmask(signal.SIG_BLOCK, STOPS)
        yield
    finally:
        signal.pthread_sigmask(signal.SIG_UNBLOCK, STOPS)


@contextmanager
def let_in() -> Iterator[None]:
    """Within the block, which lies in one of `held_back`, signals end the call."""
    try:
        signal.pthread_sigmask(signal.SIG_UNBLOCK, STOPS)
        yield
    finally:
        signal.pthread_sigmask(signal.SIG_BLOCK, STOPS)


@contextmanager
def running(words: Sequence[str | Path], **how: Any) -> Iterator["subprocess.Popen[bytes]"]:
    """Runs the words. Where the block is left before they have ended, they are ended; no signal comes between."""
    with held_back():
        ran = subprocess.Popen(words, preexec_fn=begin_as_child, **how)
        try:
            with let_in():
                yield ran
        finally:
            end(ran)


def end(ran: "subprocess.Popen[bytes]") -> None:
    """Ends a run, which takes what it has begun with it."""
    if ran.poll() is None:
        ran.terminate()
        try:
            ran.wait(PATIENCE)
        except subprocess.TimeoutExpired:
            ran.kill()
            ran.wait()
