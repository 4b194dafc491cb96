"""Signals that end a command: Ctrl-C, TERM and HUP. Each is taken once, and what it leaves behind is cleared away."""

import contextlib
import signal
import sys
from collections.abc import Iterator
from types import FrameType

from .running import STOPPING, stop_running

STOPS = (signal.SIGINT, signal.SIGTERM, signal.SIGHUP)


class Stopped(BaseException):
    """A signal that ends the command."""

    def __init__(self, number: int) -> None:
        super().__init__(number)
        self.status = 128 + number  # as shells tell it


TAKEN: list[int] = []  # the signal that ends the command, once there is one


def stop(number: int, _: FrameType | None) -> None:
    """Ends all runs, and the command where it stands; another signal behind it doesn't disturb that."""
    if not TAKEN:
        TAKEN.append(number)
        stop_running()
        raise Stopped(number)


def look() -> None:
    """Ends the command where a signal was taken and what it raised was lost, as in the end of an object."""
    if TAKEN:
        raise Stopped(TAKEN[0])


def unraisable(lost: "sys.UnraisableHookArgs") -> None:
    """Says nothing of a stop that couldn't be raised, which `look` raises again."""
    if not isinstance(lost.exc_value, Stopped):
        sys.__unraisablehook__(lost)


@contextlib.contextmanager
def signals_taken() -> Iterator[None]:
    """Within it signals end the command, those that are ignored excepted; behind it they are as before."""
    TAKEN.clear()
    STOPPING.clear()
    mask = signal.pthread_sigmask(signal.SIG_BLOCK, STOPS)
    kept = {number: signal.getsignal(number) for number in STOPS}
    hook, sys.unraisablehook = sys.unraisablehook, unraisable
    for number, handler in kept.items():
        if handler is not signal.SIG_IGN:
            signal.signal(number, stop)
    try:
        signal.pthread_sigmask(signal.SIG_UNBLOCK, STOPS)
        yield
        look()
    finally:
        signal.pthread_sigmask(signal.SIG_BLOCK, STOPS)
        for number, handler in kept.items():
            signal.signal(number, handler)
        sys.unraisablehook = hook
        signal.pthread_sigmask(signal.SIG_SETMASK, mask)


@contextlib.contextmanager
def held() -> Iterator[None]:
    """Within it signals wait: for work of a moment that is done whole or not at all. One that comes just before it is
    raised behind it."""
    mask = signal.pthread_sigmask(signal.SIG_BLOCK, ())
    stopped = None
    try:
        signal.pthread_sigmask(signal.SIG_BLOCK, STOPS)
    except Stopped as raised:  # (by the call itself, which has blocked them)
        stopped = raised
    try:
        yield
    finally:
        signal.pthread_sigmask(signal.SIG_SETMASK, mask)
    if stopped is not None:
        raise stopped
