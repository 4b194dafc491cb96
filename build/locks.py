"""Folders in which one call works at a time."""

import fcntl
import os
import time
from collections.abc import Iterator
from contextlib import contextmanager
from pathlib import Path

from teller import Teller

LOOK = 0.5


def takes(held: int) -> bool:
    """Whether the lock of an open folder is free, and is taken now. Some file systems have no locks, and all are free there."""
    try:
        fcntl.flock(held, fcntl.LOCK_EX | fcntl.LOCK_NB)
    except BlockingIOError:
        return False
    except OSError:
        pass
    return True


@contextmanager
def locked_if_free(folder: Path) -> Iterator[bool]:
    """Keeps others out of the folder, unless another works in it; tells which."""
    held = os.open(folder, os.O_RDONLY)
    try:
        yield takes(held)
    finally:
        os.close(held)


@contextmanager
def locked(folder: Path, teller: Teller, why: str) -> Iterator[None]:
    """Keeps others out of the folder, once they have left it."""
    held = os.open(folder, os.O_RDONLY)
    has_waited = False
    try:
        while not takes(held):
            if not has_waited or teller.is_due():
                teller.say(why)
            has_waited = True
            time.sleep(LOOK)
        yield
    finally:
        os.close(held)
