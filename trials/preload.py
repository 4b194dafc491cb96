"""Builds and drives `refuse.c`, the library that counts the calls of a run and refuses some of them."""

from __future__ import annotations

import os
import struct
import subprocess
import tempfile
from collections.abc import Sequence
from typing import NamedTuple, Optional

import paths
import shared

FORM = struct.Struct("=5QQQqqQ")
ENDING = struct.Struct("=QQQqQQ32s")
STRETCH_SECONDS = 1000
MILLISECOND = 10**6


class Counts(NamedTuple):
    """The calls of a run, as `refuse.c` keeps them; times are of the processor, in nanoseconds."""

    growth: int
    open: int
    read: int
    write: int
    tell: int
    refused: int
    growths_at_write: int
    latest_growth: int
    longest_pause: int
    growths_at_pause: int

    def of(self, call: str) -> int:
        """How many calls of a kind there were: `growth`, `open`, `read`, `write` or `tell`."""
        return {"growth": self.growth, "open": self.open, "read": self.read, "write": self.write, "tell": self.tell}[call]


class Refusal(NamedTuple):
    """Which calls are refused and how: from the call number `first` on, `length` of them."""

    call: str
    first: int
    length: int = 1
    how: str = "5"


class Ending(NamedTuple):
    """How a run ended that was split off: which growths were refused, how many it asked for, its status or signal, how
    much it wrote and told, and the first of what it told."""

    first: int
    length: int
    growths: int
    status: int
    output: int
    told: int
    line: bytes


def build(folder: str) -> str:
    """The path of the built library."""
    library = os.path.join(folder, "refuse.so")
    subprocess.run(["cc", "-O2", "-shared", "-fPIC", "-o", library, paths.HERE / "refuse.c"], check=True)
    return library


def run(
    library: str,
    command: Sequence[str],
    folder: str,
    refusal: Optional[Refusal] = None,
    seconds: float = shared.RUN_SECONDS,
) -> tuple[shared.Answer, Counts]:
    """Runs a command with some calls refused, or none; its answer and its counts."""
    with tempfile.NamedTemporaryFile(prefix="counts_") as counts:
        counts.write(bytes(FORM.size))
        counts.flush()
        environment = os.environ | {"LD_PRELOAD": library, "TRIAL_COUNTS": counts.name}
        if refusal is not None:
            given = ("CALL", refusal.call), ("FIRST", refusal.first), ("LENGTH", refusal.length), ("HOW", refusal.how)
            environment |= {"TRIAL_" + name: str(value) for name, value in given}
        answer = shared.run(command, folder, environment, seconds)
        counts.seek(0)
        return answer, Counts(*FORM.unpack(counts.read(FORM.size)))


def endings(library: str, command: Sequence[str], folder: str, first: int, length: int) -> list[Ending]:
    """How the runs ended that split off at a number of growths, in which they are refused."""
    with tempfile.NamedTemporaryFile(prefix="endings_") as kept:
        given = ("ENDINGS", kept.name), ("CALL", "growth"), ("FIRST", first), ("LENGTH", length)
        environment = os.environ | {"LD_PRELOAD": library} | {"TRIAL_" + name: str(value) for name, value in given}
        shared.run(command, folder, environment, STRETCH_SECONDS)
        return [Ending(*fields) for fields in ENDING.iter_unpack(kept.read())]
