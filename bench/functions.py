#!/usr/bin/env python3
"""Shows which functions the proofs of crates spend their time on.

    python3 bench/functions.py TOP MOST NAME ..

TOP is a checkout whose libraries are built (./gicstudy --prove), and each NAME a crate of it, or `all`. Each crate is checked
anew by itself with one job, and the processor time of the prover is read whenever it ends with a function's proof: the
difference from the line before is that function's, with what was made ready for it. What comes before the first function
(reading, types, the libraries below) and behind the last counts as the crate's frame. The MOST slowest are shown."""

from __future__ import annotations

import os
import shutil
import subprocess
import sys
from collections.abc import Iterator, Sequence
from dataclasses import dataclass
from pathlib import Path
from typing import Any

import paths as paths  # which finds the modules below

from crates import Fault, read_crates
from kit import UnknownToolchain, crate_of, load
from sources import LIST

TICKS = os.sysconf("SC_CLK_TCK")
CHECKED = "checked "


@dataclass(frozen=True)
class Spent:
    """A function of a crate, or its frame, and the processor seconds that it took."""

    crate: str
    function: str
    seconds: float


def used_by(process: int) -> float:
    """The processor seconds of a process that runs, in its own code and the system's."""
    words = Path(f"/proc/{process}/stat").read_text(encoding="ascii").rpartition(")")[2].split()
    return (int(words[11]) + int(words[12])) / TICKS


def function_in(line: str) -> str | None:
    """The function that a line of progress names: `checked NAME, K of N`."""
    return line[len(CHECKED) :].rpartition(",")[0] if line.startswith(CHECKED) and " of " in line else None


def spent_in(crate: str, moments: Sequence[tuple[str, float]], whole: float) -> Iterator[Spent]:
    """What each function took, from the moments at which each ended."""
    before = 0.0
    for place, (function, moment) in enumerate(moments):
        if place == 0:
            yield Spent(crate, "(up to its first function)", moment)
        else:
            yield Spent(crate, function, moment - before)
        before = moment
    yield Spent(crate, "(behind its last function)", whole - before)


def check(crate: Any, rattle: str) -> list[Spent]:
    """Checks a crate with one job."""
    words = [rattle, "check", *crate.words(["--jobs", "1"], keeps=False), "--progress"]
    moments: list[tuple[str, float]] = []
    before = os.times()
    with subprocess.Popen(words, cwd=crate.folder, stdout=subprocess.PIPE, stderr=subprocess.STDOUT, text=True, bufsize=1) as run:
        assert run.stdout is not None
        last = ""
        for line in run.stdout:
            last = line
            function = function_in(line)
            if function is not None:
                moments.append((function, used_by(run.pid)))
    if run.returncode != 0:
        raise Fault(f"{crate.name} isn't proved: {last.strip()}")
    after = os.times()
    whole = after.children_user + after.children_system - before.children_user - before.children_system
    return list(spent_in(crate.name, moments, whole))


def main(words: Sequence[str]) -> int:
    if len(words) < 3 or not words[1].isdigit():
        print(__doc__, file=sys.stderr)
        return 2
    top, most, names = Path(words[0]).resolve(), int(words[1]), list(words[2:])
    try:
        if names == ["all"]:
            names = list(read_crates((top / LIST).read_text(encoding="utf-8")))
        tools = os.path.dirname(os.path.realpath(shutil.which("rt") or "rt"))
        rtlib: Any = load(f"{tools}/rtlib.py", "rtlib")
        spent: list[Spent] = []
        for name in names:
            found = check(crate_of(rtlib, str(top), name), f"{tools}/rattle")
            spent += found
            print(f"{sum(it.seconds for it in found):8.1f}  {name}", file=sys.stderr, flush=True)
    except (OSError, Fault, UnknownToolchain) as error:
        print(f"functions.py: {error}", file=sys.stderr)
        return 1
    for it in sorted(spent, key=lambda it: -it.seconds)[:most]:
        print(f"{it.seconds:8.1f}  {it.crate}  {it.function}")
    return 0


if __name__ == "__main__":
    sys.exit(main(sys.argv[1:]))
