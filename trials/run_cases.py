#!/usr/bin/env python3
"""Runs a program over folders of worked cases, and has each run judged.

    python3 trials/run_cases.py PROGRAM [--cases DIR] [--only GLOB] [--modes MODE,..] [--seconds S] [--jobs N]

PROGRAM is a program or a Python script. Each run has a scratch folder of its own with copies of the files of one folder
of DIR, `referee/cases` beside this script where it is not given, and is looked at by the referee: its status, its line and each
line of its report. With --modes the program has these modes alone: another mode's word is then an unknown mode, and an
option that no mode of them has an unknown word; cases of other modes are left out. A run has S seconds (60).

A folder holds the input files and `words`, one word a line. It may have `expect` (the status and then the line),
`stdout` (the bytes of the output), `gen` (a Python script that makes large inputs in the scratch folder), `then` (the
words of a second run, which finds the output of the first in `first.out`), `sink` (`out` or `err`: that stream is one
that is always full), `timeout` (the seconds of this case) and `note`, for readers.

Failing cases are printed. The last line is `N passed, M failed, K left out`, and the exit status is 1 where M is not 0.
"""

from __future__ import annotations

import argparse
import concurrent.futures
import fnmatch
import os
import shutil
import subprocess
import sys
import tempfile
from collections.abc import Collection, Sequence
from typing import NamedTuple, Optional

import paths

from referee.faults import run_faults
from referee.outcome import Folder, Outcome, predict
from referee.words import MODES, mode_of, usage_fault
from shared import command_of

CASES = paths.HERE / "referee" / "cases"
USAGE = (__doc__ or "").split("\n")[2].strip()
SPECIAL = {"words", "then", "expect", "stdout", "gen", "note", "timeout", "sink"}


def read_words_file(folder: Folder, name: str) -> Optional[list[bytes]]:
    """The words of a file, one a line, or None where there is none."""
    path = os.path.join(folder, name)
    if not os.path.exists(path):
        return None
    with open(path, "rb") as file:
        return file.read().removesuffix(b"\n").split(b"\n") if os.path.getsize(path) else []


def read_text(folder: Folder, name: str) -> str:
    path = os.path.join(folder, name)
    if not os.path.exists(path):
        return ""
    with open(path) as file:
        return file.read()


def is_run_here(words: Sequence[bytes], built: Collection[str]) -> bool:
    """Whether the words name a mode that is there, or have the same fault whichever modes are there."""
    fault = usage_fault(words)
    return mode_of(words) in built or (fault is not None and fault == usage_fault(words, built))


def fill(folder: Folder, scratch: Folder) -> None:
    """Copies the files of a case, and makes its large ones."""
    for name in os.listdir(folder):
        if name not in SPECIAL:
            source = os.path.join(folder, name)
            target = os.path.join(scratch, name)
            if os.path.isdir(source):
                shutil.copytree(source, target)
            else:
                shutil.copy(source, target)
    maker = os.path.join(folder, "gen")
    if os.path.exists(maker):
        subprocess.run([sys.executable, maker], cwd=scratch, check=True, timeout=300)


class Ran(NamedTuple):
    """How a program ended."""

    status: int
    output: bytes
    told: bytes


def call(command: Sequence[bytes], scratch: Folder, sink: str, seconds: float) -> Ran:
    """Runs a program; a TimeoutExpired where the program doesn't end."""
    with open("/dev/full" if sink else os.devnull, "wb") as full:
        ran = subprocess.run(
            command,
            cwd=scratch,
            stdin=subprocess.DEVNULL,
            stdout=full if sink == "out" else subprocess.PIPE,
            stderr=full if sink == "err" else subprocess.PIPE,
            timeout=seconds,
            check=False,
        )
    return Ran(ran.returncode, ran.stdout or b"", ran.stderr or b"")


def full_sink_faults(sink: str, outcome: Outcome, ran: Ran) -> list[str]:
    """What is wrong of a run with a full stream: a full output is a failed write, and a full error stream nothing."""
    wanted = 4 if sink == "out" and outcome.status == 0 else outcome.status
    line = b"gicstudy: cannot write\n" if wanted == 4 else (outcome.line or "").encode() + b"\n"
    faults = [] if ran.status == wanted else [f"with a full stream: status {ran.status}, expected {wanted}"]
    if sink == "out" and ran.told != line:
        faults.append(f"with a full output: told {ran.told[:100]!r}")
    if sink == "err" and wanted != 0 and ran.output:
        faults.append("with a full error stream: something on the output")
    return faults


def expectation_faults(folder: Folder, ran: Ran) -> list[str]:
    """What is wrong by the files `expect` and `stdout`."""
    expect = read_text(folder, "expect").split("\n")
    faults: list[str] = []
    if expect[0]:
        line = expect[1].encode() + b"\n" if len(expect) > 1 and expect[1] else b""
        if (ran.status, ran.told) != (int(expect[0]), line):
            faults.append(f"expect: status {ran.status}, told {ran.told[:120]!r}")
    if os.path.exists(os.path.join(folder, "stdout")):
        with open(os.path.join(folder, "stdout"), "rb") as file:
            if file.read() != ran.output:
                faults.append("stdout is not the expected text")
    return faults


def run_once(
    folder: Folder, scratch: Folder, command: Sequence[str], built: Collection[str], seconds: float, is_first: bool
) -> tuple[list[str], bytes]:
    """The faults of one run, and its output."""
    words = read_words_file(folder, "words" if is_first else "then") or []
    outcome, sink = predict(words, scratch, built), read_text(folder, "sink").strip()
    try:
        ran = call([*map(os.fsencode, command), *words], scratch, sink, seconds)
    except subprocess.TimeoutExpired:
        return [f"no end within {seconds:g} s"], b""
    if sink:
        return full_sink_faults(sink, outcome, ran), ran.output
    faults = run_faults(outcome, *ran)
    if is_first and usage_fault(words, built) == usage_fault(words):
        faults += expectation_faults(folder, ran)
    return faults, ran.output


def run_case(folder: Folder, command: Sequence[str], built: Collection[str], seconds: float) -> Optional[list[str]]:
    """The faults of a case, or None where it is left out."""
    second = read_words_file(folder, "then")
    if not all(is_run_here(words, built) for words in [read_words_file(folder, "words"), second] if words is not None):
        return None
    seconds = max(seconds, float(read_text(folder, "timeout") or 0))
    faults: list[str] = []
    first: Optional[bytes] = None
    for is_first in (True, False) if second is not None else (True,):
        with tempfile.TemporaryDirectory(prefix="referee_") as scratch:
            fill(folder, scratch)
            if first is not None:
                with open(os.path.join(scratch, "first.out"), "wb") as file:
                    file.write(first)
            found, first = run_once(folder, scratch, command, built, seconds, is_first)
            faults += found
    return faults


def main() -> bool:
    parser = argparse.ArgumentParser(usage=USAGE, allow_abbrev=False)
    parser.add_argument("program")
    parser.add_argument("--cases", default=str(CASES))
    parser.add_argument("--only", default="*")
    parser.add_argument("--modes", default=",".join(MODES))
    parser.add_argument("--seconds", type=float, default=60)
    parser.add_argument("--jobs", type=int, default=os.cpu_count())
    given = parser.parse_args()
    built = tuple(given.modes.split(","))
    names = [name for name in sorted(os.listdir(given.cases)) if fnmatch.fnmatch(name, given.only)]
    counts = {"passed": 0, "failed": 0, "left out": 0}
    with concurrent.futures.ProcessPoolExecutor(given.jobs) as pool:
        runs = [
            pool.submit(run_case, os.path.join(given.cases, name), command_of(given.program), built, given.seconds)
            for name in names
        ]
        for name, run in zip(names, runs):
            faults = run.result()
            counts["left out" if faults is None else "failed" if faults else "passed"] += 1
            for fault in faults or []:
                print(f"{name}: {fault}", flush=True)
    print(", ".join(f"{count} {word}" for word, count in counts.items()))
    return counts["failed"] > 0 or not names


if __name__ == "__main__":
    sys.exit(main())
