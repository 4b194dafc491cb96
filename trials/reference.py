#!/usr/bin/env python3
"""A slow program with the words of `gicstudy`, which prints reports of exact values.

    python3 trials/reference.py MODE --OPTION=VALUE ..

It has the status and the line from the referee's `outcome`, and the report from its `reference`. It shows that right reports
are accepted, and stands in for the program where a trial itself is to be tried. The environment variable REFEREE_MODES names
the modes that it has, as `volts,list`; with REFEREE_SLACK=1 its intervals are wider at random, up to the width.
"""

from __future__ import annotations

import os
import sys

import paths  # noqa: F401 - it finds the modules below

from referee.outcome import predict
from referee.reference import Report
from referee.words import MODES


def write_all(stream: int, content: bytes) -> None:
    while content:
        content = content[os.write(stream, content) :]


def main() -> int:
    words = [os.fsencode(word) for word in sys.argv[1:]]
    built = tuple(filter(None, os.environ.get("REFEREE_MODES", "").split(","))) or MODES
    outcome = predict(words, ".", built)
    if outcome.status == 0:
        try:
            write_all(1, Report(outcome, bool(os.environ.get("REFEREE_SLACK"))).text())
        except OSError:
            outcome.status, outcome.line = 4, "gicstudy: cannot write"
    if outcome.status and outcome.line is not None:
        try:
            write_all(2, outcome.line.encode() + b"\n")
        except OSError:
            pass
    return outcome.status


if __name__ == "__main__":
    sys.exit(main())
