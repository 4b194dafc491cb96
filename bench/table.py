#!/usr/bin/env python3
"""Makes a table in Markdown of the lines of words that solver.sh collects.

    python3 bench/table.py < figures.txt
"""

from __future__ import annotations

import sys
from collections.abc import Sequence

HEADS = (
    "case",
    "nodes",
    "elements",
    "walk",
    "plain sweeps",
    "passes",
    "sweeps left",
    "`solve`, µs",
    "`solve` ÷ sweeps",
    "reciprocal ÷ division",
    "`bound` ÷ by division",
    "`bound` ÷ some",
    "`bound` ÷ least",
    "`bound` ÷ outage",
    "tests a node",
    "whole field, µs",
    "field ÷ direct",
    "field ÷ Octave",
    "field ÷ Arb",
)


def ratio(part: str, whole: str) -> str:
    """How many times less, or more, as a number."""
    if whole == "-":
        return "-"
    number = int(part) / int(whole)
    return f"{number:.2f}" if number >= 0.1 else f"1/{1 / number:.0f}"


def row(words: Sequence[str]) -> tuple[str, ...]:
    figures = dict(zip(words[::2], words[1::2]))
    ended = figures["ended"] == "1"
    outage = "-" if figures["outages"] == "0" else figures["outage_bound"]
    plain = ratio(figures["solve"], figures["plain"])
    return (
        figures["case"],
        figures["nodes"],
        figures["elements"],
        figures["walk"],
        figures["sweeps"] if ended else f"over {figures['sweeps']}",
        figures["passes"],
        figures["sweeps_left"],
        str(int(figures["solve"]) // 1000),
        plain if ended else f"under {plain}",
        ratio(figures["pass"], figures["slow_pass"]),
        ratio(figures["bound"], figures["slow_bound"]),
        ratio(figures["bound"], figures["some_bound"]),
        ratio(figures["bound"], figures["least_bound"]),
        ratio(figures["bound"], outage),
        "-" if outage == "-" else ratio(outage, figures["test"]),
        str(int(figures["field"]) // 1000),
        ratio(figures["field"], figures["direct"]),
        ratio(figures["field"], figures["interval"]),
        ratio(figures["field"], figures["ball"]),
    )


def main() -> None:
    print("| " + " | ".join(HEADS) + " |")
    print("|---" * len(HEADS) + "|")
    for line in sys.stdin:
        print("| " + " | ".join(row(line.split())) + " |", flush=True)


if __name__ == "__main__":
    main()
