#!/usr/bin/env python3
"""Sets least capped vectors of random networks beside exact whole-number arithmetic.

    python3 bench/vectors.py BENCHMARK [COUNT] [SEED]

BENCHMARK is the program that solver.sh builds, `crates/gic_bench/out/gic_bench` in its folder. It prints the least capped
vector of each network twice, as `bound` finds it and as `bound_from` does behind `find_bound`; both have to be the one
that the referee (trials/referee) finds, entry for entry, and both name the first node with the entry 4097 where there is
one. COUNT networks (5000) of 2 to 40 nodes, as generators/networks.py draws them: a quarter each with usual resistances, with
resistances at both ends of their range, just within 4096 and just past it; dead nodes and several parts among them.
"""

from __future__ import annotations

import functools
import multiprocessing
import os
import random
import subprocess
import sys
import tempfile
from collections import Counter
from collections.abc import Sequence
from pathlib import Path

from running import numbers_of, program_of  # which finds the modules below

from generators.networks import KINDS, first_network
from referee.case import read_case
from referee.earthing import CAP, least_capped

AT_ONCE = 50
WAYS = ("raised", "sunk")


def line_of(way: str, vector: Sequence[int]) -> str:
    """The line that the program has to print."""
    full = vector.index(CAP) if CAP in vector else "ok"
    return " ".join(map(str, (way, full, *vector)))


def compare(program: str, seeds: Sequence[int]) -> tuple[Counter[str], list[str]]:
    """What networks these were, and what differs."""
    ends: Counter[str] = Counter()
    faults: list[str] = []
    with tempfile.TemporaryDirectory() as folder:
        names: list[str] = []
        wanted: list[list[str]] = []
        for seed in seeds:
            kind = KINDS[seed % len(KINDS)]
            text = first_network(random.Random(seed), kind).text
            case = read_case(text.encode())
            vector = least_capped(case, case.all_stand())
            ends[kind] += 1
            ends["with a dead node"] += 0 in vector
            ends["not earthed within 4096"] += CAP in vector
            names.append(os.path.join(folder, str(seed)))
            Path(names[-1]).write_text(text, encoding="utf-8")
            wanted.append([line_of(way, vector) for way in WAYS])
        told = subprocess.run([program, "vectors", *names], capture_output=True, text=True, check=True).stdout.splitlines()
        for place, lines in enumerate(wanted):
            found = told[2 * place : 2 * place + 2]
            faults += [f"{names[place]}: {one!r} for {other!r}" for one, other in zip(found, lines) if one != other]
        if len(told) != 2 * len(names):
            faults.append(f"{len(told)} lines for {len(names)} networks")
    return ends, faults


def main() -> None:
    program = program_of(sys.argv[1])
    count, first = numbers_of(sys.argv[2:], 5000, 20261128)
    seeds = [first * 100000 + place for place in range(count)]
    groups = [seeds[place : place + AT_ONCE] for place in range(0, count, AT_ONCE)]
    ends: Counter[str] = Counter()
    faults: list[str] = []
    with multiprocessing.Pool() as pool:
        for more, found in pool.imap(functools.partial(compare, program), groups):
            ends += more
            faults += found
    for fault in faults[:20]:
        print(fault)
    print(", ".join(f"{number} {what}" for what, number in ends.items()))
    print(f"{count} networks, {2 * count} vectors, {len(faults)} differ")
    sys.exit(1 if faults else 0)


if __name__ == "__main__":
    main()
