#!/usr/bin/env python3
"""Works out the losses of random studies from their steps in detail, and sets them beside the lines of the monitors.

    python3 bench/losses.py PROGRAM [COUNT] [SEED]

PROGRAM is the built program `gic_loss_study`, which attaches both monitors of losses. Random studies are made as in
`generators/random_cases.py`, the same ones for the same SEED (1), until COUNT of them (200) are solved; in every other one each
step of the storm comes twice. For each step K the absolute intervals of the lines `effective` of `study --detail=K` are
weighed by factors and summed, once with those of `VoltLoss` and once with those of the table of PROGRAM. The greatest
low end of the steps, their greatest high end and the first step that has it must be those of the lines `loss` and
`table`, in the report without a step in detail and in all the others.

The last line tells how many studies and steps there were, how many lines were compared, and how many of them differ.
The exit status is 1 where any does.
"""

from __future__ import annotations

import random
import sys
import tempfile
from collections.abc import Sequence
from pathlib import Path
from typing import NamedTuple, Optional

from running import REFUSALS, numbers_of, program_of, run  # which finds the modules below

from generators import random_cases
from referee.case import Transformer, read_case
from referee.values import Interval, magnitude

NODES = 40
MOST_CURRENT = 2**70
# The table of `crates/gic_loss_study`, and the scale of its monitor by voltages.
TABLE = [(f"T{place % 24}", 400 + 7 * place) for place in range(36)]
SCALE = 1


Step = list[Interval]  # the effective interval of each transformer


class Studied(NamedTuple):
    """How many steps a study has, the lines that each of its reports should have, and those that they have."""

    steps: int
    wanted: list[str]
    shown: list[list[str]]


def volt_factor(unit: Transformer) -> int:
    return unit.loss_factor * SCALE


def table_factor(unit: Transformer) -> int:
    """The factor of the first entry with the name."""
    return next((factor for name, factor in TABLE if name == unit.name), 0)


def counted(current: Interval) -> Interval:
    """The interval of the absolute value, each end cut to what counts."""
    return Interval(*(min(end, MOST_CURRENT) for end in magnitude(current)))


def total(factors: Sequence[int], step: Step) -> Interval:
    """The least and the greatest total of a step."""
    units = [counted(current) for current in step]
    low = sum(factor * unit.low for factor, unit in zip(factors, units))
    return Interval(low, sum(factor * unit.high for factor, unit in zip(factors, units)))


def line(word: str, factors: Sequence[int], steps: Sequence[Step]) -> str:
    """What a monitor with these factors has to print of all steps."""
    totals = [total(factors, step) for step in steps]
    highs = [high for _, high in totals]
    return f"{word} {max(low for low, _ in totals)} {max(highs)} step {highs.index(max(highs)) + 1}"


def twice(storm: str) -> str:
    """The storm with each of its steps once more, behind all of them."""
    head, *rows = [row.split(",") for row in storm.splitlines()]
    again = int(rows[-1][0]) + 1
    rows += [[str(int(time) + again), *fields] for time, *fields in rows]
    return "".join(",".join(row) + "\n" for row in [head, *rows])


def report(program: str, folder: str, words: Sequence[str]) -> Optional[list[str]]:
    """The lines of a report, or none where the network is refused."""
    ran = run(program, folder, words, "4")
    if ran.status not in (0, *REFUSALS):
        sys.exit(f"losses.py: status {ran.status} of {' '.join(words)} in {folder}: {ran.told}")
    return ran.lines if ran.status == 0 else None


def monitor(lines: Sequence[str], number: int) -> str:
    """The text of a monitor with one line."""
    heads = [place for place, text in enumerate(lines) if text.startswith(f"monitor {number} ")]
    text = lines[heads[-1] + 1]
    return text if lines[heads[-1]] == f"monitor {number} {len(text) + 1}" else f"a text of another length: {text}"


def effectives(lines: list[str], step: int, units: Sequence[Transformer]) -> Step:
    """The effective interval of each unit in the detail block of a step."""
    inside = lines[3 : lines.index("peaks")]
    rows = [text.split() for text in inside if text.startswith("effective ")]
    is_step = lines[2].startswith(f"step {step} time ")
    if not is_step or [row[1] for row in rows] != [unit.name for unit in units]:
        sys.exit(f"losses.py: no detail block of step {step} with each transformer in order")
    return [Interval(int(low), int(high)) for _, _, low, high in rows]


def study(program: str, folder: str, words: Sequence[str], units: Sequence[Transformer]) -> Optional[Studied]:
    """What a study shows without a step in detail and with each, or none where it is refused."""
    plain = report(program, folder, words)
    if plain is None:
        return None
    count = int(plain[1].split()[-1])
    details = [report(program, folder, [*words, f"--detail={step}"]) or [] for step in range(1, count + 1)]
    steps = [effectives(lines, step, units) for step, lines in enumerate(details, 1)]
    wanted = [
        line("loss", [volt_factor(unit) for unit in units], steps),
        line("table", [table_factor(unit) for unit in units], steps),
    ]
    return Studied(count, wanted, [[monitor(lines, 3), monitor(lines, 4)] for lines in [plain, *details]])


def files(draw: random.Random, place: int) -> tuple[random_cases.Files, list[str], list[Transformer]]:
    """The files of a study, its words, and the transformers of its case."""
    made = random_cases.run(draw, "study", NODES)
    if place % 2:
        made["t"] = twice(made["t"])
    words = [word for word in made.pop("words").split() if not word.startswith("--detail=")]
    return made, words, read_case(made["p"].encode()).transformers


def main() -> None:
    program = program_of(sys.argv[1])
    count, seed = numbers_of(sys.argv[2:], 200, 1)
    solved = refused = steps = compared = differ = late = 0
    while solved < count:
        place = solved + refused
        made, words, units = files(random.Random(seed * random_cases.SEEDS_APART + place), place)
        with tempfile.TemporaryDirectory() as folder:
            for name, text in made.items():
                Path(folder, name).write_text(text)
            answer = study(program, folder, words, units)
        if answer is None:
            refused += 1
            continue
        solved += 1
        steps += answer.steps
        late += sum(not text.endswith(" step 1") for text in answer.wanted)
        for shown in answer.shown:
            compared += len(answer.wanted)
            for right, text in zip(answer.wanted, shown):
                if right != text:
                    differ += 1
                    print(f"study {place}: wanted {right}, shown {text}", flush=True)
    print(
        f"{solved} studies of {steps} steps, {refused} more refused: {compared} lines compared, {differ} differ; "
        f"{late} of {2 * solved} lines name a step behind the first"
    )
    sys.exit(differ > 0)


if __name__ == "__main__":
    main()
