#!/usr/bin/env python3
"""Sets `recheck` of the program beside the independent checker, over certificates that pass and others that don't.

    python3 bench/certificates.py PROGRAM [NETWORKS] [MUTATED] [SEED] [--oracle=OTHER] [--jobs=N]

PROGRAM is the built program. Its answers to `recheck` are compared with those of `independent/recheck.py` byte for
byte: status, standard output and fault line. The certificates are

- those of the examples in `crates/gic_examples/data`: of each run of `recheck`, and those that the program makes for
  each run of `certify` or `field`, in the field and under the switchings of that run;
- one of each of NETWORKS random networks (100), made by the program, of networks as in `generators/random_cases.py`, the same ones
  for the same SEED (1); one in eight has all its resistances at the ends of their range;
- MUTATED changed ones of these networks (1000), each with one to three changes (`CHANGES` of `generators/changed_certificates.py`);
- the certificate of each network beside a case or switchings that were changed, MUTATED times too (`CASE_CHANGES` and
  `SWITCHING_CHANGES` there): with a byte order mark, with names twice, with rows that switchings can't have.

One difference is counted by itself and is none of those below, since independent/README.md names it: both refuse the
case, and one of them says that it is no TOML.

With --oracle a second program is asked too, with the same words, and has to answer the same. A name that ends in `.py`
is run by Python. N networks are looked at side by side, one a processor where no N is given.

The last lines tell how many runs were accepted, how many certificates were refused by which rule, how many runs ended
with another status, how often only one of the two found no TOML, and how many answers differ; the exit status is 1 where
any does. The first twenty differences are printed, with a folder that keeps the files of the first one of each network.
"""

from __future__ import annotations

import concurrent.futures
import contextlib
import io
import os
import random
import shutil
import subprocess
import sys
import tempfile
from collections import Counter
from collections.abc import Iterator
from pathlib import Path
from typing import NamedTuple

from paths import TOP  # which finds the modules below

import recheck
from generators import random_cases
from generators.changed_certificates import Files, changed, input_changed
from generators.random_cases import NO_SWITCHINGS, SEEDS_APART

EXAMPLES = TOP / "crates" / "gic_examples" / "data"
NODES = 40


class Answer(NamedTuple):
    """How a run ended."""

    status: int
    output: bytes
    told: bytes

    def kind(self) -> str:
        """`accepted`, the rule that is broken, or another status."""
        if self.status == 13:
            return self.told.decode().split()[2]
        return "accepted" if self.status == 0 else f"status {self.status}"

    def is_no_toml(self) -> bool:
        return self.told == b"gicstudy: case: not toml\n"


def is_named(one: Answer, other: Answer) -> bool:
    """Whether two answers differ in no more than independent/README.md says."""
    return one.status == other.status == 5 and (one.is_no_toml() or other.is_no_toml())


class Setting(NamedTuple):
    """What is compared with the checker, and over how much."""

    programs: list[str]
    mutated: int
    seed: int


class Tally:
    """How the checker answered, and where a program answered otherwise."""

    def __init__(self) -> None:
        self.kinds: Counter[str] = Counter()
        self.named = 0  # differences that independent/README.md names
        self.differing: list[str] = []

    def add(self, other: "Tally") -> None:
        self.kinds += other.kinds
        self.named += other.named
        self.differing += other.differing

    def compare(self, programs: list[str], folder: str, words: list[str], label: str) -> None:
        """Runs `recheck` with the words by all of them."""
        checked = of_checker(folder, words)
        self.kinds[checked.kind()] += 1
        for program in programs:
            answer = of_program(program, folder, ["recheck", *words])
            if answer != checked and is_named(answer, checked):
                self.named += 1
            elif answer != checked:
                kept = "" if self.differing else shutil.copytree(folder, tempfile.mkdtemp(), dirs_exist_ok=True)
                self.differing.append(f"{label}: {shown(checked)}, but {program} {shown(answer)} {kept}")


def shown(answer: Answer) -> str:
    return f"{answer.status} {answer.told or answer.output[-200:]!r}"


def of_program(program: str, folder: str, words: list[str]) -> Answer:
    """What a program answers."""
    command = [sys.executable, "-B", program] if program.endswith(".py") else [program]
    ran = subprocess.run([*command, *words], cwd=folder, capture_output=True, check=False)
    return Answer(ran.returncode, ran.stdout, ran.stderr)


def of_checker(folder: str, words: list[str]) -> Answer:
    """What the checker answers; it is called in this process, to save the time of starting it."""
    output, told, before = io.StringIO(), io.StringIO(), os.getcwd()
    os.chdir(folder)
    try:
        with contextlib.redirect_stdout(output), contextlib.redirect_stderr(told):
            status = recheck.main(words)
    finally:
        os.chdir(before)
    return Answer(status, output.getvalue().encode(), told.getvalue().encode())


def write(folder: str, files: Files) -> None:
    for name, content in files.items():
        Path(folder, name).write_bytes(content)


# Random networks ------------------------------------------------------------------------------------------------------


def solvable(draw: random.Random, program: str, folder: str) -> tuple[Files, list[str], bytes]:
    """Writes networks until the program certifies one: its files, the words that name them, and its certificate."""
    while True:
        at_limits = draw.random() < 0.125
        made = random_cases.network(draw, draw.randint(2, NODES), at_limits)
        files, words = {"p": made.text.encode(), "s": NO_SWITCHINGS.encode()}, ["--case=p"]
        if made.items and draw.random() < 0.6:
            files["s"] = random_cases.switchings(draw, made).encode()
            words.append("--switch=s")
        write(folder, files)
        north, east = draw.randint(-20000, 20000), draw.choice([0, draw.randint(-20000, 20000)])
        answer = of_program(program, folder, ["certify", f"--north={north}", f"--east={east}", *words])
        if answer.status == 0:
            return files, words, answer.output
        if answer.status not in (8, 9):
            raise ValueError(f"certify answered {shown(answer)} in {folder}")


def network(setting: Setting, place: int, mutated: int) -> Tally:
    """One random network, its certificate, a number of changed ones, and as many changed cases and switchings."""
    tally, draw = Tally(), random.Random(setting.seed * SEEDS_APART + place)
    with tempfile.TemporaryDirectory() as folder:
        files, words, certificate = solvable(draw, setting.programs[0], folder)
        write(folder, {"c": certificate})
        tally.compare(setting.programs, folder, [*words, "--cert=c"], f"network {place}")
        if tally.kinds["accepted"] != 1:
            tally.differing.append(f"network {place}: its certificate isn't accepted")
        for number in range(mutated):
            names, text = changed(draw, certificate)
            write(folder, {"c": text})
            tally.compare(setting.programs, folder, [*words, "--cert=c"], f"network {place}, change {number}, {names}")
        write(folder, {"c": certificate})
        for number in range(mutated):
            names, changed_files = input_changed(draw, files)
            write(folder, changed_files)
            words = ["--case=p", "--switch=s", "--cert=c"]
            tally.compare(setting.programs, folder, words, f"network {place}, files {number}, {names}")
    return tally


# The examples ---------------------------------------------------------------------------------------------------------


def output(program: str, words: list[str], files: Files) -> bytes:
    """What the program writes when it is run with these words over these files."""
    with tempfile.TemporaryDirectory() as folder:
        write(folder, files)
        return of_program(program, folder, words).output


def numbered(text: str, at: int, count: int) -> bytes:
    """A line of many: `@` stands for its number, and `^` for how many are left with it, below zero where it is odd."""
    left = count - at if at % 2 == 0 else at - count
    return text.replace("@", str(at)).replace("^", str(left)).encode() + b"\n"


def runs(path: str, program: str) -> Iterator[tuple[str, list[str], Files]]:
    """The runs of a file of examples: each with its name, its words and the files that are there."""
    files: Files = {}
    open_file = example = ""
    is_plain = True
    last: list[str] = []  # the words of the last run
    with open(path, encoding="utf-8") as lines:
        for row in lines:
            head, _, rest = row.rstrip("\n").partition(" ")
            if head == "file":
                open_file, files[rest] = rest, b""
            elif head == "output":
                open_file, files[rest] = rest, output(program, last, files)
            elif head == "line":
                number, _, name = rest.partition(" ")
                files[open_file] += files[name].splitlines(keepends=True)[int(number) - 1]
            elif head == "|":
                files[open_file] += rest.encode() + b"\n"
            elif head == "from":
                files[open_file] += files[rest]
            elif head == "times":
                count, _, text = rest.removeprefix("| ").partition(" ")
                files[open_file] += b"".join(numbered(text, at, int(count)) for at in range(int(count)))
            elif head == "byte":
                files[open_file] += bytes([int(rest)])
            elif head == "fill":
                files[open_file] = files[open_file].ljust(int(rest), b"#")
            elif head == "cut":
                files[open_file] = files[open_file][: -int(rest)]
            elif head == "example":
                example, is_plain = rest, True
            elif head in ("failing", "monitors"):
                is_plain = False
            elif head in ("run", "run-byte-by-byte", "run-prefixes"):
                last = rest.split()
                if head != "run-prefixes" and is_plain:
                    yield example, last, dict(files)
            elif head not in ("", "#", "status", ">", "~", "=", "!", "skip", "width"):
                raise ValueError(f"{path}: {head}: no word of an example")


def of_example(setting: Setting, label: str, words: list[str], files: Files) -> Tally:
    """A run of `recheck`, or the certificate that the program makes in a field."""
    tally = Tally()
    mode = next((word for word in words if word in ("recheck", "certify", "field")), None)
    kept = [word for word in words if word.startswith(("--case=", "--switch=", "--cert="))]
    if mode is None:
        return tally
    with tempfile.TemporaryDirectory() as folder:
        write(folder, files)
        if mode != "recheck":
            fields = [word for word in words if word.startswith(("--north=", "--east="))]
            answer = of_program(setting.programs[0], folder, ["certify", *kept, *fields])
            if answer.status != 0:
                return tally
            write(folder, {"made.cert": answer.output})
            kept.append("--cert=made.cert")
        elif of_program(setting.programs[0], folder, words).status == 2:  # the checker tells such faults otherwise
            return tally
        tally.compare(setting.programs, folder, kept, label)
    return tally


def of_examples(setting: Setting, path: str) -> Tally:
    tally = Tally()
    for example, words, files in runs(path, setting.programs[0]):
        tally.add(of_example(setting, f"example {example}", words, files))
    return tally


def main() -> None:
    if len(sys.argv) < 2 or sys.argv[1] in ("--help", "-h"):
        print((__doc__ or "").strip())
        sys.exit(0 if len(sys.argv) > 1 else 2)
    plain = [word for word in sys.argv[1:] if not word.startswith("--")]
    named = dict(word[2:].split("=", 1) for word in sys.argv[1:] if word.startswith("--") and "=" in word)
    count, mutated, seed = [int(word) for word in plain[1:]] + [100, 1000, 1][len(plain) - 1 :]
    programs = [os.path.abspath(program) for program in [plain[0], *([named["oracle"]] if "oracle" in named else [])]]
    setting = Setting(programs, mutated, seed)
    examples, networks = Tally(), Tally()
    with concurrent.futures.ProcessPoolExecutor(int(named.get("jobs", os.cpu_count() or 1))) as pool:
        names = sorted(str(path) for path in EXAMPLES.glob("*.txt"))
        shares = [mutated * (place + 1) // count - mutated * place // count for place in range(count)]
        first = [pool.submit(of_examples, setting, path) for path in names if not path.endswith("README.txt")]
        second = [pool.submit(network, setting, place, share) for place, share in enumerate(shares)]
        for tally, jobs in ((examples, first), (networks, second)):
            for job in jobs:
                tally.add(job.result())
    for what, tally in (("examples", examples), (f"{count} networks", networks)):
        counts = ", ".join(f"{kind} {number}" for kind, number in sorted(tally.kinds.items()))
        print(f"{what}: {sum(tally.kinds.values())} runs: {counts}; named differences {tally.named}")
    differing = examples.differing + networks.differing
    print(*differing[:20], f"{len(differing)} answers differ", sep="\n")
    sys.exit(bool(differing))


if __name__ == "__main__":
    main()
