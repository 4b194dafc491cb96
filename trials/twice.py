#!/usr/bin/env python3
"""Runs the same words over the same bytes in many surroundings: the answers have to be the same, byte for byte.

    python3 trials/twice.py PROGRAM [--minutes M] [--seed S] [--jobs N] [--networks N] [--other PROGRAM]

The surroundings: another folder with other names of files, an empty and a large environment, other locales and time
zones, no random address layout, memory that is filled with other bytes and is handed out in another order, a small
stack, an output that is a pipe, no input, a low priority, and the same run again. The runs are those of every mode over
the sample, over a made network and over N random networks (100), refused ones among them, and faults in the words.

With --other there is one more surrounding: another program that has to be the same, as the one that the toolchain's
other compiler builds. `rt ci` leaves it beside the first, as `gicstudy.by-rattle`.
"""

from __future__ import annotations

import functools
import os
import random
import shutil
import subprocess
import tempfile
from collections.abc import Iterator, Sequence
from typing import NamedTuple

import shared  # which finds the modules below

from generators.networks import KINDS, Files, files, made_files, sample_files
from referee.words import MODES

LOCALES = ("C", "POSIX", "C.UTF-8", "tr_TR.UTF-8", "de_DE.UTF-8", "ar_EG", "ja_JP.SJIS")
MADE_SITES = 200


def environments() -> Iterator[tuple[str, dict[str, str]]]:
    """Environments by what they are."""
    usual = dict(os.environ)
    yield "again", usual
    yield "an empty environment", {}
    yield "a large environment", usual | {f"NAME_{place}": "x" * 1000 for place in range(500)}
    for locale in LOCALES:
        yield f"the locale {locale}", usual | {"LC_ALL": locale, "LANG": locale, "LANGUAGE": locale, "TZ": "Asia/Tokyo"}
    yield "filled memory", usual | {"MALLOC_PERTURB_": "165"}
    yield "memory in small parts", usual | {
        "GLIBC_TUNABLES": "glibc.malloc.mmap_threshold=4096:glibc.malloc.tcache_count=0:glibc.malloc.arena_max=1"
    }
    yield "other variables", usual | {"HOME": "/", "PWD": "/", "COLUMNS": "1", "TERM": "dumb", "NO_COLOR": "1"}


def wrappers() -> Iterator[tuple[str, list[str]]]:
    """Commands before the program, by what they do."""
    yield "no random addresses", ["setarch", "-R"]
    yield "a small stack", ["sh", "-c", 'ulimit -s 256; exec "$@"', "sh"]
    yield "an unlimited stack", ["sh", "-c", 'ulimit -s unlimited; exec "$@"', "sh"]
    yield "a low priority", ["nice", "-n", "15"]
    yield "no input", ["sh", "-c", 'exec "$@" <&-', "sh"]
    yield "other rights of new files", ["sh", "-c", 'umask 777; exec "$@"', "sh"]


def in_another_folder(command: Sequence[str], folder: str, words: Sequence[str]) -> shared.Answer:
    """The run from / with names of files that are long and lie elsewhere."""
    with tempfile.TemporaryDirectory(prefix="a folder ü ") as other:
        moved = []
        for word in words:
            option, equals, name = word.partition("=")
            if equals and os.path.exists(os.path.join(folder, name)) and name:
                path = os.path.join(other, "x" * 100 + name)
                shutil.copy(os.path.join(folder, name), path)
                word = f"{option}={path}"
            moved.append(word)
        return shared.run([*command, *moved], "/")


def into_a_pipe(command: Sequence[str], folder: str, words: Sequence[str]) -> shared.Answer:
    """The run with pipes for its streams."""
    try:
        ran = subprocess.run(
            [*command, *words],
            cwd=folder,
            stdin=subprocess.DEVNULL,
            capture_output=True,
            check=False,
            timeout=shared.RUN_SECONDS,
        )
    except subprocess.TimeoutExpired:
        return shared.Answer(None, b"", b"")
    return shared.Answer(ran.returncode, ran.stdout, ran.stderr)


def answers(
    command: Sequence[str], other: Sequence[str], folder: str, words: Sequence[str]
) -> Iterator[tuple[str, shared.Answer]]:
    """The answer of the run in each of the surroundings."""
    for name, environment in environments():
        yield name, shared.run([*command, *words], folder, environment)
    for name, wrapper in wrappers():
        yield name, shared.run([*wrapper, *command, *words], folder)
    yield "another folder", in_another_folder(command, folder, words)
    yield "a pipe", into_a_pipe(command, folder, words)
    if other:
        yield "the other program", shared.run([*other, *words], folder)


def words_of_runs(draw: random.Random) -> Iterator[list[str]]:
    for mode in MODES:
        yield shared.words_of(mode, **shared.random_values(draw))
    refused: list[list[str]] = [[], ["fly"], ["volts"], shared.words_of("volts", case="none"), shared.words_of("study", storm="p")]
    yield draw.choice(refused)


def files_of(draw: random.Random, item: int) -> Files:
    """The files of one item: the sample, a made network, or a random one."""
    if item == 0:
        return sample_files()
    if item == 1:
        return made_files(MADE_SITES)
    while (made := files(draw, draw.choice(KINDS))) is None:
        pass
    return made


class Compared(NamedTuple):
    """How many runs there were in other surroundings, how many command lines, and the faults."""

    runs: int
    command_lines: int
    faults: list[str]


def compare(command: Sequence[str], other: Sequence[str], seed: int, clock: shared.Clock, item: int) -> Compared:
    """Runs the words of one item in all surroundings."""
    draw, runs, command_lines = random.Random(f"{seed} {item}"), 0, 0
    faults: list[str] = []
    with shared.scratch() as folder:
        shared.write_all(folder, files_of(draw, item))
        shared.certify(command, folder)
        for words in words_of_runs(draw):
            first = shared.run([*command, *words], folder)
            command_lines += 1
            if first.status is None or first.status < 0:
                faults.append(f"{words}: {shared.ending(first.status)}")
            for name, answer in answers(command, other, folder, words):
                if clock.is_over():
                    break
                runs += 1
                if answer != first:
                    faults.append(f"{words} with {name}: {shared.ending(answer.status)}, told {answer.told[:80]!r}")
    return Compared(runs, command_lines, [f"seed {seed} network {item}: {fault}" for fault in faults])


def main() -> None:
    given = shared.arguments(__doc__, 15, [("networks", 100), ("other", "")])
    other = shared.command_of(given.other) if given.other else []
    faults, clock = shared.Faults(), shared.Clock(given.minutes)
    work = functools.partial(compare, shared.command_of(given.program), other, given.seed, clock)
    runs = command_lines = networks = 0
    for compared in shared.side_by_side(given.jobs, work, range(given.networks + 2), clock):
        runs, command_lines, networks = runs + compared.runs, command_lines + compared.command_lines, networks + 1
        for fault in compared.faults:
            faults.add(fault)
    shared.finish(faults, f"{networks} networks", f"{command_lines} command lines", f"{runs} runs in other surroundings")


if __name__ == "__main__":
    main()
