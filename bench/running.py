"""Runs of the program whose reports are looked at line by line."""

from __future__ import annotations

import os
import subprocess
from collections.abc import Sequence
from pathlib import Path
from typing import NamedTuple, Union

import paths  # noqa: F401 - it finds the modules of other folders

# The statuses of a network that can't be solved, and the first word that is told of it.
REFUSALS = {8: "unearthed", 9: "unresolved"}


class Ran(NamedTuple):
    """How a run ended: its status, the lines of its output, and what it told on the error stream."""

    status: int
    lines: list[str]
    told: str

    @property
    def rows(self) -> list[list[str]]:
        """The words of each line."""
        return [line.split() for line in self.lines]


def run(program: str, folder: Union[str, Path], words: Sequence[str], *first: str) -> Ran:
    """Runs a program with words, behind others that stand first, in a folder."""
    ran = subprocess.run([program, *first, *words], cwd=folder, capture_output=True, text=True, check=False)
    return Ran(ran.returncode, ran.stdout.splitlines(), ran.stderr.strip())


def program_of(word: str) -> str:
    """The path of a program, wherever it is run."""
    return os.path.abspath(word)


def words_in(folder: Path) -> list[str]:
    """The words of a run that a folder of random cases has."""
    return (folder / "words").read_text().split()


def numbers_of(words: Sequence[str], *defaults: int) -> list[int]:
    """The numbers that words are, and the defaults of those that aren't given."""
    return [*map(int, words[: len(defaults)]), *defaults[len(words) :]]


def value_of(words: Sequence[str], option: str, default: str) -> str:
    """The value of an option among words."""
    return next((word.split("=", 1)[1] for word in words if word.startswith(f"--{option}=")), default)
