"""A report as it is read: line by line, each of a form, with the faults that were found so far."""

from __future__ import annotations

import re
from collections.abc import Sequence
from typing import NamedTuple, Union

from referee.values import Interval

NUMBER = re.compile(r"(0|-?[1-9][0-9]*)\Z")
MOST_FAULTS = 60


class Unreadable(Exception):
    """The text can't be followed further."""


# What is wanted of a word: None for a number, some words for a choice of them, else the word itself.
Want = Union[str, int, None, tuple[str, ...]]


def form_of(wanted: Sequence[Want]) -> str:
    words = ("N" if word is None else "|".join(word) if isinstance(word, tuple) else str(word) for word in wanted)
    return " ".join(words)


class Free(NamedTuple):
    """The numbers of a line that are not fixed, and its words that are chosen."""

    numbers: list[int]
    words: list[str]


class ReportText:
    def __init__(self, content: bytes) -> None:
        self.content = content
        self.place, self.row = 0, 0
        self.faults: list[str] = []

    def fault(self, told: str) -> None:
        if len(self.faults) < MOST_FAULTS:
            self.faults.append(told)

    def fault_here(self, told: str) -> None:
        self.fault(f"line {self.row}: {told}")

    def next_line(self) -> str:
        end = self.content.find(b"\n", self.place)
        if end < 0:
            raise Unreadable(f"line {self.row + 1}: the text ends early (no line feed)")
        line = self.content[self.place : end]
        self.place = end + 1
        self.row += 1
        return line.decode("latin-1")

    def line(self, *wanted: Want) -> Free:
        """What is free in the next line, which has to be of the form that is wanted."""
        line, free = self.next_line(), Free([], [])
        words, other_form = line.split(" "), f"line {self.row}: {line!r} is not of the form {form_of(wanted)}"
        if len(words) != len(wanted):
            raise Unreadable(other_form)
        for want, word in zip(wanted, words):
            if want is None:
                if not NUMBER.match(word):
                    raise Unreadable(f"line {self.row}: {word!r} is no number of the form asked, in {line!r}")
                free.numbers.append(int(word))
            elif isinstance(want, tuple):
                if word not in want:
                    raise Unreadable(other_form)
                free.words.append(word)
            elif str(want) != word:
                raise Unreadable(other_form)
        return free

    def numbers(self, *wanted: Want) -> list[int]:
        """The numbers that are free in the next line."""
        return self.line(*wanted).numbers

    def interval(self, *head: Want) -> Interval:
        """The interval behind the head of the next line."""
        return Interval(*self.numbers(*head, None, None))

    def take(self, size: int) -> bytes:
        """The next bytes, which have to be whole lines."""
        taken = self.content[self.place : self.place + size]
        if len(taken) != size:
            raise Unreadable(f"{size} bytes announced, {len(taken)} there")
        self.place += size
        self.row += taken.count(b"\n")
        return taken

    def take_all(self) -> None:
        self.place = len(self.content)

    def end(self) -> None:
        if self.place != len(self.content):
            self.fault(f"bytes behind the end: {self.content[self.place : self.place + 60]!r}")
