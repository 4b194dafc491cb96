"""The lines of a report, read one after another by their forms.

A form is words: those in small letters stand in the line as they are, those in capitals for what varies. LO and HI
beside each other are one interval.
"""

import dataclasses
import re
from collections.abc import Sequence

from .findings import Finding, Refused, shown

NUMBER = re.compile(r"-?(0|[1-9][0-9]{0,59})")
COUNT = re.compile(r"0|[1-9][0-9]{0,59}")
NAME = re.compile(r"[A-Za-z0-9_.-]{1,32}")
PLACES = {
    "NAME": NAME,
    "NODE": NAME,
    "TO": re.compile(rf"\*|{NAME.pattern}"),
    "LO": NUMBER,
    "HI": NUMBER,
    "NUMBER": NUMBER,
    "OTHER": NUMBER,
    "COUNT": COUNT,
    "STATE": re.compile("dead|live|open|blocked|none|idle"),
    "ROLE": re.compile("ground|line|high|low|series|common|third|neutral"),
    "VERDICT": re.compile("below|reaches|undecided|outside"),
    "LIST": re.compile("zone|substation|bus|line|transformer"),
    "FIELD": re.compile("[a-z_]+"),
}
LONGEST_LINE = 120  # of a line that is shown whole
NUMBERS = ("NUMBER", "OTHER", "COUNT")


@dataclasses.dataclass(frozen=True, slots=True)
class Interval:
    """Two whole numbers; the exact value lies from the one to the other, both included."""

    low: int
    high: int

    @property
    def middle(self) -> float:
        return (self.low + self.high) / 2

    def __sub__(self, other: "Interval") -> "Interval":
        """An interval that holds the difference of any two values of the two."""
        return Interval(self.low - other.high, self.high - other.low)


@dataclasses.dataclass(frozen=True)
class Values:
    """What stands in a line for the capital words of its form: its words, its numbers and its intervals, of each as many as
    the form has, in their order."""

    words: list[str] = dataclasses.field(default_factory=list)
    numbers: list[int] = dataclasses.field(default_factory=list)
    intervals: list[Interval] = dataclasses.field(default_factory=list)


def read_line(form: str, line: str) -> Values | None:
    """What stands in the line for the capital words of the form; None where it isn't of the form."""
    places, words = form.split(" "), line.split(" ")
    if len(places) != len(words):
        return None
    values = Values()
    low = 0
    for place, word in zip(places, words):
        if place not in PLACES:
            if place != word:
                return None
        elif not PLACES[place].fullmatch(word):
            return None
        elif place == "LO":
            low = int(word)
        elif place == "HI":
            if low > int(word):
                return None
            values.intervals.append(Interval(low, int(word)))
        elif place in NUMBERS:
            values.numbers.append(int(word))
        else:
            values.words.append(word)
    return values


class Lines:
    """The lines of a text from its first to its last, with what is wrong in them."""

    def __init__(self, file: str, text: str) -> None:
        self.file, self.text = file, text
        self.at = 0  # where the next line begins
        self.number = 0  # how many lines lie before it
        self.findings: list[Finding] = []

    def peek(self) -> str | None:
        """The next line, which has its LF; None at the end of the text."""
        end = self.text.find("\n", self.at)
        return None if end < 0 else self.text[self.at : end]

    def take(self) -> str:
        """The next line, which is there; the one behind it is next."""
        line = self.peek()
        assert line is not None
        self.at += len(line) + 1
        self.number += 1
        return line

    def take_letters(self, many: int) -> str | None:
        """The given number of letters of the text, which begin where the next line does; None where there are fewer."""
        if len(self.text) < self.at + many:
            return None
        letters = self.text[self.at : self.at + many]
        self.at += many
        self.number += letters.count("\n")
        return letters

    def wrong(self, words: str) -> None:
        """A finding at the line that was taken last."""
        self.findings.append(Finding(self.file, words, self.number))

    def stop(self, words: str) -> Refused:
        """The refusal of all that was found, with a finding at the next line, behind which nothing can be read."""
        self.findings.append(Finding(self.file, words, self.number + 1))
        return Refused(self.findings)

    def cut(self) -> Refused:
        return self.stop('the report is cut: it ends before its line "end"; ask the program for it again')

    def line(self, *forms: str) -> Values:
        """The next line, which must have one of the forms; else nothing behind it can be read."""
        line = self.peek()
        if line is None:
            raise self.cut()
        for form in forms:
            values = read_line(form, line)
            if values is not None:
                self.take()
                return values
        raise self.stop(not_of(line, forms))

    def rows(self, forms: tuple[str, ...], until: tuple[str, ...] = ("end",)) -> list[tuple[str, Values]]:
        """The lines up to one whose first word is one of `until`, each with its form and its values. One that has no
        form is a finding, and left out."""
        by_word: dict[str, list[str]] = {}
        for form in forms:
            by_word.setdefault(form.split(" ")[0], []).append(form)
        rows = []
        while (line := self.peek()) is not None and (first := line.split(" ")[0]) not in until:
            self.take()
            for form in by_word.get(first, []):
                values = read_line(form, line)
                if values is not None:
                    rows.append((form, values))
                    break
            else:
                self.wrong(not_of(line, by_word.get(first, forms)))
        if line is None:
            raise self.cut()
        return rows

    def end(self) -> None:
        """The line `end`, and nothing behind it; all that was found is refused here."""
        self.line("end")
        if self.at < len(self.text):
            raise self.stop('something follows behind "end"; take one report alone')
        if self.findings:
            raise Refused(self.findings)


def not_of(line: str, forms: Sequence[str]) -> str:
    allowed = " or ".join(f'"{form}"' for form in forms)
    return f"{shown(line, LONGEST_LINE)} is not of the form {allowed}; take the report as it was printed"
