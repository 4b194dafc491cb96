"""Reports with one change each: a digit, a sign, a line, a verdict or another word, a name, an order of names.

Each change takes a draw and the lines of a report, and answers other lines, or the same ones where it finds nothing.
"""

from __future__ import annotations

import re
from collections.abc import Callable, Sequence
from random import Random

from referee.checker import VERDICTS

NUMBER = re.compile(r"-?[0-9]+\Z")
WORDS_OF_ITEMS = (
    "live", "dead", "open", "blocked", "high", "low", "series", "common", "third", "line", "neutral", "*", "zone",
    "substation", "transformer", "resistance", "perkm", "high_volts", "low_volts", "third_volts",
)
Lines = list[str]
Change = Callable[[Random, Lines], Lines]


def with_words(lines: Lines, place: int, words: Sequence[str]) -> Lines:
    """The lines with other words at a place."""
    return lines[:place] + [" ".join(words)] + lines[place + 1 :]


def with_number(draw: Random, lines: Lines, change: Callable[[str], str]) -> Lines:
    """Changes a number of some line by a function of its text."""
    place = draw.randrange(len(lines))
    words = lines[place].split(" ")
    numbers = [at for at, word in enumerate(words) if at and NUMBER.match(word)]
    if numbers:
        at = draw.choice(numbers)
        words[at] = change(words[at])
    return with_words(lines, place, words)


def change_digit(draw: Random, lines: Lines) -> Lines:
    def other(text: str) -> str:
        at = draw.choice([place for place, letter in enumerate(text) if letter.isdigit()])
        return text[:at] + draw.choice("0123456789") + text[at + 1 :]

    return with_number(draw, lines, other)


def change_sign(draw: Random, lines: Lines) -> Lines:
    return with_number(draw, lines, lambda text: text[1:] if text[0] == "-" else "-" + text)


def change_by_one(draw: Random, lines: Lines) -> Lines:
    return with_number(draw, lines, lambda text: str(int(text) + draw.choice([-1, 1, -10, 10])))


def change_by_much(draw: Random, lines: Lines) -> Lines:
    return with_number(draw, lines, lambda text: str(int(text) + draw.choice([-1, 1]) * int(10 ** draw.uniform(2, 9))))


def drop_line(draw: Random, lines: Lines) -> Lines:
    place = draw.randrange(len(lines))
    return lines[:place] + lines[place + 1 :]


def double_line(draw: Random, lines: Lines) -> Lines:
    place = draw.randrange(len(lines))
    return lines[:place] + lines[place : place + 1] + lines[place:]


def move_line(draw: Random, lines: Lines) -> Lines:
    first, second = draw.randrange(len(lines)), draw.randrange(len(lines))
    rest = lines[:first] + lines[first + 1 :]
    return rest[:second] + [lines[first]] + rest[second:]


def change_word(draw: Random, lines: Lines) -> Lines:
    """A verdict or another word of an item's state."""
    known = {*VERDICTS, *WORDS_OF_ITEMS}
    found = [place for place, line in enumerate(lines) if set(line.split(" ")[1:]) & known]
    if not found:
        return drop_line(draw, lines)
    place = draw.choice(found)
    words = lines[place].split(" ")
    at = draw.choice([at for at, word in enumerate(words) if at and word in known])
    words[at] = draw.choice(VERDICTS if words[at] in VERDICTS else WORDS_OF_ITEMS)
    return with_words(lines, place, words)


def change_verdict(draw: Random, lines: Lines) -> Lines:
    """Another verdict at the end of a line that has one."""
    found = [place for place, line in enumerate(lines) if line.split(" ")[-1] in VERDICTS]
    if not found:
        return lines
    place = draw.choice(found)
    words = lines[place].split(" ")
    words[-1] = draw.choice([verdict for verdict in VERDICTS if verdict != words[-1]])
    return with_words(lines, place, words)


def change_name(draw: Random, lines: Lines) -> Lines:
    """The second word of a line in place of that of another line."""
    place, other = draw.randrange(len(lines)), draw.randrange(len(lines))
    words, others = lines[place].split(" "), lines[other].split(" ")
    if len(words) > 1 and len(others) > 1:
        words[1] = others[1]
    return with_words(lines, place, words)


def swap_names(draw: Random, lines: Lines) -> Lines:
    place, other = draw.randrange(len(lines)), draw.randrange(len(lines))
    words, others = lines[place].split(" "), lines[other].split(" ")
    if len(words) > 1 and len(others) > 1:
        words[1], others[1] = others[1], words[1]
    return with_words(with_words(lines, place, words), other, others)


CHANGES: list[Change] = [
    *(change_digit, change_digit, change_sign, change_by_one, drop_line, double_line, move_line, change_word),
    *(change_name, swap_names),
]
# Those that are drawn where a judge of reports is tried; a number that is off by much stands twice.
FURTHER_CHANGES: list[Change] = [*dict.fromkeys(CHANGES), change_by_much, change_by_much, change_verdict]
