"""The words of the command line: what is asked for, or the first fault in them (docs/FORMATS.md, *The command line*).

MODES is the one table of modes: every trial goes over it.
"""

import re
from collections.abc import Collection, Sequence
from dataclasses import dataclass
from typing import Any, NamedTuple, Optional, Union

# What a mode needs of the network at each step: nothing; to know its live nodes; that each of these is earthed; that the
# network can be solved.
NOTHING, LIVE, EARTHED, SOLVED = range(4)


class Mode(NamedTuple):
    """What a mode needs, the options that it requires, and those that it may have."""

    need: int
    required: list[str]
    allowed: list[str]


MODES = {
    "volts": Mode(NOTHING, ["case"], ["north", "east"]),
    "list": Mode(NOTHING, ["case"], []),
    "check": Mode(EARTHED, ["case"], ["switch"]),
    "field": Mode(SOLVED, ["case"], ["north", "east", "switch", "width", "event"]),
    "study": Mode(SOLVED, ["case", "storm"], ["switch", "width", "detail", "event"]),
    "screen": Mode(SOLVED, ["case"], ["switch", "width", "event"]),
    "make": Mode(NOTHING, ["seed", "size"], []),
    "certify": Mode(SOLVED, ["case"], ["north", "east", "switch"]),
    "recheck": Mode(LIVE, ["case", "cert"], ["switch"]),
    "series": Mode(SOLVED, ["case", "storm", "transformer"], ["switch", "width"]),
    "outage": Mode(SOLVED, ["case"], ["switch", "width", "event"]),
    "review": Mode(NOTHING, ["case"], []),
    "robust": Mode(SOLVED, ["case", "tolerance"], ["switch", "width", "event"]),
}
OPTIONS = [
    "case", "storm", "switch", "north", "east", "width", "detail", "seed", "size", "event", "cert", "transformer",
    "tolerance",
]


class Range(NamedTuple):
    """The least and the greatest of some whole numbers."""

    least: int
    most: int

    def has(self, number: int) -> bool:
        return self.least <= number <= self.most


class Event(NamedTuple):
    """The threshold in mA, and the strength of the field in mV/km."""

    threshold: int
    field: int


RANGES = {
    "north": Range(-20000, 20000),
    "east": Range(-20000, 20000),
    "width": Range(10, 10000),
    "detail": Range(1, 20000),
    "seed": Range(0, 4294967295),
    "size": Range(2, 1000),
    "tolerance": Range(1, 90),
}
DEFAULT_WIDTH, DEFAULT_EVENT = 100, "benchmark"
DEFAULTS = {"north": 0, "east": 0, "width": DEFAULT_WIDTH, "event": DEFAULT_EVENT}
EVENTS = {"benchmark": Event(75000, 8000), "supplemental": Event(85000, 12000)}


@dataclass(frozen=True)
class Asked:
    """What a command line asks for: its mode, and each of OPTIONS, which has its default or None where it isn't given."""

    mode: str
    case: Optional[bytes]
    storm: Optional[bytes]
    switch: Optional[bytes]
    north: int
    east: int
    width: int
    detail: Optional[int]
    seed: Optional[int]
    size: Optional[int]
    event: str
    cert: Optional[bytes]
    transformer: Optional[bytes]
    tolerance: Optional[int]

    @property
    def threshold(self) -> int:
        return EVENTS[self.event].threshold

    @property
    def field(self) -> int:
        """The strength of the event's field."""
        return EVENTS[self.event].field


class Refusal(Exception):
    """A status other than 0, and its line, or None for an answer without a line."""

    def __init__(self, status: int, line: Optional[str]) -> None:
        super().__init__(line)
        self.status, self.line = status, line


def options_of(built: Collection[str]) -> set[str]:
    """Every option that some mode of `built` has."""
    return {option for mode in built for option in MODES[mode].required + MODES[mode].allowed}


class Reading:
    """Words as they are taken one after another: the mode, the options, and the option that waits for its value."""

    def __init__(self, known: set[str]) -> None:
        self.known = known
        self.mode: Optional[str] = None
        self.options: dict[str, bytes] = {}
        self.waiting: Optional[str] = None
        self.only_plain = False

    def give(self, name: str, value: bytes) -> bool:
        """Whether the option had no value before."""
        if name in self.options:
            return False
        self.options[name] = value
        return True

    def take_option(self, word: bytes) -> bool:
        head, equals, value = word[2:].partition(b"=")
        name = head.decode("utf-8")
        if self.waiting is not None or name not in self.known:
            return False
        if equals:
            return self.give(name, value)
        self.waiting = name
        return True

    def take(self, word: bytes) -> bool:
        """Takes one word; False where the words have a fault by it."""
        if not self.only_plain and word == b"--":
            self.only_plain = True
            return self.waiting is None
        if not self.only_plain and word[:2] == b"--":
            return self.take_option(word)
        if not self.only_plain and word[:1] == b"-" and len(word) > 1:
            return False
        if self.waiting is not None:
            name, self.waiting = self.waiting, None
            return self.give(name, word)
        if self.mode is not None:
            return False
        self.mode = word.decode("utf-8")
        return True


class Split(NamedTuple):
    """The mode of some words, and the bytes of each option that they give."""

    mode: str
    options: dict[str, bytes]


def split_words(words: Sequence[bytes], known: set[str]) -> Optional[Split]:
    """The mode and the options of the words, or None where their form has a fault."""
    reading = Reading(known)
    if not all(reading.take(word) for word in words) or reading.waiting is not None or reading.mode is None:
        return None
    return Split(reading.mode, reading.options)


def read_number(text: bytes, bounds: Range, digits: int) -> Optional[int]:
    """The decimal number in its range that the bytes are, or None."""
    if not re.fullmatch(rb"[+-]?[0-9]{1,%d}" % digits, text):
        return None
    value = int(text)
    return value if bounds.has(value) else None


def read_decimal(text: bytes, bounds: Range) -> Optional[int]:
    return read_number(text, bounds, 18)


def read_wide(text: bytes, bounds: Range) -> Optional[int]:
    return read_number(text, bounds, 38)


def are_texts(words: Sequence[bytes]) -> bool:
    try:
        for word in words:
            word.decode("utf-8")
    except UnicodeDecodeError:
        return False
    return True


def usage(fault: str) -> Refusal:
    return Refusal(2, "gicstudy: usage: " + fault)


def read_value(option: str, text: bytes) -> Union[int, str, bytes]:
    """The value of an option; a Refusal where it has none."""
    if option in RANGES:
        value = read_decimal(text, RANGES[option])
        if value is None:
            raise usage("number --" + option)
        return value
    if option == "event":
        if text.decode("utf-8") not in EVENTS:
            raise usage("value --event")
        return text.decode("utf-8")
    return text


def read_words(words: Sequence[bytes], built: Collection[str] = MODES) -> Asked:
    """What the words ask for; a Refusal for their first fault."""
    if not are_texts(words):
        raise Refusal(2, None)
    split = split_words(words, options_of(built))
    if split is None:
        raise usage("words")
    if split.mode not in built:
        raise usage("mode")
    row = MODES[split.mode]
    asked: dict[str, Any] = {}
    for option in OPTIONS:
        if option not in split.options:
            if option in row.required:
                raise usage("missing --" + option)
            asked[option] = DEFAULTS.get(option)
        elif option in row.required or option in row.allowed:
            asked[option] = read_value(option, split.options[option])
        else:
            raise usage("extra --" + option)
    return Asked(split.mode, **asked)


def usage_fault(words: Sequence[bytes], built: Collection[str] = MODES) -> Optional[tuple[int, Optional[str]]]:
    """The status and the line of the fault in the words, or None."""
    try:
        read_words(words, built)
    except Refusal as refusal:
        return refusal.status, refusal.line
    return None


def mode_of(words: Sequence[bytes]) -> Optional[str]:
    """The mode that the words name, where their form has no fault, else None."""
    split = split_words(words, set(OPTIONS)) if are_texts(words) else None
    return None if split is None else split.mode
