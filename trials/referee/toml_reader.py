"""TOML 1.1 as the program takes it: which bytes are a document, and the table that they are.

docs/FORMATS.md tells where the
program is stricter than TOML 1.1, *The case*.
"""

from __future__ import annotations

import re
from collections.abc import Callable
from typing import Union

MOST_PARTS = 80
MOST_DEPTH = 80
MOST_INTEGER_DIGITS = 20
BLANKS = re.compile(rb"[ \t]*")
BLANKS_AND_LINES = re.compile(rb"[ \t\n]*")
LINES = re.compile(rb"(?:[ \t\n]|\r\n)*")
COMMENT = re.compile(rb"[\t\x20-\x7e\x80-\xff]*")
BARE_KEY = re.compile(rb"[A-Za-z0-9_-]+")
UNQUOTED = re.compile(rb"[A-Za-z0-9_+.:-]*")
DECIMAL = re.compile(rb"(0|[1-9][0-9]*)(\.[0-9]+)?([eE][+-]?[0-9]+)?\Z")
FRACTION = re.compile(rb"[0-9]+")
TWO_DIGITS = re.compile(rb"[0-9][0-9]")
HEX = re.compile(rb"[0-9A-Fa-f]+")
DOUBLE, SINGLE, BACKSLASH, RETURN, LINE_FEED, HASH = b"\"'\\\r\n#"
# Bytes that stand for themselves within quotes: by the quote, and whether lines may end there.
PLAIN = {
    (DOUBLE, False): re.compile(rb"[\t\x20\x21\x23-\x5b\x5d-\x7e\x80-\xff]*"),
    (DOUBLE, True): re.compile(rb"[\t\n\x20\x21\x23-\x5b\x5d-\x7e\x80-\xff]*"),
    (SINGLE, False): re.compile(rb"[\t\x20-\x26\x28-\x7e\x80-\xff]*"),
    (SINGLE, True): re.compile(rb"[\t\n\x20-\x26\x28-\x7e\x80-\xff]*"),
}
ESCAPES = {ord("b"): 8, ord("e"): 27, ord("f"): 12, ord("n"): 10, ord("r"): 13, ord("t"): 9, DOUBLE: 34, BACKSLASH: 92}
CODE_WIDTHS = {ord("x"): 2, ord("u"): 4, ord("U"): 8}
DIGITS = {16: b"0123456789abcdefABCDEF", 10: b"0123456789", 8: b"01234567", 2: b"01"}


class Refused(Exception):
    """The bytes are no document."""


class Date:
    """A date or a time, of which nothing is kept."""


# A string is bytes, and so is each key of a table.
TomlValue = Union[bytes, int, float, bool, Date, list["TomlValue"], dict[bytes, "TomlValue"]]
TomlTable = dict[bytes, TomlValue]
# The parts of a dotted key.
Key = list[bytes]


# Blanks, comments and ends of lines. Each function tells the place behind what it read.


def end_of(pattern: re.Pattern[bytes], text: bytes, place: int) -> int:
    """The place behind what is of a pattern that nothing is of too."""
    found = pattern.match(text, place)
    return found.end() if found else place


def skip_blanks(text: bytes, place: int) -> int:
    return end_of(BLANKS, text, place)


def is_line_end(text: bytes, place: int) -> bool:
    return text[place : place + 1] == b"\n" or text[place : place + 2] == b"\r\n"


def skip_lines(text: bytes, place: int) -> int:
    """Blanks, ends of lines and comments. It stops in front of a control character in a comment."""
    while True:
        place = end_of(BLANKS_AND_LINES, text, place)
        if place >= len(text):
            return place
        if text[place] == RETURN and is_line_end(text, place):
            place += 2
        elif text[place] == HASH:
            place = end_of(COMMENT, text, place)
            if place < len(text) and not is_line_end(text, place):
                return place
        else:
            return place


def expect(text: bytes, place: int, mark: bytes) -> int:
    if text[place : place + len(mark)] != mark:
        raise Refused
    return place + len(mark)


# Strings and keys.


def read_escape(text: bytes, place: int, has_lines: bool) -> tuple[bytes, int]:
    """The bytes of what stands behind a backslash, and the place behind it."""
    if has_lines and is_line_end(text, skip_blanks(text, place)):
        return b"", end_of(LINES, text, place)
    letter = text[place] if place < len(text) else None
    if letter is not None and letter in ESCAPES:
        return bytes([ESCAPES[letter]]), place + 1
    if letter is None or letter not in CODE_WIDTHS:
        raise Refused
    width = CODE_WIDTHS[letter]
    digits = text[place + 1 : place + 1 + width]
    if len(digits) != width or not HEX.fullmatch(digits):
        raise Refused
    code = int(digits, 16)
    if not (code < 0xD800 or 0xE000 <= code <= 0x10FFFF):
        raise Refused
    return chr(code).encode(), place + 1 + width


def closing_run(text: bytes, place: int, quote: int) -> int:
    """How many quotes stand here."""
    run = 0
    while text[place + run : place + run + 1] == bytes([quote]):
        run += 1
    return run


def read_quoted(text: bytes, place: int, quote: int, has_lines: bool) -> tuple[bytes, int]:
    """The string behind an opening quote, and the place behind the closing one."""
    parts = []
    while True:
        end = end_of(PLAIN[quote, has_lines], text, place)
        parts.append(text[place:end])
        place = end
        letter = text[place] if place < len(text) else None
        if letter == quote and not has_lines:
            return b"".join(parts), place + 1
        if letter == quote:
            run = closing_run(text, place, quote)
            if run == 3:
                return b"".join(parts), place + 3
            if run >= 6:
                raise Refused
            parts.append(bytes([quote]))
            place += 1
        elif letter == BACKSLASH and quote == DOUBLE:
            escaped, place = read_escape(text, place + 1, has_lines)
            parts.append(escaped)
        elif letter is not None and has_lines and is_line_end(text, place):
            parts.append(bytes([letter]))
            place += 1
        else:
            raise Refused


def read_string(text: bytes, place: int) -> tuple[bytes, int]:
    quote = text[place]
    if text[place + 1 : place + 3] != bytes([quote, quote]):
        return read_quoted(text, place + 1, quote, False)
    place += 3
    if is_line_end(text, place):
        place += 1 if text[place] == LINE_FEED else 2
    return read_quoted(text, place, quote, True)


def read_key_part(text: bytes, place: int) -> tuple[bytes, int]:
    if text[place : place + 1] in (b'"', b"'"):
        return read_quoted(text, place + 1, text[place], False)
    bare = BARE_KEY.match(text, place)
    if not bare:
        raise Refused
    return bare.group(), bare.end()


def read_key(text: bytes, place: int) -> tuple[Key, int]:
    """The parts of a dotted key, and the place behind it and its blanks."""
    parts = []
    for _ in range(MOST_PARTS):
        part, place = read_key_part(text, place)
        parts.append(part)
        place = skip_blanks(text, place)
        if text[place : place + 1] != b".":
            return parts, place
        place = skip_blanks(text, place + 1)
    raise Refused


# Numbers, dates and times.


def read_two_digits(word: bytes, place: int) -> tuple[int, int]:
    if not TWO_DIGITS.fullmatch(word[place : place + 2]):
        raise Refused
    return int(word[place : place + 2]), place + 2


def read_time(word: bytes, place: int) -> int:
    hour, place = read_two_digits(word, place)
    minute, place = read_two_digits(word, expect(word, place, b":"))
    second = 0
    if word[place : place + 1] == b":":
        second, place = read_two_digits(word, place + 1)
        if word[place : place + 1] == b".":
            fraction = FRACTION.match(word, place + 1)
            if not fraction:
                raise Refused
            place = fraction.end()
    if hour > 23 or minute > 59 or second > 60:
        raise Refused
    return place


def days_of(year: int, month: int) -> int:
    is_leap = (year % 4 == 0 and year % 100 != 0) or year % 400 == 0
    return [31, 29 if is_leap else 28, 31, 30, 31, 30, 31, 31, 30, 31, 30, 31][month - 1]


def read_day(word: bytes) -> int:
    century, place = read_two_digits(word, 0)
    year, place = read_two_digits(word, place)
    month, place = read_two_digits(word, expect(word, place, b"-"))
    day, place = read_two_digits(word, expect(word, place, b"-"))
    if not 1 <= month <= 12 or not 1 <= day <= days_of(100 * century + year, month):
        raise Refused
    return place


def read_offset(word: bytes, place: int) -> int:
    if word[place : place + 1] in (b"Z", b"z"):
        return place + 1
    if word[place : place + 1] not in (b"+", b"-"):
        raise Refused
    hour, place = read_two_digits(word, place + 1)
    minute, place = read_two_digits(word, expect(word, place, b":"))
    if hour > 23 or minute > 59:
        raise Refused
    return place


def read_date(word: bytes) -> Date:
    if word[2:3] == b":":
        place = read_time(word, 0)
    else:
        place = read_day(word)
        if place < len(word):
            if word[place : place + 1] not in (b"T", b"t", b" "):
                raise Refused
            place = read_time(word, place + 1)
            if place < len(word):
                place = read_offset(word, place)
    if place != len(word):
        raise Refused
    return Date()


def base_of(word: bytes) -> int:
    return {b"0x": 16, b"0o": 8, b"0b": 2}.get(word[:2], 10)


def without_underscores(word: bytes) -> bytes:
    """The word without underscores, each of which has to stand between two digits."""
    digits = DIGITS[16 if base_of(word) == 16 else 10]
    for place, letter in enumerate(word):
        if letter == ord("_"):
            around = word[place - 1 : place] + word[place + 1 : place + 2]
            if place == 0 or len(around) != 2 or any(side not in digits for side in around):
                raise Refused
    return word.replace(b"_", b"")


def read_based(word: bytes, base: int) -> int:
    digits = word[2:]
    if not digits or any(digit not in DIGITS[base] for digit in digits):
        raise Refused
    number = int(digits, base)
    if number >= 2**63:
        raise Refused
    return number


def read_integer(word: bytes, is_negative: bool) -> int:
    if len(word) > MOST_INTEGER_DIGITS:
        raise Refused
    number = -int(word) if is_negative else int(word)
    if not -(2**63) <= number < 2**63:
        raise Refused
    return number


def read_number(word: bytes) -> Union[int, float]:
    base, word = base_of(word), without_underscores(word)
    if base != 10:
        return read_based(word, base)
    is_negative = word[:1] == b"-"
    if word[:1] in (b"-", b"+"):
        word = word[1:]
    if word in (b"inf", b"nan"):
        return float(word) * (-1 if is_negative else 1)
    decimal = DECIMAL.match(word)
    if not decimal:
        raise Refused
    if not decimal.group(2) and not decimal.group(3):
        return read_integer(word, is_negative)
    number = float(word)
    if number == float("inf"):
        raise Refused
    return -number if is_negative else number


def read_unquoted(text: bytes, place: int) -> tuple[TomlValue, int]:
    """A boolean, a date or a number; a date may have one space before its time."""
    end = end_of(UNQUOTED, text, place)
    if text[end : end + 1] == b" " and text[end + 1 : end + 2].isdigit():
        end = end_of(UNQUOTED, text, end + 1)
    word = text[place:end]
    if not word:
        raise Refused
    if word in (b"true", b"false"):
        return word == b"true", end
    digits = FRACTION.match(word)
    if digits and word[digits.end() : digits.end() + 1] in (b"-", b":"):
        return read_date(word), end
    return read_number(word), end


# Values and tables while the document is read.


class Value:
    def __init__(self, value: TomlValue) -> None:
        self.value = value

    def closed(self) -> TomlValue:
        return self.value


class Table:
    """A table, and what made it: a header, a dotted key, or a header of a table in it (`implicit`)."""

    def __init__(self, origin: str) -> None:
        self.origin = origin
        self.entries: Entries = {}

    def closed(self) -> TomlTable:
        return {key: entry.closed() for key, entry in self.entries.items()}


class TableArray:
    """Tables under one header of an array; entries are those of the last."""

    def __init__(self) -> None:
        self.tables = [Table("header")]

    @property
    def entries(self) -> Entries:
        return self.tables[-1].entries

    def closed(self) -> list[TomlValue]:
        return [table.closed() for table in self.tables]


Entries = dict[bytes, Union[Value, Table, TableArray]]


def put_value(entries: Entries, parts: Key, value: TomlValue) -> None:
    """Adds what stands behind a dotted key."""
    for part in parts[:-1]:
        entry = entries.setdefault(part, Table("dotted"))
        if not isinstance(entry, Table) or entry.origin == "header":
            raise Refused
        entry.origin = "dotted"
        entries = entry.entries
    if parts[-1] in entries:
        raise Refused
    entries[parts[-1]] = Value(value)


def entries_at(entries: Entries, parts: Key) -> Entries:
    """The entries of the table that a header names."""
    for part in parts:
        entry = entries.setdefault(part, Table("implicit"))
        if isinstance(entry, Value):
            raise Refused
        entries = entry.entries
    return entries


def open_table(root: Entries, parts: Key) -> None:
    entries = entries_at(root, parts[:-1])
    entry = entries.get(parts[-1])
    if entry is None:
        entries[parts[-1]] = Table("header")
    elif isinstance(entry, Table) and entry.origin == "implicit":
        entry.origin = "header"
    else:
        raise Refused


def open_table_of_array(root: Entries, parts: Key) -> None:
    entries = entries_at(root, parts[:-1])
    entry = entries.get(parts[-1])
    if entry is None:
        entries[parts[-1]] = TableArray()
    elif isinstance(entry, TableArray):
        entry.tables.append(Table("header"))
    else:
        raise Refused


def read_items(text: bytes, place: int, closing: bytes, read_one: Callable[[int], int]) -> int:
    """Items between commas up to a closing mark; the last may have a comma behind it."""
    while True:
        place = skip_lines(text, place)
        if text[place : place + 1] == closing:
            return place + 1
        place = skip_lines(text, read_one(place))
        if text[place : place + 1] == b",":
            place += 1
        elif text[place : place + 1] != closing:
            raise Refused


def read_array(text: bytes, place: int, depth: int) -> tuple[list[TomlValue], int]:
    items: list[TomlValue] = []

    def read_one(place: int) -> int:
        item, place = read_value(text, place, depth)
        items.append(item)
        return place

    end = read_items(text, place, b"]", read_one)
    return items, end


def read_value(text: bytes, place: int, depth: int) -> tuple[TomlValue, int]:
    """A value, and the place behind it; `depth` is how much deeper values may be nested."""
    letter = text[place : place + 1]
    if letter == b"[" and depth:
        return read_array(text, place + 1, depth - 1)
    if letter == b"{" and depth:
        return read_inline_table(text, place + 1, depth - 1)
    if letter in (b'"', b"'"):
        return read_string(text, place)
    return read_unquoted(text, place)


def read_inline_table(text: bytes, place: int, depth: int) -> tuple[TomlTable, int]:
    table = Table("inline")

    def read_one(place: int) -> int:
        parts, value, place = read_pair(text, place, depth)
        put_value(table.entries, parts, value)
        return place

    end = read_items(text, place, b"}", read_one)
    return table.closed(), end


def read_pair(text: bytes, place: int, depth: int) -> tuple[Key, TomlValue, int]:
    """A key, its value and the place behind them."""
    parts, place = read_key(text, place)
    value, place = read_value(text, skip_blanks(text, expect(text, place, b"=")), depth)
    return parts, value, place


class Document:
    """A document that is read expression by expression: headers, and keys with values under the last header."""

    def __init__(self, text: bytes) -> None:
        self.text = text
        self.root: Entries = {}
        self.header: Key = []

    def read_header(
        self, place: int, opening: bytes, closing: bytes, open_one: Callable[[Entries, Key], None]
    ) -> int:
        parts, place = read_key(self.text, skip_blanks(self.text, place + len(opening)))
        place = expect(self.text, place, closing)
        open_one(self.root, parts)
        self.header = parts
        return place

    def read_expression(self, place: int) -> int:
        if self.text[place : place + 2] == b"[[":
            return self.read_header(place, b"[[", b"]]", open_table_of_array)
        if self.text[place : place + 1] == b"[":
            return self.read_header(place, b"[", b"]", open_table)
        parts, value, place = read_pair(self.text, place, MOST_DEPTH)
        put_value(entries_at(self.root, self.header), parts, value)
        return place

    def read(self) -> TomlTable:
        place = skip_lines(self.text, 0)
        while place < len(self.text):
            place = skip_blanks(self.text, self.read_expression(place))
            if place < len(self.text) and self.text[place] not in (HASH, LINE_FEED, RETURN):
                raise Refused
            place = skip_lines(self.text, place)
        return {key: entry.closed() for key, entry in self.root.items()}


def parse(content: bytes) -> TomlTable:
    """The table of the bytes, or Refused."""
    try:
        content.decode("utf-8")
    except UnicodeDecodeError:
        raise Refused from None
    return Document(content.removeprefix(b"\xef\xbb\xbf")).read()
