"""Changes of certificates, and of the case and the switchings beside them, for those who are to refuse what is wrong."""

from __future__ import annotations

import re
from collections.abc import Callable
from random import Random
from typing import NamedTuple

Files = dict[str, bytes]
Rows = list[list[bytes]]  # the words of each row; what stands behind the last line feed is the last row

# Changes of a certificate ---------------------------------------------------------------------------------------------
# Each takes a draw and the rows of a certificate, and changes the rows.

RANGES = {  # of each number, by the first word of its row and by its place there
    b"nodes": {1: (0, 65535), 3: (-20000, 20000), 5: (-20000, 20000)},
    b"cert": {2: (1, 4096), 3: (-(2**95), 2**95), 4: (0, 2**126)},
}


def is_number(word: bytes) -> bool:
    return re.fullmatch(rb"[-+]?[0-9]+", word) is not None


class Number(NamedTuple):
    """A number of a certificate: its row, its place there, and its range."""

    row: list[bytes]
    at: int
    least: int
    most: int


def some(draw: Random, rows: Rows, head: bytes = b"", place: int = 0) -> Number:
    """One of the numbers, or one at this place of the rows that begin so; if there is none, a 0 outside of the rows."""
    found = [
        Number(row, at, *bounds)
        for row in rows
        for at, bounds in RANGES.get(row[0], {}).items()
        if at < len(row) and is_number(row[at]) and head in (b"", row[0]) and place in (0, at)
    ]
    return draw.choice(found) if found else Number([b"0"], 0, 0, 0)


def digit(draw: Random, rows: Rows) -> None:
    row, at, *_ = some(draw, rows)
    place = draw.choice([place for place, byte in enumerate(row[at]) if chr(byte).isdigit()])
    row[at] = row[at][:place] + draw.choice(b"0123456789abc.").to_bytes(1, "big") + row[at][place + 1 :]


def sign(draw: Random, rows: Rows) -> None:
    row, at, *_ = some(draw, rows)
    row[at] = draw.choice([b"-", b"+", b"", b"--", b"-+"]) + row[at].lstrip(b"-+")


def zeros(draw: Random, rows: Rows) -> None:
    """Zeros in front, up to as many digits as a number may have, and beyond."""
    row, at, *_ = some(draw, rows)
    digits = row[at].lstrip(b"-+")
    row[at] = row[at][: len(row[at]) - len(digits)] + digits.rjust(draw.choice([2, 20, 37, 38, 38, 39, 40]), b"0")


def edge(draw: Random, rows: Rows) -> None:
    """An end of the range, or one beyond."""
    row, at, least, most = some(draw, rows)
    row[at] = str(draw.choice([least - 1, least, most, most + 1, -least, -most])).encode()


def off_by(draw: Random, rows: Rows, place: int, steps: list[int], head: bytes = b"cert") -> None:
    row, at, *_ = some(draw, rows, head, place)
    row[at] = str(int(row[at]) + draw.choice(steps)).encode()


def radius(draw: Random, rows: Rows) -> None:
    off_by(draw, rows, 4, [-1, -1, 1, 2**40])


def entry(draw: Random, rows: Rows) -> None:
    off_by(draw, rows, 2, [-1, 1])


def guess(draw: Random, rows: Rows) -> None:
    off_by(draw, rows, 3, [-(2**50), -(2**20), -1, 1, 2**20, 2**50])


def field(draw: Random, rows: Rows) -> None:
    off_by(draw, rows, draw.choice([3, 5]), [-1, 1], b"nodes")


def all_wide(draw: Random, rows: Rows) -> None:
    """Radii so wide that guesses may be off."""
    for row in rows:
        if row[0] == b"cert" and len(row) == 5 and all(map(is_number, row[2:])):
            row[3] = str(int(row[3]) + draw.randint(-(2**50), 2**50)).encode()
            row[4] = str(draw.choice([2**64, 2**70, 2**126])).encode()


def all_far(draw: Random, rows: Rows) -> None:
    """Guesses as far off as may be, within the widest radii."""
    most = 2 ** draw.choice([80, 95, 95, 95])
    for row in rows:
        if row[0] == b"cert" and len(row) == 5:
            row[3:] = [str(draw.choice([-most, most, draw.randint(-most, most)])).encode(), str(2**126).encode()]


def all_higher(draw: Random, rows: Rows) -> None:
    """A vector that is some multiple of the one that is there."""
    times = draw.choice([2, 3, 10, 100])
    for row in rows:
        if row[0] == b"cert" and len(row) == 5 and is_number(row[2]):
            row[2] = str(int(row[2]) * times).encode()


def name(draw: Random, rows: Rows) -> None:
    names = [row for row in rows if row[0] == b"cert" and len(row) > 1]
    if names:
        row, other = draw.choice(names), draw.choice(names)[1]
        row[1] = draw.choice([other, row[1].swapcase(), row[1][:-1], row[1] + b"0", b"\xff\x00", b"dead"])


def dead(draw: Random, rows: Rows) -> None:
    nodes = [row for row in rows if row[0] == b"cert" and len(row) > 2]
    if nodes:
        row = draw.choice(nodes)
        row[2:] = [b"dead"] if len(row) > 3 or draw.random() < 0.1 else [b"1", b"0", draw.choice([b"0", b"2"])]


def line(draw: Random, rows: Rows) -> None:
    """A row is dropped, doubled, or changes places with another one."""
    first, second = draw.randrange(len(rows)), draw.randrange(len(rows))
    choice = draw.choice(["drop", "double", "swap"])
    if choice == "drop" and len(rows) > 1:
        del rows[first]
    elif choice == "double":
        rows.insert(second, list(rows[first]))
    else:
        rows[first], rows[second] = rows[second], rows[first]


def word(draw: Random, rows: Rows) -> None:
    """A word is dropped, doubled or emptied, which doubles a space."""
    row = draw.choice(rows)
    at = draw.randrange(len(row))
    others: list[list[bytes]] = [[], [row[at], row[at]], [b"", row[at]], [row[at], b""], [b"\t" + row[at]]]
    row[at : at + 1] = draw.choice(others) or [b""]


def end(draw: Random, rows: Rows) -> None:
    """The last line feed is cut, or something follows it; or the text ends early."""
    choice = draw.choice(["cut", "more", "blank", "early", "return"])
    if choice == "cut" and len(rows) > 1:
        rows.pop()
    elif choice == "more":
        rows[-1] = draw.choice([[b"x"], [b""], [b"end"], [b"", b""]])
    elif choice == "blank":
        rows.append([b""])
    elif choice == "early":
        del rows[draw.randrange(len(rows)) :]
    else:
        rows[draw.randrange(len(rows))][-1:] = [b"\r"]


def byte(draw: Random, rows: Rows) -> None:
    """A byte anywhere is another one, is left out, or is put in."""
    text = joined(rows)
    at = draw.randrange(len(text) + 1)
    put = draw.choice([b"", b" ", b"\n", b"-", bytes([draw.randrange(256)])])
    rows[:] = split(text[:at] + put + text[at + draw.choice([0, 1]) :])


CHANGES: list[Callable[[Random, Rows], None]] = [
    *(digit, sign, zeros, edge, radius, entry, guess, field),
    *(all_wide, all_far, all_higher),
    *(name, dead, line, word, end, byte),
]


def split(text: bytes) -> Rows:
    return [row.split(b" ") for row in text.split(b"\n")]


def joined(rows: Rows) -> bytes:
    return b"\n".join(b" ".join(row) for row in rows)


def changed(draw: Random, text: bytes) -> tuple[str, bytes]:
    """A certificate with one to three changes, and their names."""
    rows, names = split(text), []
    for change in draw.sample(CHANGES, draw.choice([1, 1, 1, 1, 2, 3])):
        change(draw, rows)
        names.append(change.__name__)
        if not rows:
            rows.append([b""])
    return "+".join(names), joined(rows)


# Changes of a case and of switchings ----------------------------------------------------------------------------------
# Each takes a draw and a text, and answers another one.

QUOTED = re.compile(rb'"[^"\n]*"')
ROW_NAME = re.compile(rb'(?<=name = )"[^"\n]*"')
KEY = re.compile(rb"^[a-z_]+(?= = )", re.MULTILINE)
VALUE = re.compile(rb"(?<== )[^\n]+")
CELL = re.compile(rb"[^,\n]+")
ODD_VALUES = [
    *(b"0", b"1", b"-1", b"3", b"4", b"999", b"1000", b"1000000000", b"1000000001", b"1_000", b"0x7d0", b"9" * 20),
    *(b"3.5", b"true", b"false", b'"blocked"', b'"Blocked"', b'"auto"', b'"delta-delta"', b'"reactor"', b'""', b'"a b"'),
    *(b'"' + b"n" * 33 + b'"', b"9" * 5000, b"[]", b"{}", b"[" * 40 + b"]" * 40, b"[" * 3000 + b"]" * 3000),
    b"1979-05-27",
]
ODD_CELLS = [
    *(b"Open", b"opened", b"trip", b"open", b"close", b"block", b"unblock", b" open", b"open ", b'"open"', b'"close', b""),
    *(b"0", b"-1", b"+5", b"4294967295", b"4294967296", b"0" * 18, b"0" * 19, b"9" * 5000, b"1.5", b"\xff", b"\xc3\xbc"),
    *(b"a,b", b'"\n"', b"\r"),
]


def in_place(text: bytes, found: re.Match[bytes] | None, other: bytes) -> bytes:
    """The text with other bytes in the place of what was found."""
    return text if found is None else text[: found.start()] + other + text[found.end() :]


def any_of(draw: Random, pattern: re.Pattern[bytes], text: bytes) -> re.Match[bytes] | None:
    matches = list(pattern.finditer(text))
    return draw.choice(matches) if matches else None


def one_for_another(draw: Random, pattern: re.Pattern[bytes], text: bytes) -> bytes:
    """One thing of a kind in the place of another one."""
    other = any_of(draw, pattern, text)
    return in_place(text, any_of(draw, pattern, text), other[0] if other else b"")


def mark(draw: Random, text: bytes) -> bytes:
    """A byte order mark in front; or two of them, or a part of one."""
    return draw.choice([b"\xef\xbb\xbf"] * 4 + [b"\xef\xbb\xbf" * 2, b"\xef\xbb"]) + text


def line_ends(draw: Random, text: bytes) -> bytes:
    return text.replace(b"\n", draw.choice([b"\r\n", b"\r\n", b"\n\n", b"\r"]))


def name_twice(draw: Random, text: bytes) -> bytes:
    return one_for_another(draw, ROW_NAME, text)


def other_reference(draw: Random, text: bytes) -> bytes:
    return one_for_another(draw, QUOTED, text)


def other_key(draw: Random, text: bytes) -> bytes:
    return one_for_another(draw, KEY, text)


def other_value(draw: Random, text: bytes) -> bytes:
    return in_place(text, any_of(draw, VALUE, text), draw.choice(ODD_VALUES))


def lines_moved(draw: Random, text: bytes) -> bytes:
    """A line is dropped, doubled, or changes places with another one."""
    rows = [[row] for row in text.split(b"\n")]
    line(draw, rows)
    return b"\n".join(row[0] for row in rows)


def other_cell(draw: Random, text: bytes) -> bytes:
    return one_for_another(draw, CELL, text)


def odd_cell(draw: Random, text: bytes) -> bytes:
    return in_place(text, any_of(draw, CELL, text), draw.choice(ODD_CELLS))


def cells_moved(draw: Random, text: bytes) -> bytes:
    """A comma more, or one less."""
    comma = any_of(draw, re.compile(rb","), text)
    return in_place(text, comma, draw.choice([b"", b",,", b";"]))


Change = Callable[[Random, bytes], bytes]
CASE_CHANGES: list[Change] = [mark, line_ends, name_twice, other_reference, other_key, other_value, lines_moved]
SWITCHING_CHANGES: list[Change] = [mark, line_ends, other_cell, odd_cell, cells_moved, lines_moved]


def input_changed(draw: Random, files: Files) -> tuple[str, Files]:
    """Files of which the case or the switchings have one or two changes, and the names of these."""
    name, changes = draw.choice([("p", CASE_CHANGES), ("s", SWITCHING_CHANGES)])
    text, names = files[name], []
    for change in draw.sample(changes, draw.choice([1, 1, 2])):
        text = change(draw, text)
        names.append(change.__name__)
    return f"{name}: {'+'.join(names)}", {**files, name: text}
