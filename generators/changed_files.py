"""Foreign bytes: texts of the four readers' files, changed in ways that look for what a reader gets wrong."""

from __future__ import annotations

import re
from collections.abc import Callable
from random import Random

NUMBERS = [
    "0", "-0", "+0", "00", "1", "-1", "2", "9", "10", "80", "81", "99", "150", "151", "256", "257", "999", "1000",
    "1001", "4096", "4097", "9000", "9001", "19999", "20000", "20001", "-20000", "-20001", "65535", "65536", "999999",
    "1000000", "1000001", "-1000000", "-1000001", "2000000", "2000001", "999999999", "1000000000", "1000000001",
    "2147483648", "4294967295", "4294967296", "9007199254740993", "999999999999999999", "1000000000000000000",
    "9223372036854775807", "9223372036854775808", "-9223372036854775808", "-9223372036854775809",
    "18446744073709551616", str(2**95), str(2**95 + 1), str(-(2**95)), str(-(2**95) - 1), str(2**126), str(2**126 + 1),
    "9" * 38, "9" * 39, "0" * 17 + "5", "0" * 18 + "5", "0" * 37 + "5", "0" * 38 + "5", "1e3", "1.5", "1.0", "0x10",
    "0o17", "0b101", "1_000", "1__0", "_1", "1_", "inf", "-inf", "nan", "+5", "--5", "5-", "1e400", "-1e400", "1e-400",
    "0.1e1", ".5", "5.", "１",
]
PIECES = {
    "case": [
        "[", "]", "[[", "]]", "{", "}", "=", ",", ".", '"', "'", '"""', "'''", "#", "\\", "\n", "\r", "\r\n", "\t", " ",
        "\0", "\x7f", "\x1f", "é", "\ufeff", "\u2028", "true", "false", "True", "1979-05-27", "1979-05-27T07:32:00Z",
        "07:32:00", "1979-02-29", "2000-02-29 23:59:60", "25:00", '"\\u0041"', '"\\U00110000"', '"\\ud800"', '"\\x41"',
        '"\\e"', '"\\q"', "a.b", '"a"."b"', "a . b", "[zone]", "[[zone]]", "[[line]]", "[a.b.c]", "[[zone.x]]",
        "format = 1\n", "format = 2\n", "format = 3\n", "kind", '"delta-wye"', '"auto"', '"wye-wye"', '"delta-delta"',
        '"blocked"', "blocked = true\n", "neutral = 5000\n", 'neutral = "blocked"\n', "zone = []\n", "x = {}\n", "name",
        "high", "low", "ground", "# c\n", "{ name = 1, }", "[1, 2, ]", "[,]", "{,}", "a = 1 b = 2", "key\n=\n1",
        "scale", "scale = 1000\n", "scale = 1501\n", "part", "part = []\n", "[[line.part]]\n", "[line.part]\n", "third",
        "tolerance", "tolerance = 90\n", "tolerance = 91\n",
        "third_volts = 2000\n", "third_resistance = 5000\n", '"wye-wye-wye"', '"auto-wye"', '"reactor"',
        'part = [{ zone = "Z0", north = 1, east = 1 }, { zone = "Z0", north = -1, east = 1000000 }]\n',
        ', { zone = "Z0", north = 1000000, east = 0 }', 'zone = "Z0"\nnorth = 1\neast = 1\n',
    ],
    "storm": [
        ",", ",,", '"', '""', '"""', "\n", "\r", "\r\n", "\n\n", " ", "\t", ";", "*", "\0", "\ufeff", "é",
        "time,north,east\n", "time,zone,north,east\n", "time", "zone", "north", "east", "Z", "plain", "coast", '"\n"',
        "'", "#", "-", "+",
    ],
    "switch": [
        ",", ",,", '"', '""', "\n", "\r", "\r\n", " ", "\0", "\ufeff", "é", "time,item,action\n", "open", "close",
        "block", "unblock", "Open", '"open"', "time", "item", "action", "*", "T", '"\n"', "-", "+",
    ],
    "cert": [
        " ", "  ", "\n", "\n\n", "\r\n", "\t", "\0", "é", "\ufeff", "certificate\n", "nodes", "north", "east", "cert",
        "dead", "end", "end\n", "cert X dead\n", "-", "+", "--", ",", " \n", "\n ", "nodes 1 north 0 east 0\n",
    ],
}
WORD = re.compile(rb"[A-Za-z0-9_.+-]+")
NUMBER = re.compile(rb"[+-]?[0-9]+")
MOST_CHANGES = 4
MOST_COPIES = 3000
Span = tuple[int, int]
Change = Callable[[Random, bytes, str], bytes]


def pick_span(draw: Random, content: bytes, pattern: re.Pattern[bytes]) -> Span:
    """The ends of one place of a pattern, or of nothing at some place."""
    found = list(pattern.finditer(content))
    if not found:
        place = draw.randint(0, len(content))
        return place, place
    return draw.choice(found).span()


def put(content: bytes, span: Span, new: bytes) -> bytes:
    return content[: span[0]] + new + content[span[1] :]


def other_byte(draw: Random, content: bytes, _: str) -> bytes:
    place = draw.randrange(len(content) + 1)
    return put(content, (place, place + draw.randint(0, 1)), bytes([draw.randrange(256)]))


def cut(draw: Random, content: bytes, _: str) -> bytes:
    """Drops some bytes, or the end."""
    start = draw.randint(0, len(content))
    return put(content, (start, draw.choice([len(content), start + draw.randint(1, 30)])), b"")


def other_number(draw: Random, content: bytes, _: str) -> bytes:
    return put(content, pick_span(draw, content, NUMBER), draw.choice(NUMBERS).encode())


def other_word(draw: Random, content: bytes, _: str) -> bytes:
    """One word in the place of another."""
    start, end = pick_span(draw, content, WORD)
    return put(content, pick_span(draw, content, WORD), content[start:end])


def piece(draw: Random, content: bytes, kind: str) -> bytes:
    place = draw.randint(0, len(content))
    return put(content, (place, place), draw.choice(PIECES[kind]).encode())


def piece_for_word(draw: Random, content: bytes, kind: str) -> bytes:
    return put(content, pick_span(draw, content, WORD), draw.choice(PIECES[kind]).encode())


def pick_lines(draw: Random, content: bytes) -> tuple[list[bytes], int, int]:
    """The lines, and the places of two of them."""
    lines = content.split(b"\n")
    return lines, draw.randrange(len(lines)), draw.randrange(len(lines))


def swap_lines(draw: Random, content: bytes, _: str) -> bytes:
    lines, first, second = pick_lines(draw, content)
    lines[first], lines[second] = lines[second], lines[first]
    return b"\n".join(lines)


def repeat_lines(draw: Random, content: bytes, _: str) -> bytes:
    lines, first, second = pick_lines(draw, content)
    lines[second:second] = lines[first : first + draw.randint(1, 6)]
    return b"\n".join(lines)


def drop_lines(draw: Random, content: bytes, _: str) -> bytes:
    lines, first = pick_lines(draw, content)[:2]
    del lines[first : first + draw.randint(1, 4)]
    return b"\n".join(lines)


def long_word(draw: Random, content: bytes, _: str) -> bytes:
    start, end = pick_span(draw, content, WORD)
    word = content[start:end] or b"x"
    length = draw.choice([31, 32, 33, 511, 512, 513, 65536])
    return put(content, (start, end), (word * length)[:length])


def deep(draw: Random, content: bytes, kind: str) -> bytes:
    """Many of one piece in a row, and its mate behind what follows."""
    depth = draw.choice([2, 3, 39, 40, 41, 78, 79, 80, 81, 82, 200, MOST_COPIES])
    pairs = [("[", "]"), ("{a=", "}"), ("a.", ""), ('"', '"'), ("[[", "]]"), (" ", ""), ("\n", "")]
    opening, closing = draw.choice(pairs)
    start, end = pick_span(draw, content, WORD)
    return put(content, (start, end), opening.encode() * depth + content[start:end] + closing.encode() * depth)


def other_line_ends(draw: Random, content: bytes, _: str) -> bytes:
    return content.replace(b"\n", draw.choice([b"\r", b"\r\n", b"\n\n", b"\n\r", b"\x0b", b"\xe2\x80\xa8"]))


def other_encoding(draw: Random, content: bytes, _: str) -> bytes:
    text = content.decode("utf-8", "replace")
    return text.encode(draw.choice(["utf-16", "utf-8-sig", "utf-16-le", "utf-32", "utf-7", "cp037"]), "replace")


CHANGES: list[tuple[Change, float]] = [
    (other_byte, 4), (cut, 3), (other_number, 8), (other_word, 4), (piece, 6), (piece_for_word, 4), (swap_lines, 3),
    (repeat_lines, 3), (drop_lines, 3), (long_word, 1), (deep, 1), (other_line_ends, 0.3), (other_encoding, 0.2),
]


def mutated(draw: Random, content: bytes, kind: str) -> bytes:
    """The text with up to four changes, or with none at times."""
    changes, weights = zip(*CHANGES)
    for change in draw.choices(changes, weights, k=draw.choice([0, *range(1, MOST_CHANGES + 1), 1, 1, 2])):
        content = change(draw, content, kind)
    return content
