"""The text of a case, and the names in it."""

import dataclasses
import re
from fractions import Fraction

from .findings import Finding, refuse

LISTS = {
    "zone": "Zones: where one field, one geomagnetic latitude and one earth hold.",
    "substation": "Substations: ground grids and their resistance to remote earth.",
    "bus": "Buses: where lines and windings meet.",
    "line": "Lines: their resistance, and how far `to` lies from `from`.",
    "transformer": "Transformers: what of their windings carries direct current.",
}
LONGEST_NAME = 32
# What a case of format 2 may have; one with more, with other kinds or with lines in parts is of format 3.
MOST_ROWS_2 = {"zone": 256, "substation": 1024, "bus": 3072, "line": 8192, "transformer": 3584}
MOST_ROWS_3 = {"zone": 256, "substation": 4096, "bus": 12288, "line": 24576, "transformer": 8192}
KINDS_2 = ("delta-wye", "wye-wye", "auto", "delta-delta")
MOST_BYTES = 16_777_216  # of a case that the program reads
FLOATING = "a blocking device between the neutral and the ground grid; the windings stay joined at the neutral"
REMARK = re.compile("  # .*")


@dataclasses.dataclass(frozen=True)
class Part:
    """A part of a line in one zone, and how far it leads, in metres times a factor."""

    zone: str
    north: int
    east: int
    comment: str = ""

    def __str__(self) -> str:
        remark = f"  # {self.comment}" if self.comment else ""
        return f'  {{ zone = "{self.zone}", north = {self.north}, east = {self.east} }},{remark}'


@dataclasses.dataclass(frozen=True)
class Field:
    key: str
    value: int | str | bool | tuple[Part, ...]
    comment: str = ""

    def __str__(self) -> str:
        if isinstance(self.value, tuple):
            return "\n".join([f"{self.key} = [", *map(str, self.value), "]"])
        shown = f'"{self.value}"' if isinstance(self.value, str) else str(self.value).lower()
        return f"{self.key} = {shown}" + (f"  # {self.comment}" if self.comment else "")


def way(metres: int, key: str, opposite: str) -> str:
    return f"{abs(metres) / 1000:g} km to the {opposite if metres < 0 else key}"


def times(factor: Fraction) -> str:
    return "" if factor == 1 else f", times {float(factor):.6f}"


def span_fields(north: int, east: int, factor: Fraction = Fraction(1)) -> list[Field]:
    """The span of a line in metres, each part times the factor of its zone."""
    fields = []
    for key, metres, opposite in (("north", north, "south"), ("east", east, "west")):
        comment = f"`to` lies {way(metres, key, opposite)} of `from`{times(factor)}"
        fields.append(Field(key, round(metres * factor), comment))
    return fields


def part_of(zone: str, north: int, east: int, factor: Fraction = Fraction(1)) -> Part:
    """A part of a line, its span in metres times the factor of its zone."""
    comment = f"{way(north, 'north', 'south')}, {way(east, 'east', 'west')}{times(factor)}"
    return Part(zone, round(north * factor), round(east * factor), comment)


@dataclasses.dataclass(frozen=True)
class Row:
    """A row of one of the case's lists."""

    name: str
    fields: list[Field]
    note: str = ""

    def value(self, key: str) -> int | str | bool | tuple[Part, ...] | None:
        return next((field.value for field in self.fields if field.key == key), None)


@dataclasses.dataclass
class Case:
    """The rows of a case, list by list. It is of format 2 where that can say all of them, and else of format 3."""

    lists: dict[str, list[Row]] = dataclasses.field(default_factory=lambda: {name: [] for name in LISTS})

    def text(self, origin: str) -> str:
        lines = [f"# {printable(origin)}", f"format = {self.format()}"]
        for name, title in LISTS.items():
            lines += ["", f"# {title}"]
            for row in self.lists[name]:
                note = printable(row.note)
                lines += ["", f"[[{name}]]" + (f"  # {note}" if note else ""), f'name = "{row.name}"']
                lines += [str(field) for field in row.fields]
        return "\n".join(lines) + "\n"

    def too_many(self) -> dict[str, str]:
        """What is to be told of each list that has more rows than a case can have."""
        return {
            name: f"a case of it has {len(self.lists[name])} rows {name}, and at most {most}"
            for name, most in MOST_ROWS_3.items()
            if len(self.lists[name]) > most
        }

    def format(self) -> int:
        has_more = any(len(rows) > MOST_ROWS_2[name] for name, rows in self.lists.items())
        has_other = any(row.value("kind") not in KINDS_2 for row in self.lists["transformer"])
        has_other = has_other or any(row.value("scale") for row in self.lists["zone"])
        has_other = has_other or any(row.value("tolerance") is not None for row in self.lists["substation"])
        return 3 if has_more or has_other or any(row.value("part") for row in self.lists["line"]) else 2


def short_enough(text: str, file: str, notes: list[Finding]) -> str:
    """The text of a case that is made of a file; without its remarks where it is too long for the program with them."""
    if len(text.encode()) <= MOST_BYTES:
        return text
    bare = REMARK.sub("", text)
    size = len(bare.encode())
    if size > MOST_BYTES:
        words = f"the case would have {size} bytes, and the program takes {MOST_BYTES}"
        raise refuse(file, f"{words}; give shorter names, or leave out what no direct current can reach")
    notes.append(Finding(file, f"the case has no remarks, since it would have more than {MOST_BYTES} bytes with them"))
    return bare


def printable(text: str) -> str:
    return "".join(letter for letter in text if letter.isprintable())


@dataclasses.dataclass
class Names:
    """The names of a case, of which each stands once in all lists together."""

    taken: set[str] = dataclasses.field(default_factory=set)

    def give(self, wanted: str, fallback: str) -> str:
        """A name after the wanted one; after the other, which is unique in its list, where that is empty or taken."""
        name = kept(wanted)
        if not name or name in self.taken:
            name = kept(fallback)
            number = 1
            while name in self.taken:
                number += 1
                name = f"{kept(fallback)[: LONGEST_NAME - 6]}_{number}"
        self.taken.add(name)
        return name

    def give_like(self, wanted: str) -> str:
        return self.give(wanted, wanted)


def kept(text: str) -> str:
    """The text with `_` for each run of letters that names can't have, cut to the length of a name."""
    return re.sub(r"[^A-Za-z0-9_.-]+", "_", text.strip()).strip("_")[:LONGEST_NAME]
