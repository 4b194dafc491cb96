"""Text files of records in sections, as power-flow programs write them.

Fields stand between commas (in a line without commas: between blanks), strings in single quotes, and a `/` outside of
them begins a comment. A section ends with a line whose first field is 0; mostly a comment behind it names the next
section, as in `0 / END OF BUS DATA, BEGIN LOAD DATA`. A line `Q` ends the file. From version 34 on lines that begin
with `@!` name the columns of the records below them.
"""

import csv
import dataclasses
import re
from collections.abc import Iterable, Sequence
from typing import Protocol, TypeVar

from .counts import plural
from .findings import Finding, shown
from .psse_headings import begun, headings, section_of
from .records import Record

# What columns are called beside the name that they have here.
OTHER_NAMES = {"STAT": "ST", "STATUS": "ST", "IBUS": "I", "JBUS": "J", "KBUS": "K"}
OTHER_NAMES |= {"BUSI": "I", "BUSJ": "J", "BUSK": "K", "CKTID": "CKT"}


def uncommented(line: str) -> str | None:
    """What stands before a comment; None where a string has no end."""
    quoted = False
    for place, letter in enumerate(line):
        if letter == "'":
            quoted = not quoted
        elif letter == "/" and not quoted:
            return line[:place]
    return None if quoted else line


def fields_of(line: str) -> list[str] | None:
    """The fields of a line without its comment, strings without their quotes; None where there can't be any, as where
    quotes don't fit."""
    text = uncommented(line)
    if text is None:
        return None
    fields: list[str] = []
    for delimiter in (",", " "):
        words = csv.reader([text.replace("\t", " ").strip()], delimiter=delimiter, quotechar="'", skipinitialspace=True)
        try:
            fields = [field.strip() for field in next(words, [""])]
        except csv.Error:
            return None
        if len(fields) > 1:
            break
    return fields


def column_names(line: str) -> list[str]:
    """The columns that a line `@! I, J,'CKT', ..` names, without quotes and blanks."""
    names = [re.sub(r"[\s']", "", name).upper() for name in line.split("@!", 1)[1].split(",")]
    return [OTHER_NAMES.get(name, name) for name in names]


@dataclasses.dataclass(frozen=True)
class Layout:
    """The sections of a kind of file in their order; the columns of those that are read, of a record of several lines
    those of its first; and which of them a line of names must have, or else it doesn't count."""

    order: Sequence[str]
    columns: dict[str, str]
    needed: dict[str, str]
    other_sections: dict[str, str] = dataclasses.field(default_factory=dict)
    passed: Sequence[str] = ()  # sections that are known and say nothing of direct currents

    @property
    def known(self) -> set[str]:
        return {*self.order, *self.columns, *self.passed, *self.other_sections.values()}


@dataclasses.dataclass
class Sections:
    """The sections of a file on the way: which one it is in, by its headings and by their order."""

    layout: Layout
    named: set[str]  # by any heading of the file
    place: int = 0
    section: str = ""

    def next(self, line: str) -> str | None:
        """Goes on to the section that a heading begins; what it is called where it is taken by its place."""
        self.place += 1
        name, order = begun(line), self.layout.order
        follows = order[self.place] if self.place < len(order) else None
        if name is None:
            self.section = follows or "BEHIND ALL"
            return None
        self.section = section_of(name, self.layout.known, self.layout.other_sections)
        if self.section in order:
            self.place = order.index(self.section)
        elif self.section not in self.layout.known and follows is not None and follows not in self.named:
            self.section = follows
            return name
        else:
            self.place -= 1
        return None


@dataclasses.dataclass(frozen=True)
class SectionLine:
    """A line of a section: its number in the file, its fields, and the columns that were named last above it."""

    number: int
    fields: list[str]
    named: list[str]


def ends_section(section: str, line: str, fields: Sequence[str]) -> bool:
    """Whether a line ends the section: it begins with 0. A line of a transformer may begin so too, with a resistance,
    and then numbers stand behind it."""
    return fields[0] == "0" and (section != "TRANSFORMER" or not any(fields[1:]) or "END OF" in line.upper())


def read_sections(
    file: str, lines: Sequence[str], first: int, layout: Layout, findings: list[Finding], notes: list[Finding] | None = None
) -> dict[str, list[SectionLine]]:
    """The lines of each section from the line of this number on. A section that is taken by its place is told."""
    sections: dict[str, list[SectionLine]] = {name: [] for name in layout.order}
    way = Sections(layout, headings(lines[first - 1 :], layout.known, layout.other_sections), 0, layout.order[0])
    named: list[str] = []
    is_begun = False  # a row of lines of names
    for number, line in enumerate(lines[first - 1 :], first):
        if line.lstrip().startswith("@!"):
            names = column_names(line)
            # Of several in a row the first names the first line of a record; one word is a title.
            if len(names) > 1 and not is_begun:
                named, is_begun = names, True
            continue
        if not line.strip() or line.lstrip().startswith("/"):
            continue
        is_begun = False
        fields = fields_of(line)
        if fields is None:
            words = f"{shown(line.strip())} has no fields that can be read; look at its quotes, two for each string"
            findings.append(Finding(file, words, number))
            continue
        if fields == ["Q"]:
            break
        if ends_section(way.section, line, fields):
            name, named = way.next(line), []
            if name is not None and notes is not None:
                words = f"the section {name} is read as {way.section}, which no other heading names, by its place in the file"
                notes.append(Finding(file, words, number))
            continue
        sections.setdefault(way.section, []).append(SectionLine(number, fields, named))
    return sections


def told_skipped(
    file: str, sections: dict[str, list[SectionLine]], layout: Layout, passed: Sequence[str], notes: list[Finding]
) -> None:
    """Tells of sections that have lines and are skipped, but for those that say nothing of direct currents."""
    for name, lines in sections.items():
        if lines and name not in layout.columns and name not in passed:
            what = f"the section {name} is skipped, with {plural(len(lines), 'line')}"
            notes.append(Finding(file, f"{what}; see whether a case needs what stands there", lines[0].number))


def record(file: str, line: SectionLine, section: str, layout: Layout, findings: list[Finding]) -> Record:
    """A line as a record of its section, by the columns that the file names, or else by those of the section."""
    columns: Sequence[str] = line.named
    if not set(layout.needed[section].split(" ")) <= set(columns):
        columns = layout.columns[section].split(" ")
    return Record(file, line.number, line.fields, columns, findings)


def records_of(
    file: str, sections: dict[str, list[SectionLine]], layout: Layout, findings: list[Finding], section: str
) -> list[Record]:
    """The lines of a section as records; none where the file doesn't have it."""
    return [record(file, line, section, layout, findings) for line in sections.get(section, [])]


class Numbered(Protocol):
    """What has a number of its own in a file, in the column I."""

    @property
    def number(self) -> int: ...

    @property
    def record(self) -> Record: ...


Kind = TypeVar("Kind", bound=Numbered)


def by_number(what: str, found: Iterable[Kind]) -> dict[int, Kind]:
    """What was found by its numbers, with a finding at each whose number an earlier one has."""
    numbered: dict[int, Kind] = {}
    for one in found:
        if one.number in numbered:
            line = numbered[one.number].record.line
            one.record.wrong("I", f"the {what} {one.number} stands in line {line} already; leave one of the two")
        numbered[one.number] = one
    return numbered
