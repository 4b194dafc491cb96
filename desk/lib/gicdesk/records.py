"""Rows of tables and records of files: fields under the names of columns."""

import csv
import dataclasses
import decimal
import io
import re
from collections.abc import Sequence

from .counts import plural
from .files import read_text
from .findings import Finding, refuse, shown

NUMBER = re.compile(r"[+-]?([0-9]+\.?[0-9]*|\.[0-9]+)([eEdD][+-]?[0-9]{1,3})?")
WHOLE = re.compile(r"[+-]?[0-9]{1,12}")
POINTS = {".": "point", ",": "comma, as this table has semicolons"}


@dataclasses.dataclass(frozen=True)
class Record:
    """The fields of a line by the columns of its section. What is wrong with a field becomes a finding."""

    file: str
    line: int
    fields: list[str]
    columns: Sequence[str]
    findings: list[Finding]
    point: str = "."  # between the whole part of a number and the rest

    def finding(self, words: str, column: str | None = None) -> Finding:
        """What is told of the line, or of a field of it."""
        return Finding(self.file, words, self.line, column)

    def wrong(self, column: str | None, words: str) -> None:
        self.findings.append(self.finding(words, column))

    def text(self, column: str) -> str:
        """The field of a column; empty where the line has none."""
        if column not in self.columns:
            return ""
        place = self.columns.index(column)
        return self.fields[place] if place < len(self.fields) else ""

    def number(self, column: str, default: str | None = None) -> decimal.Decimal:
        """The number in a column. Without a default it must be there."""
        number = self.number_or_none(column, default)
        return decimal.Decimal(1) if number is None else number

    def number_or_none(self, column: str, default: str | None = None) -> decimal.Decimal | None:
        """The same; None where it is none, which is a finding."""
        text = self.text(column) or (default if default is not None else "")
        pointed = text.replace(",", ".") if self.point == "," and "." not in text else text
        if not NUMBER.fullmatch(pointed) or (self.point == "," and "." in text):
            what = f"{shown(text)} is no number" if text else "a number is missing"
            self.wrong(column, f"{what}; write one with a decimal {POINTS[self.point]}")
            return None
        return decimal.Decimal(pointed.replace("d", "e").replace("D", "e"))

    def whole(self, column: str, default: int | None = None) -> int:
        text = self.text(column)
        if text == "" and default is not None:
            return default
        if not WHOLE.fullmatch(text):
            what = f"{shown(text)} is no whole number" if text else "a whole number is missing"
            self.wrong(column, f"{what}; write one, as 101")
            return 0
        return int(text)

    def bus(self, column: str, default: int | None = None) -> int:
        """The number of a bus; a minus sign in front of it marks the metered end in older files."""
        return abs(self.whole(column, default))


def heads_fault(top: str, first: list[str], heads: Sequence[str], optional: Sequence[str] | None) -> str | None:
    """What is wrong with the heads of a table, which stand in any order; top is the line that they are from."""
    missing = [head for head in heads if head not in first]
    if missing and len(missing) < len(heads):
        odd = [shown(head) for head in first if head and optional is not None and head not in (*heads, *optional)]
        there = f", and {', '.join(odd)} is none of its columns" if odd else ""
        beside = "any others" if optional is None else ",".join(optional)
        allowed = f"; allowed are {','.join(heads)}" + (f", and {beside}" if beside else "")
        return f"it has no column {', '.join(missing)}{there}{allowed}"
    if missing:
        return f"the columns are {shown(top)}, and not {','.join(heads)}; write these, with commas or semicolons"
    for place, head in enumerate(first):
        if head in first[:place]:
            return f"the column {shown(head)} stands there twice; leave one of the two"
        if optional is not None and head not in (*heads, *optional):
            return f"{shown(head)} is none of its columns; allowed are {','.join(heads)}, and {','.join(optional)}"
    return None


def read_table(
    file: str,
    heads: Sequence[str],
    findings: list[Finding],
    optional: Sequence[str] | None = ("note",),
    given: bytes | None = None,
) -> list[Record]:
    """The rows of a table of commas with these heads, in any order, and perhaps some of the optional ones, or where
    that is None any others. Empty rows are none. Where the heads have semicolons between them the rows have, and
    numbers have decimal commas. `given` is what the file holds, where it has been read already."""
    text = read_text(file, given=given)
    top = text.partition("\n")[0]
    semicolons = ";" in top and "," not in top
    reader = csv.reader(io.StringIO(text, newline=""), delimiter=";" if semicolons else ",", strict=True)
    records = []
    try:
        first = [head.strip() for head in next(reader, [])]
        width = len(first)
        while first and not first[-1]:
            first.pop()  # a column without a head at the end, as spreadsheets leave it
        fault = heads_fault(top, first, heads, optional)
        if fault is not None:
            raise refuse(file, fault, 1)
        line = reader.line_num + 1
        for row in reader:
            cells = [cell.strip() for cell in row]
            if len(cells) == width and not any(cells[len(first) :]):
                records.append(Record(file, line, cells, first, findings, "," if semicolons else "."))
            elif any(cells):
                words = f"it has {plural(len(row), 'cell')}, and not {len(first)}: {','.join(first)}"
                if len(row) > width:
                    words += "; a comma in a cell needs quotation marks, and a number a point"
                findings.append(Finding(file, words, line))
            line = reader.line_num + 1
    except csv.Error as error:
        words = f"it is no table of commas here ({error}); look at the quotation marks"
        findings.append(Finding(file, words, reader.line_num))
    return [record for record in records if any(record.fields)]
