"""Tables, as CSV and as columns of text."""

import csv
import dataclasses
import io
import re
import unicodedata
from collections.abc import Sequence

from .findings import numbered, visible
from .forms import NAME

# The heads of columns with decimal points.
DECIMAL = re.compile(r"(^|_)(A|A_per_phase|V|V_or_A|V_per_km|var|ohm|kV|Mvar|mvar_per_ampere)$")
FORMULAS = ("=", "+", "-", "@")  # what a cell begins with that a spreadsheet works out
SEPARATOR = re.compile(r"[;,\t]")  # what stands between the cells of some spreadsheet
NUMBER = re.compile(r"[+-]?[0-9]+(\.[0-9]+)?")


def is_formula(text: str) -> bool:
    """Whether a text begins as a formula does, perhaps in the wide or the small form of a sign."""
    return unicodedata.normalize("NFKC", text.lstrip()[:1]).startswith(FORMULAS)


def begins_cell(found: re.Match[str]) -> bool:
    """Whether a formula stands behind a separator, with which a spreadsheet of another one begins a cell."""
    return is_formula(found.string[found.end() :])


def has_formula(text: str) -> bool:
    """Whether a spreadsheet works out a text, or what is behind a separator in it."""
    return is_formula(text) or any(map(begins_cell, SEPARATOR.finditer(text)))


def guarded(cell: str) -> str:
    """A cell that no spreadsheet works out and that is one line: a formula has a `'` in front, and letters without a shape
    stand as their numbers, and so does a separator before a formula. A number and a name of a case stay as they are."""
    if NUMBER.fullmatch(cell) or NAME.fullmatch(cell):
        return cell
    plain = visible(SEPARATOR.sub(lambda found: numbered(ord(found[0])) if begins_cell(found) else found[0], cell))
    return f"'{plain}" if is_formula(cell) else plain


@dataclasses.dataclass(frozen=True)
class Table:
    """Heads, and rows of as many cells."""

    heads: Sequence[str]
    rows: Sequence[Sequence[str]]

    def csv(self, comma: bool = False) -> str:
        """The table with commas, one line a row, and quotes where a cell needs them; or, as spreadsheets of many
        countries have it, with semicolons and decimal commas."""
        text = io.StringIO()
        writer = csv.writer(text, delimiter=";" if comma else ",", lineterminator="\n")
        writer.writerow(self.heads)
        decimal = [comma and DECIMAL.search(head) is not None for head in self.heads]
        for row in self.rows:
            cells = map(guarded, row)
            writer.writerow([cell.replace(".", ",") if here else cell for cell, here in zip(cells, decimal)])
        return text.getvalue()

    def columns(self, right: Sequence[str] = ()) -> str:
        """The table as columns of text, two blanks apart; the columns of these heads end at the right."""
        lines = [self.heads, *self.rows]
        widths = [max(len(line[place]) for line in lines) for place in range(len(self.heads))]
        text = ""
        for line in lines:
            cells = [
                cell.rjust(width) if head in right else cell.ljust(width)
                for cell, width, head in zip(line, widths, self.heads)
            ]
            text += "  ".join(cells).rstrip() + "\n"
        return text
