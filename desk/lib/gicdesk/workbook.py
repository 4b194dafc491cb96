"""Tables as one workbook, by a library that Debian has and that may be there; nothing else of the desk needs one."""

import importlib
import io
import re
from collections.abc import Callable, Mapping
from typing import Any

from .findings import visible
from .tables import DECIMAL, NUMBER, Table

LIBRARIES = "python3-openpyxl or python3-xlsxwriter"
LONGEST_CELL = 32767  # letters
FIRST_CELL = "B2"  # what scrolls begins there
# The heads of columns with numbers beside those with decimal points.
WHOLE = re.compile(r"(^|_)(degrees|seconds|steps?|s|m|times|number|other|below|reaches|undecided|outside)$")

Cell = str | float
Sheets = Mapping[str, Table]


def cells_of(table: Table) -> list[list[Cell]]:
    """The rows of a table with its heads; a number where the head and the text say so, and else a text on one line."""
    is_number = [bool(DECIMAL.search(head) or WHOLE.search(head)) for head in table.heads]

    def cell(text: str, may_be_number: bool) -> Cell:
        return float(text) if may_be_number and NUMBER.fullmatch(text) else visible(text)[:LONGEST_CELL]

    rows = [[cell(text, here) for text, here in zip(row, is_number)] for row in table.rows]
    return [list(table.heads), *rows]


def by_openpyxl(library: Any, sheets: Sheets) -> bytes:
    book = library.Workbook(write_only=True)
    for name, table in sheets.items():
        sheet = book.create_sheet(name)
        sheet.freeze_panes = FIRST_CELL
        for row in cells_of(table):
            cells = [library.cell.WriteOnlyCell(sheet, value=value) for value in row]
            for cell, value in zip(cells, row):
                if isinstance(value, str):
                    cell.data_type = "s"  # (and no formula, whatever it begins with)
            sheet.append(cells)
    written = io.BytesIO()
    book.save(written)
    return written.getvalue()


def by_xlsxwriter(library: Any, sheets: Sheets) -> bytes:
    written = io.BytesIO()
    with library.Workbook(written, {"in_memory": True}) as book:
        for name, table in sheets.items():
            sheet = book.add_worksheet(name)
            sheet.freeze_panes(FIRST_CELL)
            for place, row in enumerate(cells_of(table)):
                for column, value in enumerate(row):
                    write = sheet.write_string if isinstance(value, str) else sheet.write_number
                    write(place, column, value)
    return written.getvalue()


WRITERS: dict[str, Callable[[Any, Sheets], bytes]] = {"openpyxl": by_openpyxl, "xlsxwriter": by_xlsxwriter}


def workbook(sheets: Sheets) -> bytes | None:
    """The tables as a file `.xlsx`, each a sheet of its name; None where no library is there."""
    for name, write in WRITERS.items():
        try:
            library = importlib.import_module(name)
        except ImportError:
            continue
        return write(library, sheets)
    return None
