"""What became of the wrong edits: for each that was refused, at which commit and on which day it was tried last.

`edits_state.csv` has a line for each, by crate and name. An edit without a line was never tried, or its last trial didn't refuse it."""

import csv
import io
import os
from collections.abc import Iterable
from dataclasses import dataclass
from pathlib import Path

from crates import Fault, read_text

FILE = "trials/edits_state.csv"
HEAD = ["crate", "edit", "commit", "day"]
# A crate and the name of one of its edits.
Key = tuple[str, str]


@dataclass(frozen=True)
class Refusal:
    """Where an edit was refused: the commit and the day."""

    commit: str
    day: str


def key_of(edit: Path) -> Key:
    """The crate and the name of an edit, by its path."""
    return edit.parent.parent.name, edit.stem


def read_state(top: Path) -> dict[Key, Refusal]:
    """What the file of a checkout keeps, or nothing where there is none."""
    file = top / FILE
    if not file.is_file():
        return {}
    rows = list(csv.reader(io.StringIO(read_text(file))))
    if rows[:1] != [HEAD] or any(len(row) != len(HEAD) for row in rows):
        raise Fault(f"{file} doesn't have the columns {', '.join(HEAD)}")
    return {(crate, edit): Refusal(commit, day) for crate, edit, commit, day in rows[1:]}


def write_state(top: Path, state: dict[Key, Refusal]) -> None:
    """Writes the file anew, in one step."""
    text = io.StringIO()
    writer = csv.writer(text, lineterminator="\n")
    writer.writerow(HEAD)
    writer.writerows([*key, found.commit, found.day] for key, found in sorted(state.items()))
    file = top / FILE
    file.parent.mkdir(exist_ok=True)
    made = file.with_suffix(".new")
    made.write_text(text.getvalue(), encoding="utf-8")
    os.replace(made, file)


def record(top: Path, there: Iterable[Key], refused: Iterable[Key], others: Iterable[Key], at: Refusal) -> None:
    """Notes the edits that were refused, and forgets the others that were tried and those that are no longer there."""
    state = read_state(top) | {key: at for key in refused}
    gone = {*state} - {*there} | {*others}
    write_state(top, {key: found for key, found in state.items() if key not in gone})


def oldest(edits: list[Path], state: dict[Key, Refusal], count: int) -> list[Path]:
    """As many edits as are asked for: those that have no line first, then those with the oldest day, else in their order."""
    return sorted(edits, key=lambda it: state[key_of(it)].day if key_of(it) in state else "")[:count]
