"""The marks of units in a study: which open questions can change what is said of them."""

from collections.abc import Mapping, Sequence
from typing import Protocol

from .counts import plural
from .markup import Markup, joined, tag

HEAD = {"?": "n"}  # of the table of units, with its class
MARK = "?"
MOST = 3  # numbers of questions in a cell
MOST_NAMES = 40
NOTE = (
    " The column ? lists the open questions that can change what the page says of a unit: questions about its part of the network, or "
    "about something within three lines of it."
)
Marks = Mapping[str, list[int]]


class Row(Protocol):
    @property
    def verdict(self) -> str: ...


class Facts(Protocol):
    @property
    def name(self) -> str: ...

    @property
    def benchmark(self) -> Row: ...


def link(number: int) -> Markup:
    return tag("a", str(number), href=f"#q{number}")


def marked(name: str, marks: Marks) -> Markup:
    """The name of a unit, with a mark where a question can change what is said of it."""
    if name not in marks:
        return joined((name,))
    return joined((name, " ", tag("a", MARK, href=f"#q{marks[name][0]}")))


def mark_cell(name: str, marks: Marks) -> Markup:
    """The questions of a unit in the table."""
    numbers = marks.get(name, [])
    words = [link(number) for number in numbers[:MOST]]
    more = [f"+{len(numbers) - MOST}"] if len(numbers) > MOST else []
    return joined(piece for one in (*words, *more) for piece in (one, " "))


def below_text(units: Sequence[Facts], marks: Marks) -> str:
    """How many units that are told below a question can change; empty where none."""
    names = [unit.name for unit in units if unit.benchmark.verdict == "below" and unit.name in marks]
    if not names:
        return ""
    is_one, more = len(names) == 1, f" and {len(names) - MOST_NAMES} more" if len(names) > MOST_NAMES else ""
    return (
        f"{plural(len(names), 'unit')} that {'is' if is_one else 'are'} below the threshold here {'has' if is_one else 'have'} an open "
        f"question that can change it: {', '.join(names[:MOST_NAMES])}{more}"
    )


def marks_note(units: Sequence[Facts], marks: Marks) -> list[Markup]:
    """What the answer says of marks."""
    if not marks:
        return []
    below = below_text(units, marks)
    words = f"A {MARK} marks each unit that an open question can change." + (f" {below}." if below else "")
    return [tag("p", words)]


def marks_lines(units: Sequence[Facts], marks: Marks) -> list[str]:
    """The same on the terminal."""
    below = below_text(units, marks)
    return [f"note: {below} (the column open_questions of units.csv)"] if below else []
