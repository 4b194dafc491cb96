"""Events: named sets of switchings, from a table `event,item,action`."""

import dataclasses
from collections.abc import Iterable

from .findings import Finding, Hints, Refused, shown
from .forms import NAME
from .records import read_table
from .storms import records
from .tables import has_formula, is_formula

HEADS = ["event", "item", "action"]
SWITCHINGS = ["time", "item", "action"]  # the heads of a file of switchings
ACTIONS = ("open", "close", "block", "unblock")
LONGEST_EVENT_NAME = 64
MOST_ROWS = 4096  # of a file of switchings


@dataclasses.dataclass(frozen=True)
class Switching:
    item: str
    action: str
    line: int | None = None  # of the table it is from

    def __str__(self) -> str:
        return f"{self.action} {self.item}"


@dataclasses.dataclass(frozen=True)
class Event:
    name: str
    switchings: tuple[Switching, ...]

    def __str__(self) -> str:
        return "; ".join(map(str, self.switchings))


@dataclasses.dataclass(frozen=True)
class Items:
    """What of a case can be switched."""

    lines: frozenset[str]
    grounds: frozenset[str]
    resistors: frozenset[str]  # the transformers with a neutral resistor
    transformers: frozenset[str] | None  # None where they are not known

    def allowed(self, action: str) -> frozenset[str] | None:
        """The items that the action may have; None where not all are known."""
        if action in ("block", "unblock"):
            return self.resistors
        return None if self.transformers is None else self.lines | self.grounds | self.transformers


def one_event(item: str) -> Event:
    """The outage of a single item, which gives the event its name."""
    return Event(item, (Switching(item, "open"),))


def name_fault(name: str) -> str | None:
    if not name:
        return "it is empty; give each event a name"
    if len(name) > LONGEST_EVENT_NAME or not name.isprintable():
        return f"{shown(name)} is no name; allowed are 1 to {LONGEST_EVENT_NAME} printable letters"
    if is_formula(name):
        return f"{shown(name)} is a formula to a spreadsheet; begin it with another letter"
    if has_formula(name):
        return f"{shown(name)} has a formula behind a separator, to some spreadsheets; write it without that"
    return None


def item_fault(item: str, action: str, items: Items, hints: Hints) -> str | None:
    allowed = items.allowed(action)
    if not NAME.fullmatch(item):
        return f"{shown(item)} is no name of a case; allowed are 1 to 32 letters, digits and _ - ."
    if allowed is None or item in allowed:
        return None
    what = "a line, a transformer, or a substation with a ground"
    if action in ("block", "unblock"):
        what = "a transformer with a neutral resistor"
    return f"{shown(item)} isn't {what}, as {action} takes; {hints.ways(item, allowed, action)}"


def read_events(file: str, items: Items, given: bytes | None = None) -> list[Event]:
    """The events of a table in the order of their first rows; all that is wrong with it is told at once. `given` is what
    it holds, where it has been read already."""
    events: dict[str, dict[str, Switching]] = {}
    findings: list[Finding] = []
    hints = Hints()
    for at in read_table(file, HEADS, findings, given=given):
        name, item, action = at.text("event"), at.text("item"), at.text("action")
        earlier = events.setdefault(name, {}).get(item)
        faults = {"event": name_fault(name)}
        if action not in ACTIONS:
            faults["action"] = f"{shown(action)} is none of {', '.join(ACTIONS)}; write one of these"
        elif earlier is not None:
            faults["item"] = f"{item} is in this event already, by line {earlier.line}; leave one of the two"
        else:
            faults["item"] = item_fault(item, action, items, hints)
        for column, words in faults.items():
            if words is not None:
                at.wrong(column, words)
        events[name][item] = Switching(item, action, at.line)
    if not events and not findings:
        findings.append(Finding(file, "it has no event; write a row for each switching of an event", 1))
    if findings:
        raise Refused(sorted(findings, key=lambda finding: finding.line or 0))
    return [Event(name, tuple(switchings.values())) for name, switchings in events.items()]


def last_time(rows: Iterable[list[str]]) -> int:
    """The time of the last row of switchings, which the program has taken; 0 without a row."""
    time = "0"
    for cells in rows:
        if cells:
            time = cells[0]
    return int(time)


@dataclasses.dataclass(frozen=True)
class BaseSwitchings:
    """The switchings that are in force whatever the event: the bytes of their file, which the program has taken."""

    data: bytes = b"time,item,action\n"

    @property
    def rows(self) -> list[list[str]]:
        return records(self.data)[1:]

    def with_event(self, event: Event) -> bytes:
        """The switchings of an event behind them, all at the time of their last row, since times don't fall."""
        rows = self.rows
        time = str(last_time(rows))
        behind = [[time, switching.item, switching.action] for switching in event.switchings]
        return "".join(",".join(cells) + "\n" for cells in (SWITCHINGS, *rows, *behind)).encode()
