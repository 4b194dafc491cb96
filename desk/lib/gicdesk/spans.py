"""The spans of a case beside the coordinates of its stations, and which loops of a review they explain.

A span is a difference of two places, so round a small loop spans add up to nothing. Round a large one right spans don't:
meridians converge. Where places are known each span is compared with them, and a loop is asked about only where one of its
spans doesn't fit.
"""

import collections
import dataclasses
from collections.abc import Mapping, Sequence

from .counts import plural
from .network import Degrees, Link
from .places import degrees_between
from .reports import Question

# A span fits that is this near to the coordinates in each direction, and beyond that this part of its length: alpha by the
# formula scales spans by up to a hundredth where alpha times beta is 0.05 or more, and by more below that.
NEAR_M, NEAR_PART = 2000, 0.02

Span = tuple[int, int]  # metres to the north and to the east


@dataclasses.dataclass(frozen=True)
class Misfit:
    """A line whose span isn't that of the coordinates of its ends."""

    link: Link
    mapped: Span

    @property
    def text(self) -> str:
        turned = all(abs(here + there) <= tolerance(self.mapped) for here, there in zip(self.link.span, self.mapped))
        hint = "are its ends turned?" if turned else "is a sign wrong, or a bus at another substation?"
        where = f"from {self.link.start} to {self.link.end}"
        return f"The span of {self.link.name}, {where}, is {way(self.link.span)}, by the coordinates {way(self.mapped)}: {hint}"


@dataclasses.dataclass(frozen=True)
class Compared:
    """What came of comparing: how many spans, those that don't fit, the loops that are open all the same though each of
    their spans fits, and how many lines lack a place."""

    spans: int
    misfits: list[Misfit]
    explained: list[Question]
    open: dict[str, list[str]]  # the lines that don't fit of each other loop, by the name of the line that closes it
    unknown: int

    def loop_text(self, name: str) -> str:
        """What is said of a loop that is open where a span of it doesn't fit."""
        names = self.open.get(name, [])
        return f" Of its spans {', '.join(names)} doesn't fit the coordinates." if names else ""

    @property
    def text(self) -> str:
        """What was compared, in words."""
        fit = self.spans - len(self.misfits)
        words = (
            f"{plural(self.spans, 'span')} of lines were compared with the coordinates of --places: {fit} fit within "
            f"{NEAR_M / 1000:g} km and {100 * NEAR_PART:g} per cent of their length."
        )
        if self.unknown:
            words += f" {plural(self.unknown, 'line')} can't be compared: a place of an end isn't in the table."
        if self.explained:
            names = ", ".join(question.name for question in self.explained)
            loops = "loop stays" if len(self.explained) == 1 else "loops stay"
            words += (
                f" {len(self.explained)} {loops} open in the review though each span of it fits, since meridians converge; "
                f"nothing is asked there: closure of {names}."
            )
        return words


def way(span: Span) -> str:
    north, east = span
    return (
        f"{abs(north) / 1000:.1f} km to the {'south' if north < 0 else 'north'} and {abs(east) / 1000:.1f} km to the "
        f"{'west' if east < 0 else 'east'}"
    )


def tolerance(span: Span) -> float:
    """How far a span may be from the coordinates, in metres."""
    return float(NEAR_M + NEAR_PART * max(abs(span[0]), abs(span[1])))


def misfit_of(link: Link, places: Mapping[str, Degrees]) -> Misfit | None:
    """What doesn't fit of a line whose ends have places; None where it fits."""
    north, east = degrees_between(places[link.start], places[link.end])
    mapped = round(north), round(east)
    fits = all(abs(here - there) <= tolerance(mapped) for here, there in zip(link.span, mapped))
    return None if fits else Misfit(link, mapped)


def loops(links: Sequence[Link]) -> dict[str, list[Link]]:
    """The loop that each line closes which joins stations that earlier lines join already, by the name of the line: it, and
    the lines of the way between its ends among those that joined something."""
    joined: dict[str, list[tuple[str, Link]]] = collections.defaultdict(list)
    found: dict[str, list[Link]] = {}
    for link in links:
        between = [] if link.start == link.end else path(joined, link.start, link.end)
        if between is None:
            joined[link.start].append((link.end, link))
            joined[link.end].append((link.start, link))
        else:
            found[link.name] = [link, *between]
    return found


def path(joined: Mapping[str, list[tuple[str, Link]]], start: str, end: str) -> list[Link] | None:
    """The lines from a station to another one; None where no way leads there."""
    came: dict[str, tuple[str, Link] | None] = {start: None}
    waiting = collections.deque([start])
    while waiting and end not in came:
        name = waiting.popleft()
        for other, link in joined.get(name, []):
            if other not in came:
                came[other] = (name, link)
                waiting.append(other)
    if end not in came:
        return None
    lines: list[Link] = []
    step = came[end]
    while step is not None:
        lines.append(step[1])
        step = came[step[0]]
    return lines


def compared(links: Sequence[Link], places: Mapping[str, Degrees], questions: Sequence[Question]) -> Compared:
    """The spans beside the places, and the closures of a review that they explain."""
    known = [link for link in links if link.start in places and link.end in places]
    misfits = [misfit for link in known if (misfit := misfit_of(link, places)) is not None]
    fitting = {link.name for link in known} - {misfit.link.name for misfit in misfits}
    wrong = {misfit.link.name for misfit in misfits}
    of_line = {name: [link.name for link in loop] for name, loop in loops(links).items()}
    closures = [question for question in questions if question.kind == "closure" and question.name in of_line]
    explained = [question for question in closures if fitting.issuperset(of_line[question.name])]
    is_open = {question.name: [name for name in of_line[question.name] if name in wrong] for question in closures}
    return Compared(len(known), misfits, explained, is_open, len(links) - len(known))
