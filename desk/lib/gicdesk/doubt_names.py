"""Units that by their names belong to another station than the one of their bus.

In many networks names say the station, as KS-A2, KS-EM and KS-345 of Kestrel. That is looked for here, and is not taken for
granted: a word of names says a station where all rows with it share one, and units are asked about only where most units follow.
"""

import collections
import dataclasses
import re
from collections.abc import Iterator

from .seen import Seen

BREAK = re.compile(r"[-_.]+")
LEAST_ROWS = 2  # the fewest other rows with a word that say its station
LEAST_WORDS = 3  # the fewest stations that have a word of their own
FOLLOWING = 0.9  # the part of the units with such a word that are at its station


@dataclasses.dataclass(frozen=True)
class Astray:
    """A unit, the station of its bus, and the one that its word says."""

    unit: str
    station: str
    word: str
    home: str


def words_of(name: str) -> list[str]:
    """The words of a name: what stands between hyphens, underscores and points, in small letters."""
    return [word.lower() for word in BREAK.split(name) if any(letter.isalpha() for letter in word)]


def stations_of_rows(seen: Seen) -> Iterator[tuple[str, frozenset[str]]]:
    """The name of each row with a place, and its stations."""
    for row in seen.rows("substation"):
        yield row.name, frozenset([row.name])
    for bus, station in seen.station_of_bus.items():
        yield bus, frozenset([station])
    for line in seen.rows("line"):
        ends = frozenset(seen.station_of_bus.get(str(line.value(end)), "") for end in ("from", "to"))
        yield line.name, ends
    for unit in seen.rows("transformer"):
        at = seen.station_of(unit)
        if at is not None:
            yield unit.name, frozenset([at])


@dataclasses.dataclass
class Word:
    """How many rows have a word in their names, and how many of them each station has."""

    rows: int = 0
    stations: collections.Counter[str] = dataclasses.field(default_factory=collections.Counter)

    def add(self, stations: frozenset[str]) -> None:
        self.rows += 1
        self.stations.update(stations)

    def home(self, station: str) -> str | None:
        """The station that all rows with the word share but for one at this station; None where they share none or several, or are
        too few."""
        others = self.rows - 1
        shared = [name for name, many in self.stations.items() if many - (name == station) == others]
        return shared[0] if len(shared) == 1 and others >= LEAST_ROWS else None


def judged_units(seen: Seen) -> Iterator[Astray]:
    """Each unit with the first word of its name that says a station."""
    found: dict[str, Word] = collections.defaultdict(Word)
    for name, stations in stations_of_rows(seen):
        for word in dict.fromkeys(words_of(name)):
            found[word].add(stations)
    for unit in seen.rows("transformer"):
        station = seen.station_of(unit)
        for word in words_of(unit.name) if station is not None else ():
            home = None if station is None else found[word].home(station)
            if home is not None and station is not None:
                yield Astray(unit.name, station, word, home)
                break


def astray(seen: Seen) -> Iterator[Astray]:
    judged = list(judged_units(seen))
    homes = {one.home for one in judged}
    following = sum(one.station == one.home for one in judged)
    if len(homes) >= LEAST_WORDS and following >= FOLLOWING * len(judged):
        yield from (one for one in judged if one.station != one.home)
