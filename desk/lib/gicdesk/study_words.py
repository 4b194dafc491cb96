"""What the sections of a study's page share: their titles, and how currents, verdicts and names stand in them."""

from collections.abc import Iterable, Sequence

from .decimals import MILLI, shifted
from .forms import Interval
from .markup import Markup, joined, tag
from .storms import SwitchingRow
from .study import Study, UnitFacts, shown_current

MOST_LISTED = 40  # names in a sentence
ABSENT = "–"

TITLES = {
    "answer": "The answer",
    "questions": "Open questions",
    "inputs": "The inputs",
    "units": "The units",
    "margin": "The margin",
    "directions": "By direction",
    "map": "The map",
    "storm": "The storm",
    "gict": "GIC(t)",
    "losses": "Losses",
    "devices": "Devices in neutrals",
    "left": "What was left out",
    "asked": "What was asked",
    "made": "How the numbers were made",
    "sums": "Checksums",
}


def amperes(value: Interval | None) -> str:
    """The end of an interval that is further from 0, in amperes."""
    return ABSENT if value is None else shifted(shown_current(value), MILLI)


def volts_per_km(millivolts: float) -> str:
    """A strength of the field that is no number of a file, to a thousandth."""
    return f"{millivolts / 1000:.3f} V/km"


def verdict(word: str) -> Markup:
    return tag("span", word, class_=f"v {word}")


def words_of(words: Iterable[str]) -> Markup:
    """Words of a command, none of which goes over two lines where it has room in one."""
    pieces = [tag("span", word, class_="w") for word in words]
    return Markup(" ".join(pieces))


def made(words: str) -> Markup:
    """What the numbers of a section are made of."""
    return tag("p", words, class_="made")


def names_text(names: Sequence[str]) -> str:
    """Names in a sentence, as far as there are not too many."""
    more = f" and {len(names) - MOST_LISTED} more" if len(names) > MOST_LISTED else ""
    return ", ".join(names[:MOST_LISTED]) + more


def names_whole(names: Sequence[str]) -> Markup:
    """The same, with no name over two lines where it has room in one."""
    more = f" and {len(names) - MOST_LISTED} more" if len(names) > MOST_LISTED else ""
    pieces = [tag("span", name, class_="w") for name in names[:MOST_LISTED]]
    return joined((Markup(", ".join(pieces)), more))


def switchings_text(rows: Sequence[SwitchingRow]) -> str:
    """Switchings in a sentence, as far as there are not too many."""
    told = [f"{row.time} s {row.action} {row.item}" for row in rows]
    more = f"; and {len(told) - MOST_LISTED} more" if len(told) > MOST_LISTED else ""
    return "; ".join(told[:MOST_LISTED]) + more


def section(key: str, *inside: str, **attributes: str) -> Markup:
    return tag("section", tag("h2", TITLES[key]), "\n", *inside, id=key, **attributes)


def threshold_of(study: Study) -> str:
    return shifted(study.screen.threshold, MILLI)


def station_of(study: Study, name: str) -> str:
    """The substation of a transformer."""
    return ABSENT if study.network is None else study.network.station_of.get(name, ABSENT)


def peak_of(unit: UnitFacts) -> Interval | None:
    """The greatest current over the storm."""
    return None if unit.peak is None else unit.peak.value
