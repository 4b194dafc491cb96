"""What the page says of the rounding of a case: its intervals hold for the case as it is written."""

from collections.abc import Mapping
from typing import Any

from .alpha import Scale
from .decimals import MILLI, shifted
from .rounding import most_of_metres, product, short
from .study import Study

HOLDS = "The intervals hold for the case as it is written."
MADE = "What else was rounded or taken on the way into the case is told by the command that makes it."


def scale_of(zone: Mapping[str, Any]) -> float:
    """Alpha times beta of a zone of a case."""
    return float(zone["scale"]) / 1000 if "scale" in zone else product(Scale(zone["latitude"], zone["beta"]))


def rounding_text(study: Study) -> str:
    """The words, with by how many volts whole metres may change the voltage of a line in the event's field."""
    case = study.case
    if case is None:
        return f"{HOLDS} {MADE}"
    scales = [scale_of(zone) for zone in case.get("zone", [])]
    parts = max((len(line.get("part", [line])) for line in case.get("line", [])), default=1)
    field = shifted(study.screen.field, MILLI)
    volts = most_of_metres(scales, parts, study.screen.field / 1000)
    return (
        f"{HOLDS} Its spans are in whole metres: by that the voltage of a line in {field} V/km is up to {short(volts)} V off, as the "
        f"desk works it out: a metre to the north and to the east for each part, times alpha and beta. {MADE}"
    )
