"""A line over borders of zones: in which zones its way lies, and how its span is shared out among them."""

import dataclasses
import math
from collections.abc import Callable, Sequence
from fractions import Fraction

from .borders import Stretch
from .cases import Field, Part, part_of, span_fields

MOST_PARTS = 16  # of a line in a case

Span = tuple[int, int]  # metres to the north and to the east
Factor = Callable[[str], Fraction]  # of the spans in a zone


@dataclasses.dataclass(frozen=True)
class Piece:
    """A line in a case, or one of its parts: up to a share of its way."""

    zone: str
    until: Fraction = Fraction(1)


def pieces_of(way: Sequence[Stretch]) -> list[Piece]:
    """The pieces of a way of which each stretch lies in one zone."""
    return [Piece(stretch.zones[0], stretch.until) for stretch in way]


def way_fault(way: Sequence[Stretch]) -> str | None:
    """What keeps a way from being cut at the borders: a stretch in no polygon or in several, or too many of them."""
    odd = next((stretch for stretch in way if len(stretch.zones) != 1), None)
    if odd is not None:
        where = f"in {' and in '.join(odd.zones)}" if odd.zones else "in no polygon"
        return f"a part of the line lies {where}"
    if len(way) > MOST_PARTS:
        return f"the line has {len(way)} parts by the polygons, and not up to {MOST_PARTS}"
    return None


def pieces_text(pieces: Sequence[Piece], span: Span | None) -> str:
    """The pieces, each with the kilometres at which it ends."""
    length = 0.0 if span is None else math.hypot(*span) / 1000
    return ", ".join(f"{piece.zone} to {float(piece.until) * length:.1f} km" for piece in pieces)


def crossed_zones(way: Sequence[Stretch]) -> set[str]:
    return {zone for stretch in way for zone in stretch.zones}


def shared_out(pieces: Sequence[Piece], span: Span, factor: Factor) -> list[Part]:
    """The parts of a line. Its span is shared out by length among them, and adds up."""
    parts, share = list[Part](), Fraction(0)
    for piece in pieces:
        north, east = (round(total * piece.until) - round(total * share) for total in span)
        parts.append(part_of(piece.zone, north, east, factor(piece.zone)))
        share = piece.until
    return parts


def fields_of(pieces: Sequence[Piece], resistance: Field, span: Span, factor: Factor) -> list[Field]:
    """The zone, the resistance and the span of a line; or its resistance and its parts."""
    if len(pieces) == 1:
        zone = pieces[0].zone
        return [Field("zone", zone), resistance, *span_fields(*span, factor(zone))]
    return [resistance, Field("part", tuple(shared_out(pieces, span, factor)))]


def too_long(pieces: Sequence[Piece], span: Span, factor: Factor, most_km: int) -> str | None:
    """What is wrong with a span that the factors of its zones bring out of the range of a case."""
    greatest = max(factor(piece.zone) for piece in pieces)
    if not any(abs(metres) <= most_km * 1000 < abs(metres * greatest) for metres in span):
        return None
    words = f"its span times {float(greatest):.6f} is above {most_km} km"
    return f"{words}; cut it in two, with a substation without a ground between them"
