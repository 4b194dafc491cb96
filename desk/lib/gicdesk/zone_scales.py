"""A row of a table of zones as a case has it: its latitude, its beta, and the factor that the spans of its lines get.

Alpha is chosen once for all zones: by the formula, by the program's table, or as a number; a zone may have its own.
"""

import dataclasses
import decimal
from collections.abc import Mapping
from fractions import Fraction
from typing import Protocol

from .alpha import Scale, by_formula, by_table, scale_for, unasked
from .cases import Field, Row
from .earths import beta_words
from .findings import Finding, Refused
from .quantities import ALPHA, BETA, GEOMAGNETIC, Number, bare, number_in, whole
from .records import Record

TABLE, FORMULA = "table", "formula"
WAYS = f"{FORMULA}, {TABLE} or a number: alpha of the zones; it is {FORMULA} where nothing is said"
TOO_SMALL = "currents come out too small"


class Ask(Protocol):
    """Asks about a row, under a name by which the finding may be accepted: what is found, and what to do about it."""

    def __call__(self, name: str, at: Record, column: str, words: str, ways: str) -> None: ...


@dataclasses.dataclass(frozen=True)
class Zone:
    row: Row
    scale: Scale
    at: Record
    alpha: Fraction  # as it is meant
    alpha_made: str  # how


def read_alpha(word: str) -> Fraction | None:
    """The alpha of --alpha, where it is a number; None for the words table and formula."""
    if word in (TABLE, FORMULA):
        return None
    allowed = f"allowed are {TABLE}, {FORMULA} and numbers from {ALPHA.least} to {ALPHA.most}"
    try:
        number = Number(word)
    except decimal.InvalidOperation:
        number = Number("NaN")
    if not number.is_finite() or not Number(ALPHA.least) <= number <= Number(ALPHA.most):
        raise Refused([Finding(f"--alpha={bare(word)}", allowed)])
    return Fraction(number)


def zone_of_row(at: Record, alpha: str, ask: Ask, models: Mapping[str, Number]) -> Zone | None:
    """The zone of a row, by the word of --alpha and the betas of earth models; None where its numbers are none, which is a
    finding."""
    latitude, beta = number_in(at, "geomagnetic_latitude", GEOMAGNETIC), number_in(at, "beta", BETA)
    own = number_in(at, "alpha", ALPHA) if at.text("alpha") else None
    if latitude is None or beta is None:
        return None
    words = beta_words(at, beta, models)
    if words is not None:
        ask(f"beta:{at.text('name')}", at, "beta", words, "write the beta of its model")
    if own is not None:
        return zone_by(at, latitude, Fraction(own), "as given", beta)
    if alpha == TABLE:
        return zone_by_table(at, latitude, beta, ask)
    given = read_alpha(alpha)
    if given is not None:
        return zone_by(at, latitude, given, "as given", beta)
    return zone_by(at, latitude, by_formula(latitude), "by the formula", beta)


def zone_by(at: Record, latitude: Number, alpha: Fraction, origin: str, beta: Number) -> Zone:
    """A zone with an alpha that isn't the program's own. Where it is at least the formula's, `review` has nothing to ask about it."""
    hundredths = whole(latitude, GEOMAGNETIC)
    own = unasked(hundredths) if alpha >= by_formula(latitude) else hundredths
    scale = scale_for(own, alpha * Fraction(beta))
    where = "hundredths of a degree, geomagnetic"
    if scale.latitude != hundredths:
        where += f", in place of {latitude:f} degrees"
    met = f"alpha {float(by_table(scale.latitude)):g} of the table, and spans times {float(scale.factor):.6f}"
    meant = f"with {met}: alpha {float(alpha):.6f} {origin}, times beta {bare(at.text('beta'))}"
    return zone(at, scale, where, meant, alpha, origin)


def zone_by_table(at: Record, latitude: Number, beta: Number, ask: Ask) -> Zone:
    """A zone with the program's own alpha, which has its latitude and its beta in whole hundredths."""
    for column, number in (("geomagnetic_latitude", latitude), ("beta", beta)):
        if number * 100 != int(number * 100):
            words = f"it is {bare(at.text(column))}, and a case has two decimals of it"
            at.wrong(column, f"{words}; round it the way that you mean, or choose --alpha={FORMULA} or a number")
    hundredths = whole(latitude, GEOMAGNETIC)
    table, formula = by_table(hundredths), by_formula(latitude)
    if table < formula:
        words = f"alpha is {float(table):g} by the program's table, and {float(formula):.4f} by the formula"
        ways = f"{TOO_SMALL}; choose --alpha={FORMULA}, or write a column alpha"
        ask(f"alpha:{at.text('name')}", at, "geomagnetic_latitude", words, ways)
    meant = "hundredths: the scaling for the conductivity of the earth"
    where = "hundredths of a degree, geomagnetic"
    return zone(at, Scale(hundredths, whole(beta, BETA)), where, meant, table, "by the program's table")


def zone(at: Record, scale: Scale, latitude: str, beta: str, alpha: Fraction, alpha_made: str) -> Zone:
    """The row of the case, with what is said of its latitude and its beta."""
    fields = [Field("latitude", scale.latitude, latitude), Field("beta", scale.beta, beta)]
    return Zone(Row(at.text("name"), fields, at.text("note")), scale, at, alpha, alpha_made)
