"""Alpha and beta of a zone in a case.

A case has a latitude, from which the program takes alpha by its table, and beta in whole hundredths. Another alpha is
met by these two and by a factor near 1 on the spans of the zone's lines: a line's voltage is its span times both.
"""

import dataclasses
import decimal
from fractions import Fraction

# The greatest latitude, in hundredths of a degree, of each alpha, in tenths.
TABLE = ((4000, 1), (4500, 2), (5000, 3), (5400, 5), (5600, 6), (5700, 7), (5800, 8), (5900, 9), (9000, 10))
BETAS = range(1, 151)  # in hundredths
NEAR = Fraction(1, 100)  # a factor this near to 1 is taken with the zone's own latitude


def by_table(latitude: int) -> Fraction:
    """The program's alpha at a latitude in hundredths of a degree."""
    return Fraction(next(tenths for most, tenths in TABLE if latitude <= most), 10)


def by_formula(latitude: decimal.Decimal) -> Fraction:
    """0.001·e^(0.115·L) between 0.1 and 1."""
    alpha = decimal.Decimal("0.001") * (decimal.Decimal("0.115") * latitude).exp()
    return Fraction(min(max(alpha, decimal.Decimal("0.1")), decimal.Decimal(1)))


def unasked(latitude: int) -> int:
    """The greatest latitude, in hundredths of a degree, up to this one, of the same alpha in the table, at which that isn't below the
    formula's: `review` asks about no alpha there."""
    while by_table(latitude) < by_formula(decimal.Decimal(latitude) / 100):
        latitude -= 1
    return latitude


@dataclasses.dataclass(frozen=True)
class Scale:
    """What a case has for alpha times beta of a zone: a latitude and a beta in hundredths, and the factor of spans."""

    latitude: int
    beta: int
    factor: Fraction = Fraction(1)


NO_SCALE = Scale(9000, 100)  # of a zone that isn't there, a finding


def nearest_scale(latitude: int, product: Fraction) -> Scale:
    """The scale at this latitude whose factor is the nearest to 1."""
    alpha = by_table(latitude)
    beta = min(max(round(100 * product / alpha), BETAS[0]), BETAS[-1])
    return Scale(latitude, beta, 100 * product / (alpha * beta))


def scale_for(latitude: int, product: Fraction) -> Scale:
    """A scale for this product of alpha and beta: with the zone's own latitude where the factor is near to 1, so that
    spans stay lengths, and else with the latitude of another row of the table, at which `review` asks about no alpha."""

    def off(scale: Scale) -> Fraction:
        return abs(scale.factor - 1)

    own = nearest_scale(latitude, product)
    others = [nearest_scale(unasked(min(most, 6000)), product) for most, _ in TABLE]
    return own if off(own) <= NEAR else min([own, *others], key=off)
