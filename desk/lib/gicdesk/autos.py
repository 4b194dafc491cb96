"""Whether the two resistances of all autotransformers are changed over.

Where both windings of an autotransformer have like losses, the common one has 1/(n - 1)² of the resistance of the series one
at the ratio n of the voltages: less where n is above 2, and more below. One unit alone may be built otherwise; where all of
them are on the wrong side, the columns are mostly changed over.
"""

import dataclasses
from collections.abc import Sequence

from .usual import Number

BELOW, ABOVE = Number("1.9"), Number("2.1")  # ratios between these say nothing
LEAST = 2  # the fewest units that are asked about


@dataclasses.dataclass(frozen=True)
class Auto:
    name: str
    high: Number
    low: Number
    series: Number
    common: Number

    @property
    def is_turned(self) -> bool | None:
        """Whether the greater resistance is the other one's; None where the ratio of the voltages says nothing."""
        ratio = self.high / self.low
        if BELOW < ratio < ABOVE or self.series == self.common:
            return None
        return (self.series > self.common) == (ratio < 2)


def turned_words(autos: Sequence[Auto]) -> str | None:
    """What is to be asked where all autotransformers that say something have their resistances on the wrong side."""
    votes = [auto.is_turned for auto in autos if auto.low > 0]
    told = [vote for vote in votes if vote is not None]
    if len(told) < LEAST or not all(told):
        return None
    return (
        f"in all {len(told)} autotransformers whose voltages tell it the series and the common winding are as if changed over: "
        "the common one mostly has less where the ratio of the voltages is above 2, and more below it"
    )
