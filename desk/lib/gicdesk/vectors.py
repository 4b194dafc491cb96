"""Vector groups of transformers, as YNd1 or YNa0d1, and which of them goes with which kind of a case.

The letters stand in the order of the windings, the highest voltage first: YN is an earthed wye, A the lower side of an
autotransformer, and Y, D and Z have no way to earth.
"""

import re
from collections.abc import Sequence

LETTERS = re.compile(r"(YN|Y|D|A|Z)[0-9]*")
GROUNDED = "YN"
GROUPS = "groups of YN, Y, D, Z and A, as YNd1, YNyn0 and YNa0d1"
OF_REACTORS = re.compile(r"(YN|ZN)[0-9]*(D[0-9]*)?")


def letters_of(vector: str) -> list[str] | None:
    """The letters of each winding of a vector group, as YN, A and D of YNa0d1; None where it is none."""
    text = re.sub(r"\s", "", vector).upper()
    if not re.fullmatch(rf"({LETTERS.pattern})+", text):
        return None
    return [found[1] for found in LETTERS.finditer(text)]


def kinds_of(letters: Sequence[str], has_third: bool) -> list[str]:
    """The kinds of a case that a unit with these windings may be, with a third earthed winding beside or without."""
    grounded = letters.count(GROUNDED)
    third = 1 if has_third else 0
    if "A" in letters:
        is_auto = letters[0] in ("Y", GROUNDED) and letters[1] == "A" and letters.count("A") == 1
        return ["auto"] if is_auto and grounded - (letters[0] == GROUNDED) == third else []
    if letters[0] != GROUNDED:
        return ["delta-delta"] if third == 0 else []
    if grounded == 1 and len(letters) > 1:
        return ["delta-wye"] if third == 0 else []
    return ["wye-wye"] if grounded == 2 + third else []


def is_earthed_below(letters: Sequence[str]) -> bool:
    """Whether the one earthed winding isn't that of the highest voltage, as of Dyn."""
    return letters[0] != GROUNDED and letters.count(GROUNDED) == 1 and "A" not in letters
