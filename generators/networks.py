"""Small random networks with a storm and switchings, some of them just within the cap on entries of a bound vector or just
past it; and the sample network and made ones with theirs.
"""

from __future__ import annotations

import re
from collections.abc import Sequence
from random import Random
from typing import Optional

import paths

from generators import made_case, random_cases
from generators.random_cases import NO_SWITCHINGS, Network
from referee.case import OHM, Case, read_case
from referee.earthing import CAP, least_vector, unearthed

Files = dict[str, bytes]  # a case `p`, a storm `t` and switchings `s`

MOST_NODES = 40
GROUND = re.compile(r"^ground = \d+$", re.MULTILINE)
KINDS = ("usual", "at both ends", "just within 4096", "just past 4096")


def with_grounds(text: str, resistance: int) -> str:
    return GROUND.sub(f"ground = {resistance}", text)


def vector_with(case: Case, resistance: int, known: Sequence[int] = ()) -> tuple[int, ...]:
    """The least capped vector with this resistance of all grounds, while all elements stand."""
    elements = [
        element._replace(resistance=resistance) if element.kind == "ground" else element for element in case.elements
    ]
    return least_vector(len(case.nodes), elements, [True] * len(elements), known)


def at_the_cap(text: str, is_past: bool) -> Optional[str]:
    """The network with the greatest resistance of its grounds within 4096, or one micro-ohm more; or None.

    The row of an earthed node is the lower the greater the resistance of its ground is, so no entry of a least capped
    vector gets less by that: the vector of a resistance is one to begin with for all greater ones.
    """
    case, (low, high) = read_case(text.encode()), OHM
    if unearthed(case, case.all_stand())[0] is not None:
        return None
    known = vector_with(case, low)
    if CAP in known or CAP not in vector_with(case, high):
        return None
    while high - low > 1:
        middle = (low + high) // 2
        vector = vector_with(case, middle, known)
        if CAP in vector:
            high = middle
        else:
            low, known = middle, vector
    return with_grounds(text, high if is_past else low)


def network(draw: Random, kind: str) -> Optional[Network]:
    """A network of a kind, or None where it can't be made so."""
    made = random_cases.network(draw, draw.randint(2, MOST_NODES), kind == "at both ends")
    if not kind.startswith("just"):
        return made
    text = at_the_cap(made.text, kind == "just past 4096")
    return None if text is None else made._replace(text=text)


def files(draw: Random, kind: str) -> Optional[Files]:
    """The files of a network of a kind, or None where it can't be made so."""
    made = network(draw, kind)
    if made is None:
        return None
    storm = random_cases.storm(draw, made.names("Z")).text
    has_switchings = made.items and draw.random() < 0.6
    switchings = random_cases.switchings(draw, made, 120) if has_switchings else NO_SWITCHINGS
    return {"p": made.text.encode(), "t": storm.encode(), "s": switchings.encode()}


def first_network(draw: Random, kind: str) -> Network:
    """The first network of a kind that can be made."""
    while (made := network(draw, kind)) is None:
        pass
    return made


def first_files(draw: Random, kind: str) -> Files:
    """The files of the first network of a kind that can be made."""
    while (made := files(draw, kind)) is None:
        pass
    return made


def sample_files(steps: int = 12) -> Files:
    """The sample network, a transformer of which has a name of made ones, with a number of steps of its storm, and its outage."""
    examples = paths.TOP / "examples"
    storm = (examples / "storm.csv").read_bytes().split(b"\n")[: 2 * steps + 1]
    return {
        "p": (examples / "valley.toml").read_bytes().replace(b'"N-T1"', b'"T1"'),
        "t": b"\n".join(storm) + b"\n",
        "s": (examples / "outage.csv").read_bytes(),
    }


def made_files(sites: int, steps: int = 12, seed: int = 7) -> Files:
    """A made network of two nodes a site, with a storm and an outage."""
    draw = Random(seed)
    rows = [f"{10 * step},{draw.randint(-8000, 8000)},{draw.randint(-8000, 8000)}\n" for step in range(steps)]
    return {
        "p": made_case.text(sites, seed).encode(),
        "t": ("time,north,east\n" + "".join(rows)).encode(),
        "s": f"{NO_SWITCHINGS}{5 * steps},S1,open\n".encode(),
    }
