"""How a run must end: its status and its line, and for a report what it is about (docs/FORMATS.md, *Statuses*)."""

from __future__ import annotations

import bisect
import os
from collections.abc import Collection, Sequence
from pathlib import Path
from typing import NamedTuple, Optional, Union

from referee.case import Case, Live, Stand, make_case, read_case
from referee.certificate import Certificate, check_certificate, read_certificate
from referee.earthing import CAP, least_capped, least_vector, unearthed, unresolved
from referee.grounds import ground_ranges, with_grounds
from referee.storm import Storm, Switching, read_storm, read_switchings, standing
from referee.words import EARTHED, LIVE, MODES, SOLVED, Asked, Refusal, read_words

MOST_BYTES = 16777216
MOST_MADE_WALK = 448


class Epoch(NamedTuple):
    """Steps from a first to a last, counted from 1, with what stands at them and which nodes are live."""

    first: int
    last: int
    stand: Stand
    live: Live


class Outcome:
    """The status and the line, if there is one, of a run.

    With status 0 there is more, and each of these is set where the mode has it: `asked`, the options; `case`, `storm`,
    `switchings` and `certificate`, as they were read; `epochs`, and `stand` and `live` of the first; `transformer`, the
    place of the one that is asked for; and `vector`, the least capped vector of a made case.
    """

    asked: Asked
    case: Case
    storm: Storm
    certificate: Certificate
    stand: Stand
    live: Live
    transformer: int
    vector: tuple[int, ...]

    def __init__(self) -> None:
        self.status = 0
        self.line: Optional[str] = None
        self.switchings: list[Switching] = []
        self.epochs: list[Epoch] = []

    @property
    def mode(self) -> str:
        return self.asked.mode

    @property
    def need(self) -> int:
        """What the mode needs of the network."""
        return MODES[self.mode].need


# A folder, as trials and tests name it.
Folder = Union[str, Path]


class Period(NamedTuple):
    """A first and a last step, and how many switchings are in force at them."""

    first: int
    last: int
    in_force: int


def fetch(folder: Folder, name: bytes) -> Optional[bytes]:
    """The bytes of a file, up to one more than it may have, or None where it can't be read."""
    try:
        with open(os.path.join(os.fsencode(folder), name) if name else b"", "rb") as file:
            return file.read(MOST_BYTES + 1)
    except OSError:
        return None


class Prediction:
    """Follows what a run does, up to its first refusal."""

    def __init__(self, outcome: Outcome, folder: Folder) -> None:
        self.outcome, self.folder = outcome, folder

    def load(self, option: str, name: bytes) -> bytes:
        """The bytes of the file that an option names."""
        content = fetch(self.folder, name)
        if content is None:
            raise Refusal(3, "gicstudy: cannot read " + option)
        if len(content) > MOST_BYTES:
            raise Refusal(10, "gicstudy: too long: " + option)
        return content

    def run(self) -> None:
        outcome, asked = self.outcome, self.outcome.asked
        if asked.seed is not None and asked.size is not None:
            self.make(asked.seed, asked.size)
        if asked.case is not None:
            self.read(asked, asked.case)
            if outcome.need >= LIVE:
                self.stand()
        if asked.cert is not None:
            self.recheck(asked.cert)

    def read(self, asked: Asked, case: bytes) -> None:
        """Reads the files but a certificate, in their order."""
        outcome = self.outcome
        outcome.case = read_case(self.load("case", case))
        if asked.transformer is not None:
            self.find_transformer(asked.transformer)
        if asked.storm is not None:
            outcome.storm = read_storm(self.load("storm", asked.storm), outcome.case)
        if asked.switch is not None:
            outcome.switchings = read_switchings(self.load("switch", asked.switch), outcome.case)

    def make(self, seed: int, size: int) -> None:
        outcome = self.outcome
        outcome.case = make_case(seed, size)
        outcome.stand = outcome.case.all_stand()
        outcome.live = (True,) * len(outcome.case.nodes)
        outcome.epochs = [Epoch(1, 1, outcome.stand, outcome.live)]
        outcome.vector = least_capped(outcome.case, outcome.stand)
        assert max(outcome.vector) <= MOST_MADE_WALK

    def find_transformer(self, name: bytes) -> None:
        names = [row.name.encode() for row in self.outcome.case.transformers]
        if name not in names:
            raise Refusal(12, "gicstudy: unknown transformer")
        self.outcome.transformer = names.index(name)

    def periods(self) -> list[Period]:
        """The steps over which one number of switchings is in force."""
        outcome = self.outcome
        if outcome.asked.storm is None:
            return [Period(1, 1, len(outcome.switchings))]
        times = [switching.time for switching in outcome.switchings]
        periods: list[Period] = []
        for number, step in enumerate(outcome.storm.steps, 1):
            in_force = bisect.bisect_right(times, step.time)
            if periods and periods[-1].in_force == in_force:
                periods[-1] = periods[-1]._replace(last=number)
            else:
                periods.append(Period(number, number, in_force))
        return periods

    def stand(self) -> None:
        """Fills the epochs; a Refusal at the first step at which the mode's need isn't met."""
        outcome = self.outcome
        known: dict[Stand, Live] = {}
        for first, last, in_force in self.periods():
            stand = standing(outcome.case, outcome.switchings[:in_force])
            if stand not in known:
                known[stand] = self.live_nodes(stand, first)
            outcome.epochs.append(Epoch(first, last, stand, known[stand]))
        outcome.stand, outcome.live = outcome.epochs[0].stand, outcome.epochs[0].live

    def live_nodes(self, stand: Stand, step: int) -> Live:
        case, need = self.outcome.case, self.outcome.need
        node, live = unearthed(case, stand)
        if node is not None and need >= EARTHED:
            raise Refusal(8, f"gicstudy: unearthed: step {step} node {case.nodes[node]}")
        if need == SOLVED:
            node = unresolved(case, stand) if self.outcome.asked.tolerance is None else self.unresolved_at_most(stand)
            if node is not None:
                raise Refusal(9, f"gicstudy: unresolved: step {step} node {case.nodes[node]}")
        return live

    def unresolved_at_most(self, stand: Stand) -> Optional[int]:
        """The first node that isn't resolved with each ground at the greatest resistance of its range, or None."""
        case, percent = self.outcome.case, self.outcome.asked.tolerance
        assert percent is not None
        most = {number: own.most for number, own in ground_ranges(case, percent).items()}
        vector = least_vector(len(case.nodes), with_grounds(case, most), stand)
        return vector.index(CAP) if CAP in vector else None

    def recheck(self, name: bytes) -> None:
        outcome = self.outcome
        certificate = read_certificate(self.load("cert", name), outcome.case, outcome.live)
        volts = outcome.case.element_volts(None, certificate.north, certificate.east)
        check_certificate(outcome.case, outcome.stand, outcome.live, volts, certificate.nodes)
        outcome.certificate = certificate


def predict(words: Sequence[bytes], folder: Folder, built: Collection[str] = MODES) -> Outcome:
    """The outcome of a run with these words in this folder, of a program that has the modes `built`."""
    outcome = Outcome()
    try:
        outcome.asked = read_words(words, built)
        Prediction(outcome, folder).run()
    except Refusal as refusal:
        outcome.status, outcome.line = refusal.status, refusal.line
    return outcome
