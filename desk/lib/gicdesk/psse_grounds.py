"""Grounds of substations in a file `.gic`: what an empty RG, one of 0 and one of 99 mean is for the user to say."""

import dataclasses
import decimal
import re

from .findings import Finding, Refused
from .psse_gic import Substation
from .quantities import GROUND_OHM, Number, bare

SENTINEL = re.compile("99+")  # ohm: to some programs no ground


@dataclasses.dataclass(frozen=True)
class Grounds:
    """The ohm of an empty RG, where there is one, and the numbers of RG that mean that there is no ground."""

    blank: decimal.Decimal | None = None
    ungrounded: tuple[decimal.Decimal, ...] = ()

    def of(self, substation: Substation, name: str, notes: list[Finding]) -> decimal.Decimal | None:
        """The ohm of a substation, None without a ground; what a program may mean otherwise is told or refused."""
        given = substation.ground

        def tell(words: str) -> None:
            notes.append(substation.record.finding(f"{name}: {words}"))

        if given is None and self.blank is not None:
            tell(f"RG is empty: {self.blank:f} ohm are taken, by --blank-ground")
            return self.blank
        if given is None:
            ways = "see whether the file means that, or else write its ohm, or give --blank-ground"
            tell(f"RG is empty, which is taken as no ground; {ways}")
        elif given in self.ungrounded:
            tell(f"RG is {given:f}: it has no ground, by --ungrounded")
            return None
        elif given == 0:
            ways = "write its ohm, or give --ungrounded=0 where it has no ground"
            substation.record.wrong("RG", f"it is 0, which programs take in different ways; {ways}")
            return None
        elif SENTINEL.fullmatch(f"{given.normalize():f}"):
            tell(f"RG is {given:f} ohm; to some programs that is no ground: then give --ungrounded={given:f}")
        return given


def read_grounds(blank: str | None, ungrounded: list[str]) -> Grounds:
    """The grounds by the words of the options, which must be numbers."""
    least, most = Number(GROUND_OHM.least), Number(GROUND_OHM.most)
    findings: list[Finding] = []
    ohm = None if blank is None else number_of(blank)
    if blank is not None and (ohm is None or not least <= ohm <= most):
        findings.append(Finding(f"--blank-ground={bare(blank)}", f"allowed are numbers from {least} to {most}, in ohm"))
    means = [(word, number_of(word)) for word in ungrounded]
    for word, number in means:
        if number is None:
            findings.append(Finding(f"--ungrounded={bare(word)}", "allowed is a number, as 99: an RG that means no ground"))
    if findings:
        raise Refused(findings)
    return Grounds(ohm, tuple(number for _, number in means if number is not None))


def number_of(word: str) -> decimal.Decimal | None:
    try:
        number = Number(word)
    except decimal.InvalidOperation:
        return None
    return number if number.is_finite() else None
