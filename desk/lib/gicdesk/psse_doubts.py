"""What is asked of a network that comes from a power flow: the questions of `doubts`, and whether resistances of lines are those for
alternating current."""

import decimal
from collections.abc import Iterator, Mapping

from .cases import Case
from .doubts import Doubt, doubts_of
from .findings import Finding
from .places import Place
from .psse_gic import Gic
from .psse_raw import Raw
from .seen import Seen, SeenZone
from .sources import DEFAULT, ESTIMATED, LISTS, Sources, sources_table, zone_inputs
from .zone_scales import Zone

LEAST_LINES, LEAST_PART = 5, decimal.Decimal("0.5")  # so many lines, and this part of all, have the power flow's resistance
EQUAL = decimal.Decimal("0.005")  # the part by which resistances differ that are the same but for their digits


def seen_zones(zones: list[Zone], places: Mapping[str, list[Place]]) -> Iterator[SeenZone]:
    for zone in zones:
        at = zone.at
        numbers = [float(at.number(column)) for column in ("geomagnetic_latitude", "beta")]
        yield SeenZone(zone.row.name, numbers[0], numbers[1], at.text("earth_model"), places.get(zone.row.name, []))


def alternating(raw: Raw, gic: Gic) -> str | None:
    """What is asked where many lines have the resistance of the power flow, which is that for alternating current."""
    lines = [(branch, gic.lines.get((frozenset(branch.ends), branch.circuit))) for branch in raw.branches]
    lines = [(branch, data) for branch, data in lines if branch.in_service and branch.reactance > 0 and branch.resistance > 0]
    without = copied = 0
    for branch, data in lines:
        kilovolts = raw.buses[branch.ends[0]].kilovolts if branch.ends[0] in raw.buses else decimal.Decimal(0)
        ohm = branch.resistance * kilovolts * kilovolts / raw.base_mva
        without += data is None or data.ohm == 0
        copied += data is not None and data.ohm != 0 and abs(data.ohm - ohm) <= EQUAL * ohm
    if without + copied < LEAST_LINES or without + copied < LEAST_PART * len(lines):
        return None
    told = [f"{without} have no RBRN"] if without else []
    told += [f"{copied} have an RBRN equal to it"] if copied else []
    words = f"{without + copied} of {len(lines)} lines have the resistance of the power flow ({', '.join(told)}), which is mostly that for"
    return f"{words} alternating current and a warm line, 10 to 20 per cent too much: is that for direct current known?"


def findings_of(doubts: list[Doubt], zone_file: str, raw: Raw, gic: Gic) -> list[Finding]:
    """The questions, each with the file that its rows come from."""
    files = {"zone": zone_file, "bus": raw.file, "line": raw.file}
    return [Finding(files.get(doubt.list, gic.file), doubt.text) for doubt in doubts]


def questions(raw: Raw, gic: Gic, seen: Seen, zone_file: str) -> list[Finding]:
    words = alternating(raw, gic)
    found = findings_of(doubts_of(seen), zone_file, raw, gic)
    return found if words is None else [*found, Finding(raw.file, words)]


def sources_text(case: Case, zones: list[Zone], blank: set[str]) -> str:
    """The table of sources of a case: resistances that are taken from the power flow are estimated, and the grounds of these
    substations, which stand blank, a default."""
    taken = ("from per unit", "half of R1-2")
    rows = {
        row.name: ESTIMATED
        for name in ("line", "transformer")
        for row in case.lists[name]
        if any(words in field.comment for field in row.fields for words in taken)
    }
    inputs = {zone.row.name: zone_inputs(zone) for zone in zones}
    lists = {name: [row.name for row in case.lists[name]] for name in LISTS}
    return sources_table(Sources(inputs, rows | dict.fromkeys(blank, DEFAULT)), lists).csv()
