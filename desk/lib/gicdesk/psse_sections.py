"""Lines of several sections in a power flow: branches one behind another, with buses between them that stand for no station."""

import decimal
from collections.abc import Iterable, Sequence

from .findings import Finding
from .psse_raw import Branch, Bus, Grouping


def branch_between(grouping: Grouping, pair: tuple[int, int], branches: Iterable[Branch]) -> Branch | None:
    """The one branch between two buses that follow each other; None where there is none or several, a finding."""
    found = [branch for branch in branches if set(branch.ends) == set(pair)]
    if len(found) == 1:
        return found[0]
    many = "no branch" if not found else f"{len(found)} branches"
    words = f"there is {many} between the buses {pair[0]} and {pair[1]}, which follow each other in this line"
    grouping.record.wrong(None, f"{words}; a section is one branch")
    return None


def whole_line(grouping: Grouping, branches: Sequence[Branch], buses: dict[int, Bus]) -> Branch | None:
    """The line of a grouping as one branch from its first bus to its last; None where it can't be one, a finding."""
    chain = (grouping.ends[0], *grouping.between, grouping.ends[1])
    unknown = [bus for bus in grouping.between if bus not in buses]
    for bus in unknown:
        grouping.record.wrong(None, f"there is no bus {bus} in {grouping.record.file}; write its record")
    sections = [branch_between(grouping, pair, branches) for pair in zip(chain, chain[1:])]
    known = [section for section in sections if section is not None]
    if unknown or len(known) < len(sections):
        return None
    kilovolts = {buses[bus].kilovolts for bus in chain if bus in buses}
    if len(kilovolts) > 1:
        told = ", ".join(f"{value:f}" for value in sorted(kilovolts))
        grouping.record.wrong(None, f"its buses are of {told} kV; look at BASKV of each")
        return None
    blocked = any(section.reactance < 0 for section in known)
    isolated = any(buses[bus].isolated for bus in grouping.between)
    return Branch(
        grouping.ends,
        grouping.circuit,
        sum((section.resistance for section in known), decimal.Decimal(0)),
        decimal.Decimal(-1 if blocked else 1),
        all(section.in_service for section in known) and not isolated,
        "",
        grouping.record,
        tuple(known),
    )


def whole_lines(
    groupings: Iterable[Grouping],
    branches: Sequence[Branch],
    buses: dict[int, Bus],
    stations: dict[int, int],
    notes: list[Finding],
) -> list[Branch]:
    """The branches, with one in the place of all sections of a line of which a bus between them is in no substation. Where
    all of them are in substations, each section stays a branch, and its span follows their places."""
    wholes: list[Branch] = []
    between_sections: set[int] = set()
    left_out: set[int] = set()  # of lines that are whole
    for grouping in groupings:
        if all(bus in stations for bus in grouping.between):
            continue
        between_sections.update(grouping.between)
        whole = whole_line(grouping, branches, buses)
        if whole is not None:
            wholes.append(whole)
            left_out.update(grouping.between)
            words = f"the line {'-'.join(map(str, grouping.ends))} '{grouping.circuit}' has {len(whole.sections)} sections"
            between = ", ".join(map(str, grouping.between))
            told = f"it is one line, and the buses {between} between them are left out"
            notes.append(grouping.record.finding(f"{words}: {told}"))
    sections = {id(section) for whole in wholes for section in whole.sections}
    for branch in branches:
        is_live = branch.in_service and not any(bus in buses and buses[bus].isolated for bus in branch.ends)
        if is_live and id(branch) not in sections and left_out.intersection(branch.ends):
            branch.record.wrong(None, "it ends at a bus between two sections of a line; give that bus a substation")
    return [*(branch for branch in branches if not between_sections.intersection(branch.ends)), *wholes]
