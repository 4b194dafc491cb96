"""The sections that headings of a power-flow file name, in the words of several programs and versions.

A heading is a line as `0 / END OF BUS DATA, BEGIN LOAD DATA`. One that names no section that is known is taken as the one that
follows by the order of the file, where no other heading of the file names that: then it is told.
"""

import re
from collections.abc import Container, Mapping, Sequence

BEGIN = re.compile(r"\bBEGIN(?:NING)?\s+(?:OF\s+)?(.*)", re.IGNORECASE)
ENDING = re.compile(r"\s+(DATA|SECTION|RECORDS?|BLOCK)\b.*", re.IGNORECASE)
# Words of headings that are called otherwise here, each behind the ones before.
WORDS = (
    (r"[-_\s]+", " "),
    (r"^(THE|AC|NETWORK) ", ""),
    (r"\bBUSES\b", "BUS"),
    (r"\bBRANCHES\b", "BRANCH"),
    (r"\bSUB ?STATIONS?\b", "SUBSTATION"),
    (r"\b(LOAD|SHUNT|GENERATOR|LINE|TRANSFORMER|DEVICE|AREA|ZONE|OWNER|NODE|GROUPING)S\b", r"\1"),
    (r"\bXFMR\b", "TRANSFORMER"),
    (r"^(2|TWO) WINDING TRANSFORMER$|^TRANSFORMER (BRANCH|WINDING)$|^POWER TRANSFORMER$", "TRANSFORMER"),
    (r"^(NON ?TRANSFORMER|TRANSMISSION) (BRANCH|LINE)$|^LINE$", "BRANCH"),
    (r"^(SYSTEM )?SWITCHING DEVICE$|^SWITCH(ING)?$|^BREAKER$", "SYSTEM SWITCHING DEVICE"),
    (r"^(FIXED )?BUS( FIXED)? SHUNT$|^FIXED SHUNT( ADMITTANCE)?$", "FIXED SHUNT"),
    (r"^SYSTEM ?WIDE$", "SYSTEM-WIDE"),
    (r"^MULTI ?SECTION LINE( GROUPING)?$", "MULTI-SECTION LINE"),
    (r"^SUBSTATION (NODE|BUS SECTION)$", "SUBSTATION NODE"),
    (r"^INTER ?AREA TRANSFER$", "INTER-AREA TRANSFER"),
    (r"^(TRANSFORMER )?IMPEDANCE CORRECTION( TABLE)?$", "IMPEDANCE CORRECTION"),
)


def begun(line: str) -> str | None:
    """What a heading says that begins, in capitals; None where it says nothing."""
    found = BEGIN.search(line)
    if found is None:
        return None
    name = ENDING.sub("", " " + found[1].strip()).strip(" \t.,;:*-")
    return re.sub(r"\s+", " ", name).upper() or None


def usual(name: str) -> str:
    """The name in the words that are used here."""
    for pattern, word in WORDS:
        name = re.sub(pattern, word, name)
    return name.strip()


def section_of(name: str, known: Container[str], others: Mapping[str, str]) -> str:
    """The section that a heading names: as it stands, by another name, or in other words; else the name as it stands."""
    for one in (name, usual(name)):
        found = others.get(one, one)
        if found in known:
            return found
    return others.get(name, name)


def headings(lines: Sequence[str], known: Container[str], others: Mapping[str, str]) -> set[str]:
    """The sections that any heading of a file names."""
    names = (begun(line) for line in lines if line.lstrip().startswith("0"))
    return {section_of(name, known, others) for name in names if name is not None}
