"""Factors for losses from a file `.gic`: KFACTOR of a unit, or else what is published for its core, or what the user hands in."""

import dataclasses
from collections.abc import Mapping, Sequence

from .counts import plural
from .factors import HEADS, MOST, USUAL_KV
from .findings import Finding, refuse
from .psse_gic import Windings
from .quantities import Number
from .records import Record, read_table
from .tables import Table

CORE_HEADS = ("core", "mvar_per_ampere", "at_kv")
# What CORE stands for, as far as we know of it.
MEANINGS = {
    -1: "three phases in shell form",
    0: "an unknown core",
    1: "three single-phase units",
    3: "three limbs",
    5: "five limbs",
    7: "seven limbs",
}
# Published factors in Mvar an ampere for units of 500 kV, by CORE; of seven limbs that of five is taken.
CORES = {-1: "0.33", 1: "1.18", 3: "0.29", 5: "0.66", 7: "0.66"}
SHOWN = 6  # names of units in a line


@dataclasses.dataclass(frozen=True)
class CoreFactor:
    """The factor of a core, the kilovolts for which it is, and where it is from."""

    mvar_per_ampere: str
    at_kv: str
    origin: str


Cores = Mapping[int, CoreFactor]


@dataclasses.dataclass(frozen=True)
class Row:
    """A unit of the case with its factor, and the kilovolts for which that is."""

    name: str
    mvar_per_ampere: str
    at_kv: str
    origin: str
    core: int | None = None  # by which it has its factor


def meaning(core: int) -> str:
    return MEANINGS.get(core, "a core that the desk doesn't know")


def published() -> dict[int, CoreFactor]:
    return {
        core: CoreFactor(factor, str(USUAL_KV), f"published for {'five limbs' if core == 7 else meaning(core)} of {USUAL_KV} kV")
        for core, factor in CORES.items()
    }


def core_of_row(at: Record) -> CoreFactor:
    """A factor that the user hands in; without a voltage it is for units of 500 kV, as in a table of factors."""
    factor, kilovolts = at.number("mvar_per_ampere"), at.number("at_kv", str(USUAL_KV))
    if not 0 < factor <= MOST:
        at.wrong("mvar_per_ampere", f"it is {at.text('mvar_per_ampere')}, and not above 0 and up to {MOST}; write Mvar an ampere")
    if not 1 <= kilovolts <= 2000:
        at.wrong("at_kv", f"it is {at.text('at_kv')}, and not 1 to 2000; write kilovolts")
    return CoreFactor(f"{factor:f}", f"{kilovolts:f}", "by --core-factors")


def read_cores(file: str | None, findings: list[Finding]) -> dict[int, CoreFactor]:
    """The published factors, with those of the user's table in their places and beside them."""
    cores = published()
    given: dict[int, Record] = {}
    for at in [] if file is None else read_table(file, CORE_HEADS, findings):
        core = at.whole("core")
        if core in given:
            at.wrong("core", f"{core} stands in line {given[core].line} already; leave one of the two")
        given[core] = at
        cores[core] = core_of_row(at)
    return cores


def factor_of(name: str, high_volts: int, data: Windings, cores: Cores) -> Row | None:
    """The row of a unit; None where neither KFACTOR nor CORE says anything."""
    if data.factor > 0:
        kilovolts = (Number(high_volts) / 1000).normalize()
        return Row(name, f"{data.factor:f}", f"{kilovolts:f}", "KFACTOR of the .gic, taken for the unit's own voltage")
    if data.core in cores:
        found = cores[data.core]
        return Row(name, found.mvar_per_ampere, found.at_kv, f"CORE {data.core}: {found.origin}", data.core)
    return None


def factors_table(rows: Sequence[Row]) -> Table:
    """A table of factors, as `study` takes it."""
    return Table((*HEADS, "note"), [(row.name, row.mvar_per_ampere, row.at_kv, row.origin) for row in rows])


def names_of(names: Sequence[str]) -> str:
    more = f" and {len(names) - SHOWN} more" if len(names) > SHOWN else ""
    return ", ".join(names[:SHOWN]) + more


@dataclasses.dataclass
class Factors:
    """The factors of a case in the making, and the units that have none, by their cores."""

    cores: Cores = dataclasses.field(default_factory=published)
    rows: list[Row] = dataclasses.field(default_factory=list)
    without: dict[int, list[str]] = dataclasses.field(default_factory=dict)
    units: int = 0  # with a winding in the network

    def add(self, name: str, high_volts: int, data: Windings) -> None:
        self.units += 1
        row = factor_of(name, high_volts, data, self.cores)
        if row is None:
            self.without.setdefault(data.core, []).append(name)
        else:
            self.rows.append(row)

    def taken(self) -> list[str]:
        """What each CORE is taken as, with the factor that its units have by it, or that they have none."""
        by_core: dict[int, list[str]] = {}
        for row in self.rows:
            if row.core is not None:
                by_core.setdefault(row.core, []).append(row.name)
        lines = []
        for core, names in sorted(by_core.items()):
            found = self.cores[core]
            factor = f"{found.mvar_per_ampere} Mvar an ampere at {found.at_kv} kV, {found.origin}"
            lines.append(f"CORE {core} is taken as {meaning(core)}: {factor}, in {plural(len(names), 'unit')}: {names_of(names)}")
        for core, names in sorted(self.without.items()):
            many = f"{plural(len(names), 'unit')} {'has' if len(names) == 1 else 'have'} no factor: {names_of(names)}"
            lines.append(f"CORE {core} is taken as {meaning(core)}, and {many}; a table of --core-factors gives one")
        return lines

    def text(self, file: str, is_asked: bool, notes: list[Finding]) -> str:
        """The table where it is asked for, with what was taken; and where it isn't, it is told that there is one."""
        if is_asked and not self.rows:
            cores = ", ".join(map(str, sorted(self.cores)))
            raise refuse(file, f"no unit has a KFACTOR above 0 or a CORE of {cores}; leave out --factors, or give --core-factors")
        if self.rows:
            words = f"{len(self.rows)} of {self.units} units have a KFACTOR, or a CORE with a factor"
            way = "they stand in the table of factors" if is_asked else "--factors writes a table of them for the losses of study"
            notes.append(Finding(file, f"{words}: {way}"))
        if is_asked:
            notes += [Finding(file, words) for words in self.taken()]
        return factors_table(self.rows).csv() if is_asked else ""
