"""The tables of `gicdesk case`: their columns, their rows by name, and their numbers."""

import dataclasses
import pathlib
from collections.abc import Iterable

from .borders import Borders
from .earths import read_models
from .findings import Finding, Hints, Refused, collected, refuse, shown
from .forms import NAME
from .polygons import read_polygons
from .quantities import Number, bare
from .records import Record, read_table

ZONES, SUBSTATIONS, BUSES, LINES, TRANSFORMERS = "zones", "substations", "buses", "lines", "transformers"
POLYGONS, MODELS = "polygons.csv", "earth_models.csv"
COLUMNS = {
    ZONES: "name geomagnetic_latitude beta".split(),
    SUBSTATIONS: "name latitude longitude ground_ohm".split(),
    BUSES: "name substation kv".split(),
    LINES: "name from to zone ohm north_km east_km capacitor".split(),
    TRANSFORMERS: "name kind high low high_kv low_kv high_ohm low_ohm series_ohm common_ohm neutral".split(),
}
OPTIONAL = {
    ZONES: ["alpha", "earth_model", "note"],
    SUBSTATIONS: ["tolerance", "source", "note"],
    BUSES: ["note"],
    LINES: ["per_unit", "parallel", "source", "note"],
    TRANSFORMERS: ["vector_group", "third", "third_kv", "third_ohm", "parallel", "source", "note"],
}
PARALLEL = [str(number) for number in range(1, 21)]  # how many equal ones a row may stand for
# The kinds of findings that --accept takes away.
KINDS = "alpha latitude beta ground line winding turned neutral volts vector span zone unused".split()


@dataclasses.dataclass
class Questions:
    """Findings that the user may accept by name: KIND takes all of a kind, KIND:ROW that of one row."""

    accepted: tuple[str, ...]
    findings: list[Finding]
    notes: list[Finding]
    taken: set[str] = dataclasses.field(default_factory=set)

    def ask(self, name: str, at: Record, column: str | None, words: str, ways: str) -> None:
        """A finding of this name, as winding:T1; or a note where it is accepted."""
        by = {name, name.partition(":")[0]}.intersection(self.accepted)
        self.taken |= by
        if by:
            self.notes.append(at.finding(f"{words} (accepted)", column))
        else:
            self.findings.append(at.finding(f"{words}; {ways}, or give --accept={name}", column))

    def ask_of_row(self, kind: str, at: Record, column: str | None, words: str, ways: str) -> None:
        """A finding of this kind at a row that has a name."""
        self.ask(f"{kind}:{at.text('name')}", at, column, words, ways)

    def ask_unusual(self, name: str, at: Record, column: str, found: tuple[str, str] | None) -> None:
        """A finding where a resistance is one that few of its kind have."""
        if found is not None:
            words, reading = found
            self.ask(name, at, column, words, f"mend it{reading}")

    def left(self) -> list[str]:
        """What was accepted and isn't there."""
        return [name for name in self.accepted if name not in self.taken]


def check_accepted(names: Iterable[str]) -> None:
    """Refuses names of findings that no finding can have."""
    odd = [name for name in names if name.partition(":")[0] not in KINDS]
    if odd:
        allowed = f"allowed are {', '.join(KINDS)}, or one of them with a colon and the name of a row"
        raise Refused([Finding(f"--accept={bare(name)}", f"no finding has this name; {allowed}") for name in odd])


@dataclasses.dataclass
class Tables:
    """The rows of each table by their names, and the borders of the zones, where there are polygons."""

    rows: dict[str, dict[str, Record]]
    findings: list[Finding]
    borders: Borders | None = None
    models: dict[str, Number] = dataclasses.field(default_factory=dict)  # betas by the names of earth models
    hints: Hints = dataclasses.field(default_factory=Hints)

    def refer(self, at: Record, column: str, table: str) -> Record | None:
        """The row of another table whose name stands in the column; None where there is none, which is a finding."""
        name, rows = at.text(column), self.rows[table]
        if name in rows:
            return rows[name]
        if not name:
            at.wrong(column, f"it is empty; write a name of {table}.csv")
            return None
        ways = self.hints.ways(name, rows, table, "write its row there, or another name")
        at.wrong(column, f"{shown(name)} is not in {table}.csv; {ways}")
        return None


def read_named(file: str, table: str, findings: list[Finding], taken: dict[str, str]) -> dict[str, Record]:
    """The rows of a table by their names, of which each stands once in all tables."""
    rows: dict[str, Record] = {}
    for at in read_table(file, COLUMNS[table], findings, OPTIONAL[table]):
        name = at.text("name")
        if name in taken:
            where = "leave one of the two, or give parallel ones a name each, as X-1 and X-2"
            at.wrong("name", f"{shown(name)} is taken by {taken[name]}; {where}")
            continue
        if not NAME.fullmatch(name):
            at.wrong("name", f"{shown(name)} is no name of a case; allowed are 1 to 32 letters, digits and _ - .")
        taken[name] = f"{table}.csv line {at.line}"
        rows[name] = at
    return rows


def files_of(folder: str) -> list[str]:
    """The names of the tables in a folder."""
    return [str(pathlib.Path(folder, name)) for name in (*(f"{table}.csv" for table in COLUMNS), POLYGONS, MODELS)]


def read_tables(folder: str) -> Tables:
    """The tables of a folder. What can't be read of any of them is refused at once; what is wrong with names is among
    the findings."""
    findings: list[Finding] = []
    if not pathlib.Path(folder).is_dir():
        words = f"there is no such folder; make one with {', '.join(f'{table}.csv' for table in COLUMNS)}"
        raise refuse(folder, words)
    tables = Tables({table: {} for table in COLUMNS}, findings)
    broken = False
    taken: dict[str, str] = {}
    for table in COLUMNS:
        file = str(pathlib.Path(folder, f"{table}.csv"))
        before = len(findings)
        with collected(findings):
            tables.rows[table] = read_named(file, table, findings, taken)
        faults = findings[before:]
        broken = broken or any(fault.column is None for fault in faults)
        if not tables.rows[table] and not faults and table in (ZONES, SUBSTATIONS, BUSES):
            findings.append(Finding(file, "it has no row; write one for each", 1))
    polygons = pathlib.Path(folder, POLYGONS)
    if polygons.exists():
        before = len(findings)
        with collected(findings):
            tables.borders = Borders(read_polygons(str(polygons), set(tables.rows[ZONES]), findings))
        broken = broken or len(findings) > before
    models = pathlib.Path(folder, MODELS)
    if models.exists():
        before = len(findings)
        with collected(findings):
            tables.models = read_models(str(models), findings)
        broken = broken or len(findings) > before
    if broken:
        raise Refused(findings)
    return tables
