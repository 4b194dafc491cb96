"""The files of a study's folder: the page, its numbers as tables, each report as it came and as a table, and what was
run."""

import hashlib
import os
import shlex
from collections.abc import Iterable, Iterator, Mapping, Sequence

from . import earlier, gict, grounds, mitigate, outages
from .compare import ends_or_nothing
from .decimals import MILLI, shifted
from .files import bytes_of
from .findings import visible
from .forms import Interval
from .layouts import table_of
from .outages import Worst
from .study import EVENT, Study, UnitFacts
from .study_gict import picture_file
from .study_inputs import Rest, rests_in
from .study_margin import margin
from .study_page import page
from .tables import Table
from .workbook import workbook

PAGE, COMMANDS, WORKBOOK = "study.html", "commands.txt", "tables.xlsx"
UNITS, LOSSES = "units", "losses"  # tables
MORE_HEADS = ["winding_low_A", "winding_high_A", "open_questions"]
NONE_OF_REACTORS = ("bearing_degrees", "worst_outage", "worst_outage_perhaps_as_bad", "worst_event", "worst_event_perhaps_as_bad")


def interval_heads(name: str) -> list[str]:
    return [f"{name}_low_A_per_phase", f"{name}_high_A_per_phase"]


def worst_cells(worst: Worst | None) -> list[str]:
    if worst is None:
        return ["", "", "", "", ""]
    return [worst.event, *ends_or_nothing(worst.unit.worst), worst.unit.verdict, worst.perhaps_text]


def page_of(folder: str) -> str:
    """The name of the page in a folder."""
    return os.path.join(folder, PAGE)


def more_cells(study: Study, name: str) -> list[str]:
    """The greatest current of the winding of a reactor, and the numbers of the open questions that can change a unit."""
    return [*ends_or_nothing(study.reactors.worst.get(name)), " ".join(map(str, study.marks.get(name, [])))]


def without_currents(heads: Sequence[str], cells: list[str]) -> list[str]:
    """The cells of a reactor, which has no current of a unit."""
    return ["" if head.endswith("_A_per_phase") or head in NONE_OF_REACTORS else cell for head, cell in zip(heads, cells)]


def rest_cells(rest: Rest | None) -> list[str]:
    """What the verdict of a unit rests on."""
    if rest is None:
        return [""] * 4
    return [rest.windings, rest.ground, *(f"{assumed} of {every}" for assumed, every in (rest.lines, rest.grounds))]


def within_cells(study: Study, unit: UnitFacts) -> list[str]:
    """What holds of a unit whatever the grounds are within the tolerance."""
    found = None if study.within is None else study.within.found
    if found is None:
        return [""] * 4
    holds = {row.name: row for row in found.robust.rows}[unit.name]
    first = {one.name: one.first for one in found.units}.get(unit.name, "")
    return [*ends_or_nothing(holds.worst), holds.verdict, first]


def unit_cells(study: Study, unit: UnitFacts, rest: Rest | None) -> list[str]:
    network = study.network
    row = unit.benchmark
    peak: Interval | None = None if unit.peak is None else unit.peak.value
    return [
        unit.name,
        "" if network is None else network.station_of.get(unit.name, ""),
        "" if network is None else shifted(network.volts[unit.name], MILLI),
        *ends_or_nothing(row.north),
        *ends_or_nothing(row.east),
        *ends_or_nothing(row.worst),
        "" if unit.bearing is None else str(unit.bearing),
        row.verdict,
        *ends_or_nothing(unit.supplemental.worst),
        unit.supplemental.verdict,
        *ends_or_nothing(unit.outage.value),
        unit.outage.verdict,
        *worst_cells(unit.worst_outage),
        *worst_cells(unit.worst_event),
        *ends_or_nothing(peak),
        "" if unit.peak is None else unit.peak.verdict,
        *(("", "") if unit.seconds is None else (str(unit.seconds.certain), str(unit.seconds.possible))),
        unit.assessed,
        "yes" if unit.is_applicable else "no",
        shifted(margin(study, row), MILLI) if unit.is_applicable else "",
        *within_cells(study, unit),
        *rest_cells(rest),
    ]


def units_table(study: Study) -> Table:
    """Each transformer with all that the page says of it, in the order of the page."""
    heads = [
        "transformer",
        "station",
        "high_kV",
        *interval_heads("north"),
        *interval_heads("east"),
        *interval_heads("worst"),
        "bearing_degrees",
        "verdict",
        *interval_heads("supplemental"),
        "supplemental_verdict",
        *interval_heads("outage"),
        "outage_verdict",
    ]
    for name in ("worst_outage", "worst_event"):
        heads += [name, *interval_heads(name), f"{name}_verdict", f"{name}_perhaps_as_bad"]
    heads += [*interval_heads("storm"), "storm_verdict", "certain_seconds", "possible_seconds", "must_be_assessed"]
    heads += ["applicable", "margin_A_per_phase", *interval_heads("any_grounds"), "any_grounds_verdict", "moved_most_by"]
    heads += ["source_of_windings", "source_of_ground", "assumed_lines", "assumed_grounds_beyond", *MORE_HEADS]
    rests = rests_in(study)
    rows = [[*unit_cells(study, unit, rests.get(unit.name)), *more_cells(study, unit.name)] for unit in study.units]
    are_reactors = [unit.name in study.reactors for unit in study.units]
    return Table(heads, [without_currents(heads, row) if is_one else row for row, is_one in zip(rows, are_reactors)])


def losses_table(study: Study) -> Table:
    """The losses at the bearing at which the units draw most together, by both ends of the currents."""
    heads = ["transformer", "mvar_per_ampere", "at_kV", "high_kV", *interval_heads("current"), "low_Mvar", "high_Mvar"]
    rows = []
    if study.losses is not None:
        found = {unit.name: unit.value for unit in study.losses.field.units}
        for name, factor in study.losses.factors.items():
            value = found[name] or Interval(0, 0)
            kilovolts = [f"{factor.at_kv:f}", shifted(factor.volts, MILLI)]
            mvar = [f"{end:f}" for end in factor.mvar_within(value)]
            rows.append([name, f"{factor.given:f}", *kilovolts, *ends_or_nothing(value), *mvar])
    return Table(heads, rows)


def commands_text(study: Study) -> str:
    """Each run: its status, the name of its report, and its words as a shell takes them."""
    lines = []
    for kept in study.kept:
        told = f"  # {visible(kept.run.line)}" if kept.run.line else ""
        lines.append(f"{kept.run.status} {kept.name} {words_text(kept.words)}{told}")
    for _, found in study.all_gict:
        lines += [f"0 {one.subject.report(kind)} {words_text(curve.words)}" for one in found for kind, curve in one.curves.items()]
    heads = "# status, report, words; files in reports/ and gict/ lie in this folder, and others are named as they were given"
    return "\n".join([heads, *lines]) + "\n"


def words_text(words: Iterable[str]) -> str:
    return " ".join(map(shell_word, ("gicstudy", *words)))


def shell_word(word: str) -> str:
    """A word as a shell takes it, on one line: one with letters that have no shape stands in `$'..'`, these as numbers."""
    if word.isprintable():
        return shlex.quote(word)
    letters = [f"\\{letter}" if letter in "'\\" else letter for letter in word]
    numbers = ["".join(f"\\{byte:03o}" for byte in os.fsencode(letter)) for letter in word]
    return "$'" + "".join(one if one.isprintable() else other for one, other in zip(letters, numbers)) + "'"


def tables_of(study: Study) -> dict[str, Table]:
    """The tables by the names of their files, without the ending."""
    tables = {UNITS: units_table(study)}
    if study.losses is not None:
        tables[LOSSES] = losses_table(study)
    for screen, found in study.all_gict:
        tables[f"{found[0].subject.folder}/{gict.SUMMARY}"] = gict.summary_table(found, screen.threshold)
    for kept in study.kept:
        if kept.report is not None:
            tables[f"tables/{kept.name}"] = table_of(kept.name, kept.mode, kept.report)
    if study.events is not None:
        tables["tables/events"] = outages.events_table(study.events)
    return tables


def sheets_of(study: Study, tables: Mapping[str, Table]) -> dict[str, Table]:
    """The tables of the workbook by the names of their sheets: all but the series and the screens of events, which may be
    many."""
    many = {f"tables/{kept.name}" for kept in study.kept if kept.mode == "series" or kept.name.startswith(EVENT)}
    return {name.removeprefix("tables/").replace("/", " "): table for name, table in tables.items() if name not in many}


def files_of(study: Study, comma: bool, has_workbook: bool = False) -> dict[str, str | bytes]:
    """The files by their names in the folder; the workbook is one where it is asked for and a library is there."""
    files: dict[str, str | bytes] = {PAGE: page(study), COMMANDS: commands_text(study)}
    tables = tables_of(study)
    files |= {f"{name}.csv": table.csv(comma) for name, table in tables.items()}
    book = workbook(sheets_of(study, tables)) if has_workbook else None
    if book is not None:
        files[WORKBOOK] = book
    for kept in study.kept:
        if kept.report is not None:
            files[f"reports/{kept.name}.txt"] = kept.run.report
    if study.events is not None:
        base = study.request.asked.base
        for number, result in enumerate(study.events.results, 1):
            files[f"reports/{EVENT}{number}.csv"] = base.with_event(result.event)
    files |= gict_files(study, comma)
    if study.within is not None and study.within.found is not None:
        files |= {f"grounds/{name}": text for name, text in grounds.files_of(study.within.found, comma).items()}
    if study.devices is not None and study.devices.found is not None:
        files |= {f"mitigate/{name}": text for name, text in mitigate.files_of(study.devices.found, comma).items()}
    sums = checksums_text(files)
    return files | {earlier.SUMS: sums, earlier.MARKER: earlier.marker_text(sums.encode())}


def gict_files(study: Study, comma: bool) -> Iterator[tuple[str, str | bytes]]:
    """Of GIC(t) the field as it was given, and of each unit a table, a picture, the reports as they came, and what its runs had read."""
    for screen, found in study.all_gict:
        yield found[0].subject.given_field, found[0].given.field.text
        for one in found:
            subject = one.subject
            yield subject.file("table", "csv"), gict.gict_table(one).csv(comma)
            yield subject.file("picture", "svg"), picture_file(one, screen.threshold)
            yield subject.file("turned_field", "csv"), one.turned.field.text
            if one.switchings is not None:
                yield subject.file("switch", "csv"), one.switchings
            for kind, curve in one.curves.items():
                yield subject.file(kind, "txt"), curve.report


def checksums_text(files: Mapping[str, str | bytes]) -> str:
    """The sha256 of each file, as `sha256sum --check` reads it."""
    return "".join(f"{hashlib.sha256(bytes_of(text)).hexdigest()}  {name}\n" for name, text in sorted(files.items()))
