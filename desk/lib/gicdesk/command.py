"""The words of `gicdesk`, and what is done with them."""

import argparse
import contextlib
import dataclasses
import os
import pathlib
import sys
from collections.abc import Iterator, Sequence
from typing import Any

from . import case, case_tables, compare, grounds, layouts, local, losses, mitigate, outages, powermodels
from . import powermodels_read, powermodels_reading, psse, psse_shifters, psse_units, reports, reviews, zones
from .findings import Finding, Refused, refuse, visible
from .inputs import Copies, copied
from .outputs import Set, files_set, folder_set, new_folder, study_set
from .psse_factors import read_cores
from .psse_grounds import read_grounds
from .psse_half import HALF
from .program import BUILT, Program, find_program
from .stops import Stopped, signals_taken
from .study import FILES, HEAD, OPTIONS, Request, make_study, study_text
from .study_files import WORKBOOK, files_of, page_of
from .tell import tell
from .workbook import LIBRARIES
from .zone_scales import FORMULA, WAYS

DONE, REFUSED, USAGE, INTERRUPTED = 0, 1, 2, 130


class Words(argparse.ArgumentParser):
    """A parser that takes no option by a part of its name."""

    def __init__(self, **options: Any) -> None:
        super().__init__(allow_abbrev=False, **options)


def unwritten(reason: str | None) -> str:
    return f"it can't be written ({reason}); see where the output goes"


def show(text: str) -> None:
    """Writes a text to the standard output, whole. Names of files that aren't in UTF-8 stand in it as on the error
    stream, with a backslash."""
    if sys.stdout is None:
        raise refuse("the output", unwritten("it is closed"))
    sys.stdout.buffer.write(text.encode(errors="backslashreplace"))
    sys.stdout.buffer.flush()


def add_force(words: argparse.ArgumentParser, help_text: str) -> None:
    words.add_argument("--force", action="store_true", help=help_text)


def add_output(words: argparse.ArgumentParser, help_text: str) -> None:
    words.add_argument("--out", metavar="FILE", help=help_text)
    add_force(words, "replace what is there already under the name of --out")


def add_new_file(words: argparse.ArgumentParser, name: str, help_text: str) -> None:
    """The file of --out, which must be given."""
    words.add_argument("--out", metavar=name, required=True, help=help_text)
    add_force(words, "replace what is there already under this name")


def add_case_file(words: argparse.ArgumentParser) -> None:
    words.add_argument("case", metavar="CASE", help="the file of the case")


def add_program(words: argparse.ArgumentParser) -> None:
    words.add_argument("--program", metavar="FILE", help="the built program, in place of the one of this repository")


def add_event(words: argparse.ArgumentParser) -> None:
    words.add_argument("--event", metavar="WORD", help="benchmark or supplemental, as screen takes it")


def add_width(words: argparse.ArgumentParser) -> None:
    words.add_argument("--width", metavar="NUMBER", help="how wide an interval may be, in mA, as screen takes it")


def add_comma(words: argparse.ArgumentParser) -> None:
    words.add_argument("--comma", action="store_true", help="semicolons between cells, and decimal commas")


def file_name(path: str) -> str:
    return pathlib.PurePath(path).name


def table_set(options: argparse.Namespace, inputs: Sequence[str]) -> contextlib.AbstractContextManager[Set | None]:
    """The file of --out, where there is one."""
    return contextlib.nullcontext() if options.out is None else files_set([options.out], options.force, inputs)


def run_csv(options: argparse.Namespace) -> None:
    with table_set(options, [options.report]) as out:
        mode, report = reports.read_report(options.report)
        text = layouts.table_of(options.report, mode, report, options.part).csv(options.comma)
        if out is not None:
            out.publish({file_name(options.out): text})
    if out is None:
        show(text)


def run_compare(options: argparse.Namespace) -> None:
    names = (options.before, options.after)
    with table_set(options, names) as out:
        read = compare.read_compared(names)
        comparison = compare.compare(read[0][1], read[1][1])
        if out is not None:
            out.publish({file_name(options.out): compare.comparison_table(comparison).csv(options.comma)})
    show(compare.report_text(names, read, comparison))


@contextlib.contextmanager
def program_and_copies(options: argparse.Namespace, roles: Sequence[str]) -> Iterator[tuple[Program, Copies]]:
    """The program, and copies of the files of these options as far as they are given."""
    with copied(given_files(options, roles)) as copies:
        yield find_program(options.program, copies.folder), copies


def given_files(options: argparse.Namespace, roles: Sequence[str]) -> dict[str, str]:
    files = {role: getattr(options, role) for role in roles}
    return {role: name for role, name in files.items() if name is not None}


def read_names(options: argparse.Namespace, roles: Sequence[str]) -> list[str]:
    """The names of all files that are read, the program among them."""
    return [*given_files(options, roles).values(), options.program or str(BUILT)]


def screen_words(options: argparse.Namespace) -> tuple[str, ...]:
    """The options that are handed on to screens."""
    return tuple(f"--{name}={value}" for name in ("event", "width") if (value := getattr(options, name)) is not None)


def out_folder(
    options: argparse.Namespace, names: Sequence[str], roles: Sequence[str]
) -> contextlib.AbstractContextManager[Set | None]:
    """The folder of --out for files of these names, where it is given."""
    if options.out is None:
        return contextlib.nullcontext()
    return folder_set(options.out, names, options.force, read_names(options, roles))


def run_outages(options: argparse.Namespace) -> None:
    roles, names = ("case", "switch", "events"), [outages.UNITS, outages.EVENTS, outages.CURRENTS]
    with out_folder(options, names, roles) as out, program_and_copies(options, roles) as (program, copies):
        asked = outages.Asked(program, copies, options.case, options.switch, screen_words(options))
        found = outages.find_outages(asked, options.events)
        if out is not None:
            out.publish(outages.files_of(found, options.comma))
    show(outages.report_text(asked, found, options.events is not None))


def run_grounds(options: argparse.Namespace) -> None:
    roles, tolerance = ("case", "switch"), grounds.read_tolerance(options.tolerance)
    folder: contextlib.AbstractContextManager[Set | None] = contextlib.nullcontext()
    if options.out is not None:
        folder = new_folder(options.out, read_names(options, roles))
    with folder as out, program_and_copies(options, roles) as (program, copies):
        asked = outages.Asked(program, copies, options.case, options.switch, screen_words(options))
        found = grounds.make_grounds(asked, tolerance)
        if out is not None:
            out.publish(grounds.files_of(found, options.comma))
    show(grounds.report_text(asked, found))


def add_grounds(commands: Any) -> None:
    words = commands.add_parser("grounds", help="what holds whatever the grounds are within a tolerance, and which to measure next")
    add_case_file(words)
    words.add_argument("--tolerance", metavar="PERCENT", required=True, help="how far each ground may be off, from 1 to 90 per cent")
    words.add_argument("--switch", metavar="FILE", help="switchings that are in force in each run")
    add_event(words)
    add_width(words)
    add_program(words)
    words.add_argument("--out", metavar="FOLDER", help="a new folder for tables, and for two cases of each unit that is open")
    add_comma(words)
    words.set_defaults(run=run_grounds)


def run_local(options: argparse.Namespace) -> None:
    roles, depth = ("case", "switch", "places"), local.read_depth(options.storm_depth)
    folder: contextlib.AbstractContextManager[Set | None] = contextlib.nullcontext()
    if options.out is not None:
        folder = new_folder(options.out, read_names(options, roles))
    with folder as out, program_and_copies(options, roles) as (program, copies):
        words = () if options.width is None else (f"--width={options.width}",)
        asked = outages.Asked(program, copies, options.case, options.switch, words)
        found = local.make_local(asked, depth, options.places)
        if out is not None:
            out.publish(local.files_of(found, options.comma))
    show(local.report_text(asked, found))


def add_local(commands: Any) -> None:
    words = commands.add_parser("local", help="strips of zones at the field of the supplemental event: the worst for each unit")
    add_case_file(words)
    words.add_argument("--storm-depth", metavar="KM", required=True, help="how deep a strip is from south to north, in km")
    words.add_argument("--places", metavar="FILE", help="a table with name, latitude and longitude; else the spans say where zones lie")
    words.add_argument("--switch", metavar="FILE", help="switchings that are in force in each run")
    add_width(words)
    add_program(words)
    words.add_argument("--out", metavar="FOLDER", help="a new folder for the tables and the storms")
    add_comma(words)
    words.set_defaults(run=run_local)


def run_mitigate(options: argparse.Namespace) -> None:
    roles, names = ("case", "switch"), [mitigate.RANKING, mitigate.CURRENTS, mitigate.BEST]
    device, paired = mitigate.read_device(options.ohm), mitigate.read_pairs(options.pairs)
    with out_folder(options, names, roles) as out, program_and_copies(options, roles) as (program, copies):
        asked = outages.Asked(program, copies, options.case, options.switch, screen_words(options))
        found = mitigate.make_mitigation(asked, device, paired)
        if out is not None:
            out.publish(mitigate.files_of(found, options.comma))
    show(mitigate.report_text(asked, found))


def add_mitigate(commands: Any) -> None:
    words = commands.add_parser("mitigate", help="a blocking device or a resistor at each neutral in turn: where it helps most")
    add_case_file(words)
    words.add_argument("--ohm", metavar="OHM", help="a resistor of OHM ohm in place of a blocking device")
    pairs = f"two devices at once, in each pair of the NUMBER best neutrals, from 2 to {mitigate.MOST_PAIRED}"
    words.add_argument("--pairs", metavar="NUMBER", help=pairs)
    words.add_argument("--switch", metavar="FILE", help="switchings that are in force in each run")
    add_event(words)
    add_width(words)
    add_program(words)
    words.add_argument("--out", metavar="FOLDER", help="a new folder for the ranking, all currents and the best case")
    add_comma(words)
    add_force(words, "replace these files in a folder that is there already")
    words.set_defaults(run=run_mitigate)


def run_study(options: argparse.Namespace) -> None:
    given: dict[str, Any] = {name: getattr(options, name) for name in OPTIONS}
    given["tolerance"] = None if options.tolerance is None else grounds.read_tolerance(options.tolerance)
    given["head"] = {name: text for name in HEAD if (text := getattr(options, name)) is not None}
    with (
        study_set(options.out, options.force, read_names(options, FILES)) as out,
        program_and_copies(options, FILES) as (program, copies),
    ):
        made = make_study(Request(program, copies, options.case, has_devices=options.mitigate, **given))
        files = files_of(made, options.comma, options.xlsx)
        out.publish(files)
    if options.xlsx and WORKBOOK not in files:
        tell(f"{WORKBOOK} isn't made, since no library that writes it is there ({LIBRARIES}); the tables are CSV alone")
    show(study_text(made, page_of(options.out)))


def run_losses(options: argparse.Namespace) -> None:
    roles = ("case", "storm", "switch", "factors", "names")
    names = losses.file_names(options.storm is not None, options.names is not None)
    given = {name: getattr(options, name) for name in ("storm", "switch", "factors", "width")}
    with (
        folder_set(options.out, names, options.force, read_names(options, roles)) as out,
        program_and_copies(options, roles) as (program, copies),
    ):
        found = losses.make_losses(Request(program, copies, options.case, **given), options.names, options.event)
        out.publish(losses.files_of(found, options.comma))
    show(losses.report_text(found, visible(options.out)))


def add_losses(commands: Any) -> None:
    words = commands.add_parser("losses", help="losses by unit, bus and direction, and as loads for a power flow")
    add_case_file(words)
    words.add_argument("--factors", metavar="FILE", required=True, help="a table transformer,mvar_per_ampere,at_kv")
    words.add_argument("--names", metavar="FILE", help="the table of names that psse has written, for loads of a .raw")
    words.add_argument("--storm", metavar="FILE", help="a storm, for losses by step")
    words.add_argument("--switch", metavar="FILE", help="switchings: by their times in a storm; else in force")
    add_event(words)
    add_width(words)
    add_program(words)
    words.add_argument("--out", metavar="FOLDER", required=True, help="a new folder for the tables")
    add_comma(words)
    add_force(words, "replace these tables in a folder that is there already")
    words.set_defaults(run=run_losses)


def run_powermodels(options: argparse.Namespace) -> None:
    roles = ("case", "names", "places")
    asked = powermodels.Asked(options.north, options.east, options.names, options.places)
    with (
        files_set([options.out], options.force, read_names(options, roles)) as out,
        program_and_copies(options, roles) as (program, copies),
    ):
        data = powermodels.make_data(Request(program, copies, options.case), asked)
        out.publish({file_name(options.out): data.text})
    nodes, branches = len(data.gmd_bus), len(data.gmd_branch)
    show(visible(f"{options.out} is made: {nodes} rows gmd_bus and {branches} gmd_branch") + "\n")


def made_text(notes: Sequence[Finding], out: str, rounding: str) -> str:
    """What is told of a case that is made: the notes, and how far its rounding is off."""
    return "".join(f"{note}\n" for note in (*notes, Finding(out, rounding)))


def run_from_powermodels(options: argparse.Namespace) -> None:
    reading = powermodels_reading.read_reading(options.field, options.resistances, options.grounds)
    with files_set([options.out], options.force, [options.north, options.east]) as out:
        made = powermodels_read.make_case(options.north, options.east, reading)
        out.publish({file_name(options.out): made.case})
    show(made_text(made.notes, options.out, made.rounding) + visible(f"{options.out} is made") + "\n")


def add_from_powermodels(commands: Any) -> None:
    words = commands.add_parser("from-powermodels", help="a case from GMD data of PowerModels, as JSON, in two fields")
    words.add_argument("north", metavar="NORTH.json", help="the data with voltages in 1 V/km to the north")
    words.add_argument("east", metavar="EAST.json", help="the data with voltages in 1 V/km to the east")
    field = "the field of both files in V/km; without it what the files say that powermodels has written, and else 1"
    words.add_argument("--field", metavar="NUMBER", help=field)
    phases = (powermodels_reading.TOGETHER, powermodels_reading.PHASE)
    words.add_argument("--resistances", choices=phases, default=phases[0], help="of which br_r is: the three phases together, or one")
    units = (powermodels_reading.SIEMENS, powermodels_reading.OHM)
    words.add_argument("--grounds", choices=units, default=units[0], help="the unit of g_gnd")
    add_new_file(words, "CASE", "a new file for the case")
    words.set_defaults(run=run_from_powermodels)


def add_powermodels(commands: Any) -> None:
    words = commands.add_parser("powermodels", help="a case as GMD data of PowerModels, as JSON, in one field")
    add_case_file(words)
    words.add_argument("--north", metavar="NUMBER", type=int, default=1000, help="the field to the north in mV/km; it is 1000")
    words.add_argument("--east", metavar="NUMBER", type=int, default=0, help="the field to the east in mV/km; it is 0")
    words.add_argument("--names", metavar="FILE", help="the table of names that psse has written, for numbers of buses")
    words.add_argument("--places", metavar="FILE", help="a table with name, latitude and longitude, for bus_gmd")
    add_program(words)
    add_new_file(words, "FILE", "a new file for the data")
    words.set_defaults(run=run_powermodels)


def run_review(options: argparse.Namespace) -> None:
    with program_and_copies(options, ("case", "places")) as (program, copies):
        reviewed = reviews.make_review(Request(program, copies, options.case, places=options.places))
    show(reviews.review_text(reviewed))


def add_review(commands: Any) -> None:
    words = commands.add_parser("review", help="what of a case is unusual, as questions; with places no loop that they explain")
    add_case_file(words)
    words.add_argument("--places", metavar="FILE", help="a table with name, latitude and longitude, which spans are compared with")
    add_program(words)
    words.set_defaults(run=run_review)


def add_study(commands: Any) -> None:
    words = commands.add_parser("study", help="the whole study of a case: every report, each as a table, and one page")
    add_case_file(words)
    words.add_argument("--storm", metavar="FILE", help="a storm, for study and for the series of units")
    words.add_argument("--switch", metavar="FILE", help="switchings: by their times in a storm; else in all reports")
    words.add_argument("--waveform", metavar="FILE", help="a waveform time,north,east, for GIC(t) of units that are assessed")
    words.add_argument("--factors", metavar="FILE", help="a table transformer,mvar_per_ampere,at_kv, for losses")
    words.add_argument("--events", metavar="FILE", help="a table event,item,action of outages of several items")
    words.add_argument("--places", metavar="FILE", help="a table with name, latitude and longitude, for the map")
    words.add_argument("--sources", metavar="FILE", help="the table of sources that case or psse has written beside the case")
    words.add_argument("--tolerance", metavar="PERCENT", help="how far each ground may be off, for what holds whatever they are")
    words.add_argument("--mitigate", action="store_true", help="a blocking device in each neutral in turn")
    for name in HEAD:
        told = f"the {name.replace('data_date', 'date of the data')} at the head of the page; a line to write on without it"
        words.add_argument(f"--{name.replace('_', '-')}", metavar="TEXT", help=told)
    add_width(words)
    add_program(words)
    words.add_argument("--out", metavar="FOLDER", required=True, help="a new folder for all of it")
    words.add_argument("--xlsx", action="store_true", help="the tables as one workbook too, where a library is there that writes it")
    add_comma(words)
    add_force(words, "replace an earlier study in that folder")
    words.set_defaults(run=run_study)


def run_psse(options: argparse.Namespace) -> None:
    stem = os.path.splitext(options.out)[0]
    names, factors = f"{stem}.names.csv", f"{stem}.factors.csv"
    sources = sources_file(options.out)
    written = [options.out, names, *([factors] if options.factors else []), *([sources] if options.sources else [])]
    tables = zones.ZoneFiles(options.zones, options.substations, options.polygons, options.lines, options.earth_models)
    beside = (*dataclasses.astuple(tables), options.core_factors)
    read = [options.raw, options.gic, *(name for name in beside if name is not None)]
    grounds = read_grounds(options.blank_ground, options.ungrounded)
    findings: list[Finding] = []
    cores = read_cores(options.core_factors, findings)
    if findings:
        raise Refused(findings)
    taken = (options.beyond, options.vector, options.alpha, options.windings, grounds, options.factors, options.phase_shifter)
    choices = psse.Choices(*taken, cores)
    with files_set(written, options.force, read) as out:
        made = psse.make_case(options.raw, options.gic, tables, choices)
        texts = {options.out: made.case, names: made.names, factors: made.factors, sources: made.sources}
        out.publish({file_name(name): texts[name] for name in written})
    told = made_text(made.notes, options.out, made.rounding)
    show(told + visible(f"{options.out} is made, and {names} says what its names stand for") + "\n")


def sources_file(case_file: str) -> str:
    """The name of the table of sources beside a case."""
    return f"{os.path.splitext(case_file)[0]}.sources.csv"


def add_sources(words: argparse.ArgumentParser) -> None:
    told = "a table beside the case, for study: latitude, alpha, beta and earth model of zones, and sources of resistances"
    words.add_argument("--sources", action="store_true", help=told)


def run_case(options: argparse.Namespace) -> None:
    written = [options.out, *([sources_file(options.out)] if options.sources else [])]
    with files_set(written, options.force, case_tables.files_of(options.tables)) as out:
        made = case.make_case(options.tables, case.Choices(options.alpha, tuple(options.accept)))
        texts = {options.out: made.case, sources_file(options.out): made.sources}
        out.publish({file_name(name): texts[name] for name in written})
    show(made_text(made.notes, options.out, made.rounding) + visible(f"{options.out} is made") + "\n")


def add_case(commands: Any) -> None:
    words = commands.add_parser("case", help="a case from tables of ohm, kilovolts, kilometres and degrees")
    words.add_argument("tables", metavar="TABLES", help="a folder with zones, substations, buses, lines, transformers")
    words.add_argument("--alpha", metavar="WAY", default=FORMULA, help=WAYS)
    words.add_argument(
        "--accept",
        metavar="NAME",
        action="append",
        default=[],
        help=f"take all findings of a kind as they are: {', '.join(case_tables.KINDS)}; or that of one row, as winding:T1",
    )
    add_sources(words)
    add_new_file(words, "CASE", "a new file for the case")
    words.set_defaults(run=run_case)


def command_words() -> argparse.ArgumentParser:
    told = (
        "What a planner does before and after gicstudy: data in from the files .raw and .gic of a power-flow program, from tables "
        "of Excel as CSV or from PowerModels; answers out as a page, as tables and as loads. See desk/README.md."
    )
    words = Words(prog="gicdesk", description=told)
    commands = words.add_subparsers(dest="command", required=True, metavar="COMMAND", parser_class=Words)

    one = commands.add_parser("csv", help="any report as CSV, in amperes and volts")
    one.add_argument("report", metavar="REPORT", help="the file of a report; - is the standard input")
    one.add_argument("--part", help="the rows of one kind alone, as node or peaks")
    add_comma(one)
    add_output(one, "a new file for the table, in place of the standard output")
    one.set_defaults(run=run_csv)

    two = commands.add_parser("compare", help="two reports of screen or outage beside each other")
    two.add_argument("before", metavar="BEFORE", help="the file of the first report")
    two.add_argument("after", metavar="AFTER", help="the file of the second report")
    add_comma(two)
    add_output(two, "a new file for all of it as CSV")
    two.set_defaults(run=run_compare)

    three = commands.add_parser("outages", help="outages of several items, or of each one: the worst of each unit")
    add_case_file(three)
    three.add_argument("--events", metavar="FILE", help="a table event,item,action; without it each single item is out")
    three.add_argument("--switch", metavar="FILE", help="switchings that are in force whatever the event")
    add_event(three)
    add_width(three)
    add_program(three)
    three.add_argument("--out", metavar="FOLDER", help="a new folder for the tables units, events and currents")
    add_comma(three)
    add_force(three, "replace these tables in a folder that is there already")
    three.set_defaults(run=run_outages)

    add_mitigate(commands)
    add_grounds(commands)
    add_local(commands)
    add_review(commands)
    add_study(commands)
    add_losses(commands)
    add_powermodels(commands)
    add_from_powermodels(commands)

    four = commands.add_parser("psse", help="a case from the files .raw and .gic of a power-flow program")
    four.add_argument("raw", metavar="NET.raw", help="the power flow: buses, branches, transformers, fixed shunts")
    four.add_argument("gic", metavar="NET.gic", help="places, grounds, resistances of windings")
    four.add_argument("--zones", metavar="FILE", required=True, help="a table name,geomagnetic_latitude,beta")
    four.add_argument("--substations", metavar="FILE", help="a table substation,zone, with more zones than one")
    four.add_argument("--polygons", metavar="FILE", help="a table zone,latitude,longitude of corners, in its place")
    four.add_argument("--lines", metavar="FILE", help="a table bus_i,bus_j,circuit,zone,north_km,east_km")
    four.add_argument("--earth-models", metavar="FILE", help="a table name,beta, for zones with a column earth_model")
    told = "whether third windings and reactors are left out or written"
    four.add_argument("--alpha", metavar="WAY", default=FORMULA, help=WAYS)
    four.add_argument("--beyond", choices=psse_units.CHOICES, help=told)
    four.add_argument("--factors", action="store_true", help="a table of factors for losses beside the case")
    cores = "a table core,mvar_per_ampere,at_kv, in the place of the published factors of cores and beside them"
    four.add_argument("--core-factors", metavar="FILE", help=cores)
    add_sources(four)
    taken = "half: a winding of 0 ohm has half of R1-2 of the power flow"
    four.add_argument("--windings", choices=(HALF,), help=taken)
    shifter = "a unit between two buses of one voltage: line, a resistance in series, or windings, by its vector group"
    four.add_argument("--phase-shifter", choices=psse_shifters.CHOICES, help=shifter)
    four.add_argument("--blank-ground", metavar="OHM", help="the ground of a substation whose RG is empty")
    none = "an RG that means no ground, as 0 or 99; may be given several times"
    four.add_argument("--ungrounded", metavar="RG", action="append", default=[], help=none)
    four.add_argument("--vector", choices=("volts", "buses"), help="in which order the letters of vector groups stand")
    four.add_argument("--out", metavar="CASE", required=True, help="a new file for the case, with its names beside")
    add_force(four, "replace what is there already under these names")
    four.set_defaults(run=run_psse)

    add_case(commands)
    for name, command in commands.choices.items():
        others = ", ".join(other for other in commands.choices if other != name)
        command.epilog = f"The other commands: {others}. desk/README.md says what each does."
    return words


def main(arguments: Sequence[str]) -> int:
    """Runs the command of the words; what it refuses is told on the error stream, a line for each finding."""
    try:
        with signals_taken():
            return run(arguments)
    except (Stopped, KeyboardInterrupt) as stopped:
        tell("stopped")
        return stopped.status if isinstance(stopped, Stopped) else INTERRUPTED


def run(arguments: Sequence[str]) -> int:
    try:
        options = command_words().parse_args(arguments)
        options.run(options)
        return DONE
    except Refused as refused:
        for line in refused.lines():
            tell(line)
        return REFUSED
    except BrokenPipeError:
        # Nobody reads any more. The system's own message at the end is kept away as well.
        if sys.stdout is not None:
            os.dup2(os.open(os.devnull, os.O_WRONLY), sys.stdout.fileno())
        return REFUSED
    except OSError as error:
        tell(f"{error.filename}: {error.strerror}" if error.filename else f"the output: {unwritten(error.strerror)}")
        return REFUSED
    except MemoryError:
        tell("there is too little memory; give it more, or leave out what isn't needed")
        return REFUSED
