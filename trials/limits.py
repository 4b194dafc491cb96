#!/usr/bin/env python3
"""Runs each mode at the limits of its inputs and at half of them, and prints a table of time and memory.

    python3 trials/limits.py PROGRAM [--minutes M] [--seed S] [--jobs N] [--only WORD] [--run-seconds N]
        [--limit-steps N]

The rows: the network at every limit (7680 nodes, 19968 elements, 256 zones) in every mode, with names as they come and
of 32 bytes in every place (`outage` and `robust` over a quarter of it, since they solve a network once for each of its
items or transformers);
storms of 20000 steps and 4096 switchings with an epoch each, and over the network at every limit storms of as many
steps as --limit-steps says (1000), and as many epochs that change nothing; there too a storm of 4096 steps with an epoch
each, that change nothing or each an earthing, beside the same storm without switchings; networks just within 4096 and
just past it; files of 16777216 bytes of each kind and of one byte more; files of that size that are hostile; and the
network at every limit of format 3 in every mode, with cases at each of these limits and one beyond it.

Times are of the processor, in seconds; memory is the peak, in MiB. Beside each is the same at half the size, and what
the one is of the other: where the work grows with the size it is 2, and more only where the row says so. In rows that are
set beside the same storm without switchings this has the place of half the size, and a ratio above the one that the row
names is a fault. A run has N seconds of the processor (300), and a storm that another is set beside three times as many;
one that takes longer has `over`. Rows for which no minutes are left are `not run`. One run is made at a time, whatever N
is. With --only the rows whose name has WORD are run alone.
"""

from __future__ import annotations

import os
import re
import signal
import subprocess
from collections.abc import Callable, Iterator, Sequence
from typing import NamedTuple, Optional

import shared  # which finds the modules below

import paths
from generators import limit_case, made_case, storms
from generators.case_text import Row as CaseRow
from generators.case_text import case_text
from referee.case import LIMITS, LIMITS_3, MOST_ENDS, OHM, PARTS
from referee.outcome import MOST_BYTES
from referee.storm import MOST_STORM_ROWS, MOST_SWITCHINGS
from referee.words import MODES

STATIONS = LIMITS["substation"]
# The modes that solve the network once for each of its items, or of its transformers.
BY_ITEM = ("outage", "robust")
MADE_SITES = 1000
# Over the network at every limit each step takes so long that all steps would take a quarter of an hour.
SOME_STEPS = 1000
# How many times as long as without switchings a storm may take with a row at each step: of rows that change nothing, and of
# rows each of which opens or closes an earthing, so that each step has a network of its own.
MOST_IDLE, MOST_CHANGING = 2, 12
# How many times as long as another run a storm that one is set beside may take.
LONGER = 3
NAME = re.compile(r'"((?:zone|station|bus|line|unit)-[0-9-]+)"')
NAME_BYTES = 32
LINE, UNIT, STATION = "line-1", "unit-1", "station-1"
STATIONS_3, LINE_3, UNIT_3 = LIMITS_3["substation"], "l1", "u1"
# The limits of format 3, each by the list that it limits.
EDGES = {
    "zones": LIMITS_3["zone"],
    "substations": LIMITS_3["substation"],
    "buses": LIMITS_3["bus"],
    "lines": LIMITS_3["line"],
    "transformers": LIMITS_3["transformer"],
    "parts of a line": PARTS.most,
    "elements at a bus": MOST_ENDS,
}
SOME_BUSES = 300
ADDRESS_SPACE = 6 << 30
# How long is waited for a run, in its seconds of the processor, and what ends it where these are over. One that hasn't ended
# then, or that something else ends, is a fault.
WAITS = 10
OUT_OF_TIME = (signal.SIGXCPU,)
Fill = Callable[[str, int], None]  # writes the files for a size into a folder
Content = Callable[[int], bytes]  # the bytes of a file of a size


class Measure(NamedTuple):
    """A run: its status or None, its time in seconds, its peak of memory in MiB."""

    status: Optional[int]
    seconds: float
    mebibytes: float


class Row(NamedTuple):
    """A row of the table: `fill` writes the files for a size, and `wanted` are the statuses that are right. With no
    half size nothing is set beside it; with the words `plain` the run with these at the same size is, and the row's own may
    take `most` times as long."""

    name: str
    words: list[str]
    fill: Fill
    full: int
    half: Optional[int]
    wanted: tuple[int, ...] = (0,)
    plain: Optional[list[str]] = None
    most: float = 0


class Measured(NamedTuple):
    """The run of a row, and the one that is set beside it, where there is one."""

    full: Measure
    half: Optional[Measure]


def build(folder: str) -> str:
    """The path of the built program of `measure.c`."""
    program = os.path.join(folder, "measure")
    subprocess.run(["cc", "-O2", "-o", program, paths.HERE / "measure.c"], check=True)
    return program


def measure(measurer: str, command: Sequence[str], folder: str, seconds: float) -> Measure:
    """Runs a command with its output thrown away."""
    limits = [str(max(1, int(seconds))), str(ADDRESS_SPACE >> 10)]
    answer = shared.run([measurer, *limits, *command], folder, seconds=WAITS * seconds)
    if answer.status != 0:
        return Measure(-signal.SIGKILL, seconds, 0)
    status, microseconds, kibibytes = map(int, answer.output.split())
    return Measure(None if -status in OUT_OF_TIME else status, microseconds / 10**6, kibibytes / 1024)


# What the files are.


def lengthened(name: str) -> str:
    return name.ljust(NAME_BYTES, "x")


def limit_text(stations: int, ground: Optional[int] = None, has_long_names: bool = False) -> str:
    text = limit_case.text(stations, ground)
    if has_long_names:
        text = NAME.sub(lambda name: f'"{lengthened(name[1])}"', text)
    return text


def fill_limit(command: Sequence[str], has_long_names: bool = False) -> Fill:
    """Files of the network at every limit, with a certificate."""

    def fill(folder: str, stations: int) -> None:
        line = lengthened(LINE) if has_long_names else LINE
        shared.write(folder, "p", limit_text(stations, None, has_long_names))
        shared.write(folder, "t", storms.steady(2))
        shared.write(folder, "s", f"time,item,action\n0,{line},open\n")
        shared.certify(command, folder)

    return fill


def fill_made(folder: str, steps: int, switchings: int = 0) -> None:
    """A made network; one earthing after the other is opened and closed again."""
    shared.write(folder, "p", made_case.text(MADE_SITES, 7))
    shared.write(folder, "t", storms.steady(steps))
    rows = (f"{row},S{row // 2 % MADE_SITES},{'close' if row % 2 else 'open'}\n" for row in range(switchings))
    shared.write(folder, "s", "time,item,action\n" + "".join(rows))


def fill_steps(folder: str, steps: int) -> None:
    fill_made(folder, steps)


def fill_limit_steps(folder: str, steps: int) -> None:
    shared.write(folder, "p", limit_text(STATIONS))
    shared.write(folder, "t", storms.steady(steps))


def fill_epochs(folder: str, switchings: int) -> None:
    fill_made(folder, switchings, switchings)


def fill_idle_epochs(folder: str, switchings: int) -> None:
    """The network at every limit, with an epoch for each row, all of which open one earthing."""
    shared.write(folder, "p", limit_text(STATIONS))
    shared.write(folder, "t", storms.steady(switchings))
    rows = (f"{row},{STATION},open\n" for row in range(switchings))
    shared.write(folder, "s", "time,item,action\n" + "".join(rows))


def fill_changing_epochs(folder: str, switchings: int) -> None:
    """The network at every limit, with an epoch for each row: one earthing after the other is opened and closed again."""
    shared.write(folder, "p", limit_text(STATIONS))
    shared.write(folder, "t", storms.steady(switchings))
    rows = (
        f"{row},station-{row // 2 % STATIONS},{'close' if row % 2 else 'open'}\n" for row in range(switchings)
    )
    shared.write(folder, "s", "time,item,action\n" + "".join(rows))


def fill_limit_3(command: Sequence[str]) -> Fill:
    """Files of the network at every limit of format 3, with a certificate."""

    def fill(folder: str, stations: int) -> None:
        shared.write(folder, "p", case_text(3, limit_case.lists_3(stations)))
        shared.write(folder, "t", storms.steady(2))
        shared.write(folder, "s", f"time,item,action\n0,{LINE_3},open\n")
        shared.certify(command, folder)

    return fill


def edge_lists(what: str, count: int) -> dict[str, list[CaseRow]]:
    """The lists of a small case of format 3, but for the one list that is at its limit."""

    def number(name: str, usual: int) -> int:
        return count if what == name else usual

    part = [{"zone": "z0", "north": 1, "east": 1}] * number("parts of a line", 2)
    lines: list[CaseRow] = []
    for place in range(number("lines", number("elements at a bus", 1))):
        start, end = place % SOME_BUSES, (place + 1 + place // SOME_BUSES) % SOME_BUSES
        if what == "elements at a bus":
            start, end = 0, place + 1
        lines.append({"name": f"l{place}", "from": f"b{start}", "to": f"b{end}", "resistance": 1000000, "part": part})
    return {
        "zone": [{"name": f"z{place}", "scale": 1} for place in range(number("zones", 1))],
        "substation": [{"name": f"s{place}"} for place in range(number("substations", 1))],
        "bus": [{"name": f"b{place}", "substation": "s0"} for place in range(number("buses", SOME_BUSES))],
        "line": lines,
        "transformer": [
            {"name": f"u{place}", "kind": "delta-delta", "high_volts": 1000}
            for place in range(number("transformers", 0))
        ],
    }


def fill_edge(what: str) -> Fill:
    return lambda folder, count: shared.write(folder, "p", case_text(3, edge_lists(what, count)))


def greatest_ground(command: Sequence[str], stations: int, folder: str) -> int:
    """The greatest resistance of all grounds, in micro-ohm, with which the network at every limit can be solved."""
    low, high = OHM
    while high - low > 1:
        middle = (low + high) // 2
        shared.write(folder, "p", limit_text(stations, middle))
        if shared.run([*command, *shared.words_of("certify", False)], folder).status == 0:
            low = middle
        else:
            high = middle
    return low


def fill_walk(command: Sequence[str], known: dict[int, int], more: int) -> Fill:
    """The network just within 4096, or with more resistance in its grounds. `known` keeps what was found."""

    def fill(folder: str, stations: int) -> None:
        if stations not in known:
            known[stations] = greatest_ground(command, stations, folder)
        shared.write(folder, "p", limit_text(stations, known[stations] + more))

    return fill


PLAIN = b'format = 1\nsubstation = [{ name = "A", ground = 1000000 }]\n'
STORM = b"time,north,east\n0,1000,0\n"
SWITCHINGS = b"time,item,action\n0,A,close\n"
CERTIFICATE = b"certificate\nnodes 1 north 0 east 0\ncert A 1 0 0\nend\n"


def padded(content: bytes, padding: bytes, size: int) -> bytes:
    return content + (padding * (size // len(padding) + 1))[: size - len(content)]


def fill_file(name: str, make: Content) -> Fill:
    """Small files, but for the one of a name, which has a size."""

    def fill(folder: str, size: int) -> None:
        files = {"p": PLAIN, "t": STORM, "s": SWITCHINGS, "c": CERTIFICATE, name: make(size)}
        for other, content in files.items():
            shared.write(folder, other, content)

    return fill


# Contents of a size that are accepted, or refused only at their end.
LARGE: dict[str, tuple[str, Content, tuple[int, ...]]] = {
    "p": ("list", lambda size: padded(PLAIN, b"# a comment\n", size), (0,)),
    "t": ("study", lambda size: padded(STORM, b"\n", size), (0,)),
    "s": ("check", lambda size: padded(SWITCHINGS, b"\r\n", size), (0,)),
    "c": ("recheck", lambda size: padded(CERTIFICATE, b"x", size), (13,)),
}
# Contents of a size that give a reader much to do.
HOSTILE: list[tuple[str, str, str, Content]] = [
    ("one long string", "p", "list", lambda size: padded(b'a = "', b"x", size - 1) + b'"'),
    ("one long key", "p", "list", lambda size: padded(b"", b"k", size - 4) + b" = 1"),
    ("brackets in brackets", "p", "list", lambda size: padded(b"a = ", b"[", size)),
    ("short keys", "p", "list", lambda size: "".join(f"k{place}=1\n" for place in range(size // 11)).encode()[:size]),
    ("short rows", "p", "list", lambda size: padded(b"", b"[[zone]]\n", size - size % 9)),
    ("dotted keys", "p", "list", lambda size: dotted(size)),
    ("a long list", "p", "list", lambda size: padded(b"zone = [", b"0,", size - 1) + b"]"),
    ("an inline table", "p", "list", lambda size: inline(size)),
    ("one long field", "t", "study", lambda size: padded(b"time,north,east\n", b"0", size)),
    ("one quoted field", "t", "study", lambda size: padded(b'"', b'""', size)),
    ("commas", "t", "study", lambda size: padded(b"time,north,east\n", b",", size)),
    ("short storm rows", "t", "study", lambda size: padded(b"time,north,east\n", b"0,0,0\n", size)),
    ("short switchings", "s", "check", lambda size: padded(b"time,item,action\n", b"0,A,open\n", size)),
    ("empty quotes", "s", "check", lambda size: padded(b"time,item,action\n", b'"",', size)),
    ("line feeds", "c", "recheck", lambda size: padded(b"certificate\n", b"\n", size)),
    ("spaces", "c", "recheck", lambda size: padded(b"certificate\nnodes", b" ", size)),
    ("digits", "c", "recheck", lambda size: padded(b"certificate\nnodes ", b"1", size)),
]


def dotted(size: int) -> bytes:
    """Keys of forty parts, each another one."""
    keys = (f"k{place}" + ".a" * 39 + "=1\n" for place in range(size // 88))
    return "".join(keys).encode()[:size]


def inline(size: int) -> bytes:
    keys = ",".join(f"k{place}=1" for place in range(size // 11))
    return ("a = {" + keys)[: size - 1].rsplit(",", 1)[0].encode() + b"}"


def rows(command: Sequence[str], limit_steps: int) -> Iterator[Row]:
    for mode in MODES:
        if mode == "make":
            words = shared.words_of(mode, size="{size}")
            yield Row("make, sites", words, lambda folder, size: None, 1000, 500)
        elif mode in BY_ITEM:
            # A solve for each item: four times the time at twice the size. At every limit bench/outage.sh runs `outage`.
            name = f"{mode}, a quarter of the limit (its ratio is 4)"
            yield Row(name, shared.words_of(mode), fill_limit(command), STATIONS // 4, STATIONS // 8)
        else:
            sizes = STATIONS, STATIONS // 2
            words = shared.words_of(mode, transformer=UNIT)
            yield Row(f"{mode}, limit", words, fill_limit(command), *sizes)
            words = shared.words_of(mode, transformer=lengthened(UNIT))
            yield Row(f"{mode}, limit, names of 32 bytes", words, fill_limit(command, True), *sizes)
    study = shared.words_of("study", False)
    switched = [*study, "--switch=s"]
    yield Row("study, 2000 nodes, 20000 steps", study, fill_steps, MOST_STORM_ROWS, MOST_STORM_ROWS // 2)
    yield Row(f"study, limit, {limit_steps} steps", study, fill_limit_steps, limit_steps, limit_steps // 2)
    yield Row("study, 2000 nodes, 4096 epochs", switched, fill_epochs, MOST_SWITCHINGS, MOST_SWITCHINGS // 2)
    idle = f"study, limit, {limit_steps} epochs that change nothing"
    yield Row(idle, switched, fill_idle_epochs, limit_steps, limit_steps // 2)
    fill: Fill
    for told, fill, most in (
        ("change nothing", fill_idle_epochs, MOST_IDLE),
        ("each change something", fill_changing_epochs, MOST_CHANGING),
    ):
        name = f"study, limit, 4096 epochs that {told}, beside none ({most} times at most)"
        yield Row(name, switched, fill, MOST_SWITCHINGS, None, (0,), study, most)
    known: dict[int, int] = {}
    for mode in ("field", "screen", "certify"):
        words, sizes = shared.words_of(mode, False), (STATIONS // 2, STATIONS // 4)
        yield Row(f"{mode}, limit, just within 4096", words, fill_walk(command, known, 0), *sizes)
        yield Row(f"{mode}, limit, just past 4096", words, fill_walk(command, known, 1), *sizes, (9,))
    for name, (mode, make, wanted) in LARGE.items():
        words = shared.words_of(mode, False) + (["--switch=s"] if name == "s" else [])
        yield Row(f"{mode}, {name} of 16 MiB", words, fill_file(name, make), MOST_BYTES, MOST_BYTES // 2, wanted)
        yield Row(f"{mode}, {name} of one byte more", words, fill_file(name, make), MOST_BYTES + 1, None, (10,))
    refused = {"p": (5, 11), "t": (6, 11), "s": (7, 11), "c": (13, 11)}
    for told, name, mode, make in HOSTILE:
        words = shared.words_of(mode, False) + (["--switch=s"] if name == "s" else [])
        fill = fill_file(name, make)
        yield Row(f"{mode}, {name}: {told}", words, fill, MOST_BYTES, MOST_BYTES // 2, refused[name])


def rows_3(command: Sequence[str]) -> Iterator[Row]:
    """The rows of format 3."""
    for mode in MODES:
        words = shared.words_of(mode, transformer=UNIT_3)
        if mode in BY_ITEM:
            sizes = STATIONS_3 // 16, STATIONS_3 // 32
            yield Row(f"{mode}, a 16th of the limit of format 3 (its ratio is 4)", words, fill_limit_3(command), *sizes)
        elif mode != "make":
            yield Row(f"{mode}, limit of format 3", words, fill_limit_3(command), STATIONS_3, STATIONS_3 // 2)
    for what, most in EDGES.items():
        words, fill = shared.words_of("list", False), fill_edge(what)
        yield Row(f"list, format 3, {most} {what}", words, fill, most, None)
        yield Row(f"list, format 3, {most + 1} {what}", words, fill, most + 1, None, (5,))


def ratio(full: float, half: float) -> str:
    return f"{full / half:.2f}" if half > 0.005 else "-"


def time_of(measured: Measure) -> str:
    return "over" if measured.status is None else f"{measured.seconds:.2f}"


def cells(row: Row, full: Measure, half: Optional[Measure]) -> list[object]:
    """The cells of a row of the table."""
    head = [row.name, full.status, row.full, time_of(full)]
    if half is None:
        return [*head, "-", "-", f"{full.mebibytes:.0f}", "-", "-"]
    times = ratio(full.seconds, half.seconds) if None not in (full.status, half.status) else "-"
    memory = [f"{one.mebibytes:.0f}" for one in (full, half)]
    return [*head, time_of(half), times, *memory, ratio(full.mebibytes, half.mebibytes)]


def measure_row(
    measurer: str, command: Sequence[str], row: Row, words: Sequence[str], size: int, seconds: float
) -> Measure:
    """The run of a row at a size, in a folder of its own."""
    with shared.scratch() as folder:
        row.fill(folder, size)
        words = [word.replace("{size}", str(size)) for word in words]
        return measure(measurer, [*command, *words], folder, seconds)


def measure_both(measurer: str, command: Sequence[str], row: Row, seconds: float) -> Measured:
    """The run of a row, and what is set beside it."""
    if row.plain is None:
        full = measure_row(measurer, command, row, row.words, row.full, seconds)
        half = None if row.half is None else measure_row(measurer, command, row, row.words, row.half, seconds)
        return Measured(full, half)
    plain = measure_row(measurer, command, row, row.plain, row.full, LONGER * seconds)
    if plain.status != 0:
        return Measured(plain, plain)
    full = measure_row(measurer, command, row, row.words, row.full, max(1, row.most * plain.seconds))
    return Measured(full, plain)


def print_row(row: Row, measured: Measured, faults: shared.Faults) -> None:
    full, half = measured
    if row.plain is not None and full.status is None and half is not None and half.status == 0:
        faults.add(row.name, "takes longer than that")
    for one in (full, half):
        if one is not None and one.status not in (None, *row.wanted):
            faults.add(row.name, "ends with", shared.ending(one.status))
    print("| " + " | ".join(map(str, cells(row, full, half))) + " |", flush=True)


def main() -> None:
    given = shared.arguments(__doc__, 60, [("only", ""), ("run-seconds", 300), ("limit-steps", SOME_STEPS)])
    command, faults, clock = shared.command_of(given.program), shared.Faults(), shared.Clock(given.minutes)
    heads = ("run", "status", "size", "time", "at half", "ratio", "memory", "at half", "ratio")
    print("| " + " | ".join(heads) + " |\n|" + "---|" * len(heads), flush=True)
    every = [*rows(command, given.limit_steps), *rows_3(command)]
    chosen = [row for row in every if given.only in row.name]
    if not chosen:
        faults.add("no row has", given.only, "in its name")
    run = 0
    with shared.scratch() as top:
        measurer = build(top)
        for row in chosen:
            if clock.is_over():
                break
            seconds = min(given.run_seconds, max(10, clock.left()))
            print_row(row, measure_both(measurer, command, row, seconds), faults)
            run += 1
    shared.finish(faults, f"{run} rows", f"{len(chosen) - run} not run")


if __name__ == "__main__":
    main()
