#!/usr/bin/env python3
"""Judges a report of gicstudy by certificates of potentials, exactly and without the program.

    python3 independent/judge.py --case=C [--switch=S] --report=FIELD --cert=FILE
    python3 independent/judge.py --case=C [--switch=S] --report=SCREEN --north=FILE --east=FILE
    python3 independent/judge.py --case=C [--switch=S] --report=OUTAGE --certs=FOLDER

It prints the SHA-256 of each file, the head of the report, a line for each interval and verdict that is refuted or left
open, and the figures. The status is 0 where all is shown, 15 where something is refuted, else 16 where something is
open; 14 where the report is not whole or not of this case; 2, 3, 4, 5, 7, 10, 11 and 13 as of gicstudy. Potentials are
in millivolts, currents in milliamperes, conductances in siemens.
"""

import io
import os
import re
import signal
import sys
from collections import Counter, defaultdict
from collections.abc import Callable
from fractions import Fraction
from hashlib import sha256
from math import ceil, floor, isqrt
from typing import NamedTuple

from network import EARTH, ZERO, Element, Network, Node, crowded_node, elements_of, open_items
from reasons import read_case, read_switchings
from rules import CANNOT_WRITE, CASE, NAME, OUT_OF_MEMORY, REFUSED, UNREADABLE, USAGE, Refused, Row, bytes_of

NOT_THIS_REPORT, REFUTED, OPEN = 14, 15, 16  # statuses; the others stand in rules.py
NO_CURRENT = ("delta-delta", "reactor")  # the effective current of these is nothing


def need(is_so: bool, status: int, reason: str) -> None:
    """Refuses what isn't so."""
    if not is_so:
        raise Refused(status, reason)


# Certificates, and what they show -------------------------------------------------------------------------------------

class Interval(NamedTuple):
    """A current or a potential lies between two ends."""

    low: Fraction
    high: Fraction

    def size(self) -> "Interval":
        """That of the absolute value."""
        return self if self is NOTHING else Interval(max(self.low, -self.high, ZERO), max(-self.low, self.high))

    def __str__(self) -> str:
        ends = floor(self.low * 10**9), ceil(self.high * 10**9)
        return " to ".join("any" if n > 1e48 else f"{'-' * (n < 0)}{abs(n) // 10**9}.{abs(n) % 10**9:09}" for n in ends)


NOTHING = Interval(ZERO, ZERO)  # the current of a transformer of which no winding stands
ANYTHING = Interval(ZERO, Fraction(10**40))  # a worst current of which no certificate says anything
NUMBER = "([-+]?[0-9]{1,38})"
MILLIVOLT = 10**6 * 2**36  # in grains
RANGES = range(1, 4097), range(-(2**95), 2**95 + 1), range(2**126 + 1)  # of the three numbers of a node


class Rows:
    """The rows of a certificate, as they have to be in a network and a field."""

    def __init__(self, name: str) -> None:
        self.name = name
        self.rows = read_file(name).decode("latin-1").split("\n")  # what stands behind the last line feed is no row

    def numbers(self, row: int, head: str, form: str = "", *ranges: range) -> list[int]:
        """The numbers of a row that has this head, and behind it this form. Each is in its range."""
        text = self.rows[row - 1] if row < len(self.rows) else ""
        found = re.fullmatch(form, text[len(head) :]) if text.startswith(head) else None
        numbers = [int(word) for word in found.groups()] if found else []
        is_right = found is not None and all(number in allowed for number, allowed in zip(numbers, ranges))
        self.need(is_right, f"row {row} is not what it has to be in this network and field")
        return numbers

    def end(self, row: int) -> None:
        """The certificate ends in this row."""
        self.numbers(row, "end")
        self.need(self.rows[row:] == [""], "something follows its end")

    def need(self, is_so: bool, reason: str) -> None:
        """Refuses the certificate where something isn't so."""
        need(is_so, REFUSED, f"cert: {self.name}: {reason}")


class Sums(NamedTuple):
    """What a certificate says of a node, summed over its standing elements."""

    own: Fraction  # conductances
    rise: Fraction  # how far its entry is above those of its neighbours
    rounded: int  # rise less own, each part rounded down to 2^-20 siemens
    left: Fraction  # the current that leaves it under the guesses


class Certificate:
    """A certificate that passes in a network. Each potential is at most its reach away from its guess."""

    def __init__(self, network: Network, name: str, north: int, east: int) -> None:
        self.network, self.field = network, (north, east)
        self.entries: dict[Node, int] = {EARTH: 0}
        self.guesses: dict[Node, Fraction] = {EARTH: ZERO}
        self.reaches: dict[Node, Fraction] = {EARTH: ZERO}
        self.radii: dict[Node, Fraction] = {}
        self.is_bound = True  # whether its rows hold with each part rounded down too: then no node is unresolved
        rows = Rows(name)
        self.read(rows)
        for island in network.islands:
            self.check(rows, island)

    def read(self, rows: Rows) -> None:
        """Reads what it says of each node."""
        nodes = self.network.nodes
        rows.numbers(1, "certificate")
        only = [range(number, number + 1) for number in (len(nodes), *self.field)]
        rows.numbers(2, "nodes", f" {NUMBER} north {NUMBER} east {NUMBER}", *only)
        for row, node in enumerate(nodes, 3):
            form = f" {NUMBER} {NUMBER} {NUMBER}" if node in self.network.leaving else " dead"
            if numbers := rows.numbers(row, f"cert {node}", form, *RANGES):
                self.entries[node], guess, radius = numbers
                self.guesses[node], self.radii[node] = Fraction(guess, MILLIVOLT), Fraction(radius, MILLIVOLT)
        rows.end(len(nodes) + 3)

    def check(self, rows: Rows, island: list[Node]) -> None:
        """Finds the reaches of an island. Its entries have to be a bound vector, and its radii the reaches at least."""
        step = ZERO  # the greatest error of a guess, divided by the entry
        for node in island:
            sums = self.sums(node)
            rows.need(sums.rise >= sums.own, f"the entry of node {node} is too low beside its neighbours")
            self.is_bound = self.is_bound and sums.rounded >= 0
            step = max(step, abs(sums.left) / sums.rise)
        for node in island:
            self.reaches[node] = self.entries[node] * step
            rows.need(self.radii[node] >= self.reaches[node], f"the radius of node {node} is too small")

    def sums(self, node: Node) -> Sums:
        """The sums over the standing elements of a node."""
        own, rise, rounded, left = ZERO, ZERO, 0, ZERO
        for branch in self.network.leaving[node]:
            conductance, above = branch.element.conductance, self.entries[node] - self.entries[branch.other]
            own += conductance
            rise += conductance * above
            rounded += floor(2**20 * conductance * (above - 1))
            voltage = Fraction(branch.voltage(*self.field), 10**6)
            left += conductance * (self.guesses[node] - self.guesses[branch.other] + voltage)
        return Sums(own, rise, rounded, left)

    def around(self, weights: dict[Node, Fraction], added: Fraction = ZERO) -> Interval:
        """Where the sum of the potentials with these weights lies, with something added."""
        middle = added + sum(weight * self.guesses[node] for node, weight in weights.items())
        reach = sum(abs(weight) * self.reaches[node] for node, weight in weights.items())
        return Interval(middle - reach, middle + reach)

    def potential(self, node: Node) -> Interval:
        """Where the potential of a node lies."""
        return self.around({node: Fraction(1)})

    def current(self, element: Element) -> Interval:
        """Where the current of an element lies, by Ohm's law."""
        driven = element.conductance * Fraction(element.voltage(*self.field), 10**6)
        return self.around({element.start: element.conductance, element.end: -element.conductance}, driven)

    def effective(self, unit: Row) -> Interval:
        """The effective current of a transformer, per phase."""
        weights: dict[Node, Fraction] = defaultdict(Fraction)
        for winding in counting_windings(self.network, unit):
            share = winding.conductance * Fraction(winding.volts, 3 * unit["high_volts"])
            weights[winding.start] += share
            weights[winding.end] -= share
        return self.around(weights) if weights else NOTHING


def counting_windings(network: Network, unit: Row) -> list[Element]:
    """The standing windings that count in the effective current of a transformer."""
    return [] if unit["kind"] in NO_CURRENT else network.of_item.get(unit["name"], [])


def root(pair: list[Interval], parts: int) -> Interval:
    """The root of the sum of the squares of two currents, outward to parts of a milliampere of this number."""
    sizes = [current.size() for current in pair]
    low = parts**2 * sum(size.low**2 for size in sizes)
    high = parts**2 * sum(size.high**2 for size in sizes)
    most = isqrt(ceil(high))
    return Interval(Fraction(isqrt(floor(low)), parts), Fraction(most + (most**2 < high), parts))


def worst(network: Network, pair: list[Certificate], unit: Row) -> Interval:
    """The worst current of a transformer, by the certificates in two fields, if there are any."""
    if not counting_windings(network, unit):
        return NOTHING
    return root([certificate.effective(unit) for certificate in pair], 10**12) if pair else ANYTHING


# The report: its lines ------------------------------------------------------------------------------------------------

Ends = tuple[int, int]  # of an interval, as they are printed
EVENTS = {75000: 8000, 85000: 12000}  # the field of each event in mV/km, by its threshold in mA
# What a word of a form in capitals stands for; any other word stands for itself.
WORDS = {"SIGNED": "(0|-?[1-9][0-9]{0,37})", "SIZE": "(0|[1-9][0-9]{0,37})", "NODE": NAME.pattern,
         "FAULT": "(unearthed|unresolved)", "VERDICT": "(below|reaches|undecided|outside)"}
COUNTS = "below SIZE reaches SIZE undecided SIZE outside SIZE"


class Report:
    """The lines of a report, which are read one by one."""

    def __init__(self, text: bytes) -> None:
        self.lines, self.row, self.text = text.decode("latin-1").split("\n"), 0, ""

    def words(self, head: str, *forms: str) -> list[str]:
        """The words of the next line that stand for capitals. It has the head, and behind it one of the forms."""
        self.row += 1
        self.text = self.lines[self.row - 1] if self.row < len(self.lines) else ""
        for form in forms or [""]:
            found = re.fullmatch("".join(f" {WORDS.get(word, word)}" for word in form.split()), self.text[len(head) :])
            if found and self.text.startswith(head):
                return list(found.groups())
        line = f"line {self.row} is {self.text[:200]!r}"
        raise Refused(NOT_THIS_REPORT, f"report: {line}, and has to be: {head} {' or '.join(forms)}")

    def numbers(self, head: str, *forms: str) -> list[int]:
        """The words, where all of them are numbers."""
        return [int(word) for word in self.words(head, *forms)]

    def ends(self, head: str, form: str = "SIGNED SIGNED") -> Ends | None:
        """The interval of the next line, if its form has one."""
        numbers = self.numbers(head, form)
        return (numbers[0], numbers[1]) if numbers else None

    def end(self) -> None:
        """It ends in the next line."""
        self.words("end")
        need(self.lines[self.row :] == [""], NOT_THIS_REPORT, f"report: something follows line {self.row}")


# The report: its statements -------------------------------------------------------------------------------------------

class Judge:
    """Reads the lines of a report, and settles their statements."""

    def __init__(self, network: Network, text: bytes) -> None:
        self.network, self.units, self.report = network, network.case["transformer"], Report(text)
        self.outside = [unit["kind"] in NO_CURRENT or unit["high_volts"] <= 200000 for unit in self.units]
        self.width = self.threshold = 0
        self.shown: Counter[str] = Counter()
        self.refuted, self.open = 0, 0
        self.told: list[str] = []

    def begin(self, mode: str, *names: str) -> list[int]:
        """The numbers of these names in the second line, but for the width and the threshold."""
        self.report.words(mode)
        form = " ".join(f"{name} SIGNED" for name in names).removeprefix(names[0])
        numbers = dict(zip(names, self.report.numbers(names[0], form)))
        self.width, self.threshold = numbers.pop("width"), numbers.pop("threshold")
        is_event = self.threshold in EVENTS and numbers.get("field") in (None, EVENTS[self.threshold])
        is_right = is_event and 10 <= self.width <= 10000 and max(abs(number) for number in numbers.values()) <= 20000
        need(is_right, NOT_THIS_REPORT, "report: line 2 has a number that may not stand there")
        self.told.append(f"{mode} {self.report.text}")
        return list(numbers.values())

    def settle(self, kind: str, holds: bool, fails: bool, reason: str) -> None:
        """Counts a statement of the line that was read last."""
        if holds and not fails:
            self.shown[kind] += 1
            return
        self.refuted, self.open = self.refuted + fails, self.open + (not fails)
        line = f"line {self.report.row}: {self.report.text}"
        self.told.append(f"{'refuted' if fails else 'open'}: {line}: {kind}: {reason}")

    def interval(self, printed: Ends, exact: Interval, made: Interval | None = None) -> None:
        """It has to hold the exact value, within the width; to be 0 0 where no winding stands; and to be as `made`."""
        low, high = printed
        fails = exact.high < low or high < exact.low or not 0 <= high - low <= self.width
        fails = fails or (exact is NOTHING and low != high)
        fails = fails or (made is not None and (made.low != low or made.high != high))
        reason = f"{low} {high}, and {exact} is shown" + (f", and the others make {made}" if made is not None else "")
        self.settle("interval", low <= exact.low and exact.high <= high, fails, reason)

    def verdict(self, is_outside: bool, printed: Ends, verdict: str, exact: Interval) -> None:
        """It has to be that of the interval, and true of the current if it says anything of it."""
        (low, high), limit = printed, self.threshold
        own = "outside" if is_outside else "reaches" if limit <= low else "below" if high < limit else "undecided"
        reaches, below = limit <= exact.low, exact.high < limit  # surely; the other two verdicts say nothing of it
        holds, fails = {"reaches": (reaches, below), "below": (below, reaches)}.get(verdict, (True, False))
        self.settle("verdict", holds, fails or verdict != own, f"by {low} {high} {own}, and {exact} is shown")

    def counts(self, counts: list[int], worsts: list[Interval]) -> tuple[bool, bool]:
        """Whether the counts of an outage hold, and whether they fail, with intervals around the worst currents."""
        assessed = [exact for exact, is_outside in zip(worsts, self.outside) if not is_outside]
        lows, highs = [exact.low for exact in assessed], [exact.high for exact in assessed]
        below, reaches, _, outside = counts
        adds_up = sum(counts) == len(self.units) and outside == len(self.units) - len(assessed)
        # At the ends that are worst, and best, for the counts.
        holds, may_hold = self.fit(below, reaches, lows, highs), self.fit(below, reaches, highs, lows)
        return adds_up and holds, not (adds_up and may_hold)

    def fit(self, below: int, reaches: int, lows: list[Fraction], highs: list[Fraction]) -> bool:
        """Whether these counts of transformers below the threshold, and at it, go with these ends of the currents."""
        limit, width = self.threshold, self.width
        must_be_below, can_be_below = sum(low < limit - width for low in lows), sum(high < limit for high in highs)
        must_reach, can_reach = sum(high > limit + width - 1 for high in highs), sum(low >= limit for low in lows)
        return must_be_below <= below <= can_be_below and must_reach <= reaches <= can_reach


# The modes ------------------------------------------------------------------------------------------------------------

def judge_field(judge: Judge, cert: str) -> None:
    """Judges a report of `field`."""
    north, east = judge.begin("field", "north", "east", "width", "threshold")
    certificate = Certificate(judge.network, cert, north, east)
    judge_nodes(judge, certificate)
    judge_elements(judge, certificate)
    judge_units(judge, certificate)


def judge_nodes(judge: Judge, certificate: Certificate) -> None:
    """The lines of the nodes."""
    for node in judge.network.nodes:
        form = "SIGNED SIGNED" if node in judge.network.leaving else "dead"
        if printed := judge.report.ends(f"node {node}", form):
            judge.interval(printed, certificate.potential(node))


def judge_elements(judge: Judge, certificate: Certificate) -> None:
    """The lines of the elements."""
    for element in judge.network.elements:
        is_open = element.item in judge.network.switched_off
        form = "blocked" if not element.conductance else "open" if is_open else "SIGNED SIGNED"
        if printed := judge.report.ends(element.label, form):
            judge.interval(printed, certificate.current(element))


def judge_units(judge: Judge, certificate: Certificate) -> None:
    """The lines of the transformers: their effective currents, and their verdicts."""
    currents, sizes = [certificate.effective(unit) for unit in judge.units], []
    for unit, exact in zip(judge.units, currents):
        low, high = judge.report.numbers(f"effective {unit['name']}", "SIGNED SIGNED")
        judge.interval((low, high), exact)
        sizes.append((max(low, -high, 0), max(-low, high)))  # of the absolute value
    for unit, is_outside, exact, size in zip(judge.units, judge.outside, currents, sizes):
        [verdict] = judge.report.words(f"transformer {unit['name']} {size[0]} {size[1]}", "VERDICT")
        judge.interval(size, exact.size())
        judge.verdict(is_outside, size, verdict, exact.size())


def judge_screen(judge: Judge, north: str, east: str) -> None:
    """Judges a report of `screen`."""
    [field] = judge.begin("screen", "width", "threshold", "field")
    pair = [Certificate(judge.network, north, field, 0), Certificate(judge.network, east, 0, field)]
    for unit, is_outside in zip(judge.units, judge.outside):
        form = "north SIGNED SIGNED east SIGNED SIGNED worst SIZE SIZE VERDICT"
        *words, verdict = judge.report.words(f"transformer {unit['name']}", form)
        ends = [int(word) for word in words]
        printed = [(ends[0], ends[1]), (ends[2], ends[3])]
        for one, certificate in zip(printed, pair):
            judge.interval(one, certificate.effective(unit))
        made = root([Interval(Fraction(low), Fraction(high)) for low, high in printed], 1)
        exact = worst(judge.network, pair, unit)
        judge.interval((ends[4], ends[5]), exact, made)
        judge.verdict(is_outside, (ends[4], ends[5]), verdict, exact)


def judge_outage(judge: Judge, folder: str) -> None:
    """Judges a report of `outage`."""
    [field] = judge.begin("outage", "width", "threshold", "field")
    need(os.path.isdir(folder), UNREADABLE, f"cannot read {folder}")
    unearthed = judge.network.unearthed
    need(unearthed is EARTH, NOT_THIS_REPORT, f"report: there is none, since node {unearthed} is not earthed")
    rows = [*judge.network.case["line"], *judge.units]
    outages = [judge_one_outage(judge, folder, field, row["name"]) for row in rows]
    counted = [worsts for worsts in outages if worsts is not None]
    for place, (unit, is_outside) in enumerate(zip(judge.units, judge.outside)):
        words = judge.report.words(f"transformer {unit['name']}", "worst SIZE SIZE VERDICT" if counted else "none")
        if words:
            printed, exact = (int(words[0]), int(words[1])), greatest([worsts[place] for worsts in counted])
            judge.interval(printed, exact)
            judge.verdict(is_outside, printed, words[2], exact)


def judge_one_outage(judge: Judge, folder: str, field: int, name: str) -> list[Interval] | None:
    """The line of an outage. If it has counts, the worst currents in it are answered."""
    words = judge.report.words(f"outage {name}", "idle", "FAULT NODE", COUNTS)
    before = judge.network
    network = Network(before.case, before.elements, before.switched_off | {name})
    own = "idle" if name not in before.of_item else f"unearthed {network.unearthed}" if network.unearthed else ""
    pair = [] if own else outage_certificates(network, folder, field, name)
    worsts = [worst(network, pair, unit) for unit in judge.units]
    counts = [int(word) for word in words] if len(words) == 4 else []
    if own:
        judge.settle("verdict", True, judge.report.text != f"outage {name} {own}", f"it is {own}")
    else:
        is_resolved = any(certificate.is_bound for certificate in pair)
        is_unresolved = words == ["unresolved"] and judge.report.text.split(" ")[3] in network.leaving
        holds, fails = judge.counts(counts, worsts) if counts else (False, is_resolved or not is_unresolved)
        judge.settle("verdict", holds and is_resolved, fails, f"{'' if is_resolved else 'maybe not '}resolved")
    return worsts if counts else None


def outage_certificates(network: Network, folder: str, field: int, name: str) -> list[Certificate]:
    """The two certificates of an outage, if there is any."""
    north, east = (os.path.join(folder, f"{name}.{side}.cert") for side in ("north", "east"))
    if not os.path.exists(north) and not os.path.exists(east):
        return []
    return [Certificate(network, north, field, 0), Certificate(network, east, 0, field)]


def greatest(currents: list[Interval]) -> Interval:
    """The greatest current."""
    if all(exact is NOTHING for exact in currents):
        return NOTHING
    return Interval(max(exact.low for exact in currents), max(exact.high for exact in currents))


# The whole ------------------------------------------------------------------------------------------------------------

MODES: dict[tuple[str, ...], Callable[..., None]] = {  # by the certificates
    ("--cert",): judge_field,
    ("--north", "--east"): judge_screen,
    ("--certs",): judge_outage,
}


def read_file(name: str) -> bytes:
    """The bytes of a file, whose SHA-256 is printed."""
    content = bytes_of(name, f"cannot read {name}", f"too long: {name}")
    print(sha256(content).hexdigest(), "", name.encode(errors="backslashreplace").decode())
    return content


def read_network(given: dict[str, str]) -> Network:
    """The network of the files that the words name."""
    case = read_case(read_file(given["--case"]))
    elements = elements_of(case)
    need(crowded_node(case, elements) is EARTH, CASE, "case: more than 256 elements end at a node")
    records = read_switchings(read_file(given["--switch"]), case) if "--switch" in given else []
    return Network(case, elements, open_items(records))


def run(words: list[str]) -> int:
    """Judges what the words name, prints what came of it, and answers the status."""
    need(sys.stdout is not None, CANNOT_WRITE, "cannot write")
    given = {option: value for option, _, value in (word.partition("=") for word in words)}
    certs = next((certs for certs in MODES if {"--case", "--report", *certs} == given.keys() - {"--switch"}), ())
    is_usage = len(certs) > 0 and len(given) == len(words) and all("=" in word for word in words)
    usage = "usage: --case=C [--switch=S] --report=R with --cert=F, or --north=F --east=F, or --certs=FOLDER"
    need(is_usage, USAGE, usage)
    judge = Judge(read_network(given), read_file(given["--report"]))
    MODES[certs](judge, *(given[cert] for cert in certs))
    judge.report.end()
    shown = f"{judge.shown['interval']} intervals and {judge.shown['verdict']} verdicts shown"
    print(*judge.told, f"{shown}, {judge.refuted} refuted, {judge.open} open", sep="\n")
    return REFUTED if judge.refuted else OPEN if judge.open else 0


def main(words: list[str]) -> int:
    """Judges, tells in a line why it couldn't, and answers the status."""
    try:
        try:
            return run(words)
        finally:
            print(end="", flush=True)
    except Refused as refused:
        status, reason = refused.status, str(refused)
    except MemoryError:
        status, reason = OUT_OF_MEMORY, "out of memory"
    except (OSError, UnicodeError):
        os.dup2(os.open(os.devnull, os.O_WRONLY), 1)  # what is left is written to nowhere
        status, reason = CANNOT_WRITE, "cannot write"
    try:
        print(f"judge: {reason}", file=sys.stderr or io.StringIO(), flush=True)
    except OSError:
        os.dup2(os.open(os.devnull, os.O_WRONLY), 2)
    return status


if __name__ == "__main__":
    signal.signal(signal.SIGINT, signal.SIG_DFL)  # Ctrl-C ends it without a traceback
    sys.exit(main(sys.argv[1:]))
