"""A row of the table of transformers: what it is in a case."""

import dataclasses
from collections.abc import Sequence

from .beyond import REACTOR, THREE_SIDED, reactor_row, with_third
from .case_tables import BUSES, Questions, Tables
from .cases import FLOATING, Field, Row
from .findings import shown
from .quantities import KILOVOLT, OHM, Number, bare, number_in, whole
from .records import Record
from .usual import NEUTRALS, REACTORS, WINDINGS, short, two_transmission_voltages, unusual, usual_at
from .vectors import GROUPS, OF_REACTORS, is_earthed_below, kinds_of, letters_of

# What of its windings carries direct current, and so how many buses a unit of a kind has.
KINDS: dict[str, list[str]] = {
    "delta-wye": ["high"],
    "wye-wye": ["high", "low"],
    "auto": ["series", "common"],
    "delta-delta": [],
    REACTOR: ["high"],
}
THIRD = ("third", "third_kv", "third_ohm")
THIRD_WAYS = "a third earthed winding is auto or wye-wye with third, third_kv and third_ohm"
CELLS = ("high", "low", "high_kv", "low_kv", "high_ohm", "low_ohm", "series_ohm", "common_ohm", "neutral", *THIRD)
RATED_FROM_BUS = Number("0.1")  # a rated voltage is within a tenth of that of its bus
BLOCKED = "blocked"


def sides(winding: str) -> tuple[str, ...]:
    """The sides whose voltages a winding goes with."""
    return {"series": ("high", "low"), "common": ("low",)}.get(winding, (winding,))


@dataclasses.dataclass
class Unit:
    """A transformer on its way into a case; what is wrong with its row becomes a finding."""

    at: Record
    name: str
    tables: Tables
    kilovolts: dict[str, Number]  # of the buses
    questions: Questions
    buses: set[str] = dataclasses.field(default_factory=set)
    earthed: set[str] = dataclasses.field(default_factory=set)  # the substations where its windings are

    def rows(self) -> list[Row]:
        """Its row in the case; none where it isn't one."""
        kind = self.at.text("kind")
        if kind not in KINDS:
            ways = f"; {THIRD_WAYS}" if kind in THREE_SIDED.values() else ""
            self.at.wrong("kind", f"{shown(kind)} is none of {', '.join(KINDS)}; write one of these{ways}")
            self.buses.update(self.at.text(column) for column in ("high", "low", "third"))
            return []
        has_third = kind in THREE_SIDED and any(self.at.text(column) for column in THIRD)
        ends = ["high", "low"] if len(KINDS[kind]) == 2 else ["high"]
        self.check_cells(kind, ends, has_third)
        self.check_vector(kind, has_third)
        stations = self.check_buses(ends if KINDS[kind] else [], has_third)
        if KINDS[kind] and self.at.text("neutral") != BLOCKED:
            self.earthed.update(stations)
        if kind == REACTOR:
            return self.reactor()
        volts = {end: self.rated(f"{end}_kv", end) for end in ends}
        high, low = volts["high"], volts.get("low")
        if high is not None and low is not None and low > high:
            self.at.wrong("low_kv", f"it is {short(low)}, above high_kv, {short(high)}; is the row turned?")
        if kind == "wye-wye" and high is not None and low is not None and len(set(map(self.at.text, ends))) > 1:
            words = two_transmission_voltages(high, low)
            if words is not None:
                self.questions.ask_of_row("vector", self.at, "kind", words, "write kind auto with series_ohm and common_ohm")
        fields = [Field("kind", kind)]
        for end in ends:
            fields += self.side(end, end, volts[end], bool(KINDS[kind]))
        for winding in KINDS[kind]:
            own = low if winding in ("low", "common") else high
            fields += self.winding(winding, f"{winding}_resistance", self.usual(winding, high, low), own)
        if has_third:
            fields = with_third(fields, self.third(high))
        return [Row(self.name, fields + self.neutral(), self.at.text("note"))]

    def check_cells(self, kind: str, ends: Sequence[str], has_third: bool) -> None:
        """Whether no cell is filled that the kind has no use for."""
        used = {*ends, *(f"{winding}_ohm" for winding in KINDS[kind]), *(THIRD if has_third else ())}
        if kind != REACTOR:
            used.update(f"{end}_kv" for end in ends)
        if KINDS[kind]:
            used.add("neutral")
        odd = [column for column in CELLS if self.at.text(column) and column not in used]
        if odd:
            need = ", ".join(name for name in CELLS if name in used)
            others = "".join(f", {column} is {bare(self.at.text(column))}" for column in odd[1:])
            them = "it" if len(odd) == 1 else "them"
            words = f"it is {bare(self.at.text(odd[0]))}{others}, and a unit of kind {kind} has no use for {them}"
            self.at.wrong(odd[0], f"{words}; leave {them} empty, or look at kind: this one uses {need}")

    def check_vector(self, kind: str, has_third: bool) -> None:
        """Whether the vector group, where one is written, is that of the kind."""
        vector = self.at.text("vector_group")
        if not vector:
            return
        group = shown(vector)
        letters = letters_of(vector)
        if kind == REACTOR:
            if not OF_REACTORS.fullmatch(vector.upper()):
                self.at.wrong("vector_group", f"{group} is not of kind reactor; allowed are YN and ZN, or nothing")
        elif letters is None or len(letters) < 2:
            self.at.wrong("vector_group", f"{group} is no vector group; allowed are {GROUPS}")
        elif kind == "delta-wye" and is_earthed_below(letters):
            words = f"{group} is earthed on its low side, so high is its low bus here, and its verdict means nothing"
            ways = f"write kind {REACTOR}, which has no verdict, without high_kv and vector_group"
            self.questions.ask_of_row("vector", self.at, "vector_group", words, ways)
        elif kind not in (kinds := kinds_of(letters, has_third)):
            self.at.wrong("vector_group", self.vector_words(group, kind, kinds, letters, has_third))
        elif letters[0] == "Y" and "A" in letters and has_third:
            words = f"{group} has an earthed third winding and a neutral that isn't earthed, and a case joins the two"
            self.at.wrong("vector_group", f"{words}; it can't be written: leave one of them out")
        elif letters[0] == "Y" and "A" in letters and self.at.text("neutral") != BLOCKED:
            self.at.wrong("vector_group", f"{group} has no earthed neutral; write blocked as neutral, or YNa..")

    def vector_words(self, group: str, kind: str, kinds: list[str], letters: list[str], has_third: bool) -> str:
        if kind in kinds_of(letters, not has_third):
            if has_third:
                return f"{group} has no third earthed winding, and third is filled; mend one of the two"
            return f"{group} has a third earthed winding; write third, third_kv and third_ohm"
        goes = f"it goes with {', '.join(kinds)}" if kinds else "no kind has it"
        return f"{group} is not of kind {kind}: {goes}; mend one of the two"

    def check_buses(self, ends: Sequence[str], has_third: bool) -> set[str]:
        """The substations of its buses, which is one, at different buses."""
        rows = {end: self.tables.refer(self.at, end, BUSES) for end in (*ends, *(("third",) if has_third else ()))}
        if not ends and self.at.text("high"):
            rows["high"] = self.tables.refer(self.at, "high", BUSES)
        found = {end: row for end, row in rows.items() if row is not None}
        self.buses.update(row.text("name") for row in found.values())
        stations = {end: row.text("substation") for end, row in found.items()}
        first = next(iter(stations), "")
        for end, station in stations.items():
            if station != stations[first]:
                words = f"it is in {station}, and {first} in {stations[first]}; a unit has its buses in one substation"
                self.at.wrong(end, words)
        self.check_apart({end: row.text("name") for end, row in found.items()})
        return set(stations.values())

    def check_apart(self, buses: dict[str, str]) -> None:
        """Whether no side is at the bus of an earlier one; the first that is, is a finding."""
        sides_at: dict[str, str] = {}
        for end, bus in buses.items():
            if bus in sides_at:
                self.at.wrong(end, f"it is {bus}, as {sides_at[bus]} is; write a bus for each side")
                return
            sides_at[bus] = end

    def rated(self, column: str, end: str) -> Number | None:
        """The rated voltage of a side in kV, which is near to that of its bus."""
        kilovolts = number_in(self.at, column, KILOVOLT)
        bus = self.kilovolts.get(self.at.text(end))
        if kilovolts is not None and bus is not None and abs(kilovolts - bus) > RATED_FROM_BUS * bus:
            words = f"it is {bare(self.at.text(column))}, at a bus of {short(bus)} kV"
            self.questions.ask_of_row("volts", self.at, column, words, "a rated voltage is within a tenth of its bus: mend one of the two")
        return kilovolts

    def side(self, end: str, key: str, kilovolts: Number | None, has_bus: bool) -> list[Field]:
        fields = [] if kilovolts is None else [Field(f"{key}_volts", whole(kilovolts, KILOVOLT))]
        return [*fields, Field(key, self.at.text(end))] if has_bus else fields

    def usual(self, winding: str, high: Number | None, low: Number | None) -> tuple[Number, Number] | None:
        """What is usual of a winding. A series winding has the difference of both voltages, and what is the most of
        one follows the high voltage."""
        if high is None or (low is None and winding in ("low", "series", "common")):
            return None
        if winding == "series" and low is not None:
            apart, own = usual_at(WINDINGS, high - low), usual_at(WINDINGS, high)
            return min(apart[0], own[0]), max(apart[1], own[1])
        return usual_at(WINDINGS, low if winding in ("low", "common") and low is not None else high)

    def winding(
        self, winding: str, key: str, usual: tuple[Number, Number] | None, kilovolts: Number | None
    ) -> list[Field]:
        column = f"{winding}_ohm"
        ohm = number_in(self.at, column, OHM)
        if ohm is None:
            return []
        if usual is not None and kilovolts is not None:
            found = unusual(ohm, usual, self.what(winding), kilovolts)
            self.questions.ask_unusual(f"winding:{self.at.text('name')}", self.at, column, found)
        return [Field(key, whole(ohm, OHM), f"{bare(self.at.text(column))} ohm per phase")]

    def what(self, winding: str) -> str:
        kilovolts = " and ".join(bare(self.at.text(f"{end}_kv")) for end in sides(winding) if self.at.text(f"{end}_kv"))
        return f"{winding} windings of {kilovolts} kV" if kilovolts else "reactors"

    def neutral(self) -> list[Field]:
        text = self.at.text("neutral")
        if not text or not KINDS[self.at.text("kind")]:
            return []
        if text == BLOCKED:
            joined = self.at.text("kind") == "wye-wye"
            return [Field("neutral", BLOCKED, FLOATING if joined else "a blocking device between the neutral and the ground grid")]
        if any(letter.isalpha() and letter not in "eE" for letter in text):
            self.at.wrong("neutral", f"{shown(text)} is no number; write ohm, or {BLOCKED}, or nothing")
            return []
        ohm = number_in(self.at, "neutral", OHM)
        if ohm is None:
            return []
        found = unusual(ohm, usual_at(NEUTRALS, Number(0)), "neutrals", Number(0))
        self.questions.ask_unusual(f"neutral:{self.at.text('name')}", self.at, "neutral", found)
        return [Field("neutral", whole(ohm, OHM), f"a resistor of {bare(text)} ohm to the ground grid")]

    def third(self, high: Number | None) -> list[Field]:
        """The third earthed winding."""
        kilovolts = self.rated("third_kv", "third")
        if kilovolts is not None and high is not None and kilovolts > high:
            self.at.wrong("third_kv", f"it is {short(kilovolts)}, above high_kv, {short(high)}; look at both")
        usual = None if kilovolts is None else usual_at(WINDINGS, kilovolts)
        side = self.side("third", "third", kilovolts, True)
        return [*side, *self.winding("third", "third_resistance", usual, kilovolts)]

    def reactor(self) -> list[Row]:
        kilovolts = self.kilovolts.get(self.at.text("high"))
        usual = None if kilovolts is None else usual_at(REACTORS, kilovolts)
        resistance = self.winding("high", "high_resistance", usual, kilovolts)
        if not resistance or kilovolts is None:
            return []
        note = self.at.text("note") or "a reactor, or a winding that is earthed alone"
        volts = whole(kilovolts, KILOVOLT)
        return [reactor_row(self.name, volts, self.at.text("high"), resistance[0], self.neutral(), note)]
