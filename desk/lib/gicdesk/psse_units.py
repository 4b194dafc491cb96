"""What a transformer of a power flow is in a case: its kind, its windings, its neutral.

What only format 3 of a case can say, a third earthed winding and a shunt reactor, comes to `Beyond` alone.
"""

import dataclasses
import decimal
from collections.abc import Callable, Mapping, Sequence

from .beyond import THREE_SIDED, with_third
from .cases import FLOATING, Field, Row
from .findings import Finding, shown
from .psse_gic import SIDES, Side, Windings
from .psse_half import Shares
from .psse_raw import Transformer
from .records import Record
from .usual import NEUTRALS, WINDINGS, Number, short, two_transmission_voltages, unusual, usual_at
from .vectors import GROUNDED, GROUPS, letters_of

RATED_FROM_BUS = decimal.Decimal("0.1")  # a rated voltage is mostly within a tenth of that of its bus
CHOICES = ("leave", "model")
OPEN_AUTO = (
    "a side of the autotransformer is out of service, and all of it is left out; its windings may still carry current: for "
    "that, write it with this side at a bus of its own, where nothing else ends"
)


@dataclasses.dataclass(frozen=True)
class Winding:
    """A winding at a bus; its letters are YN, Y, D or Z, and A for the lower side of an autotransformer."""

    bus: int
    kilovolts: decimal.Decimal
    letters: str
    side: Side
    name: str  # I, J or K


@dataclasses.dataclass
class Beyond:
    """What formats 1 and 2 have no key for: by the user's choice it is left out, or written in format 3, and told;
    without a choice it is refused."""

    choice: str | None
    notes: list[Finding]

    def takes(self, at: Record, words: str, written: str) -> bool:
        """Whether it is written; what becomes of it is told."""
        if self.choice is None:
            ways = "--beyond=leave leaves it out, --beyond=model writes a case of format 3, which has one"
            at.wrong(None, f"{words} has no key in a case of format 2; {ways}")
        else:
            told = "left out" if self.choice == "leave" else f"{written}, in a case of format 3"
            self.notes.append(at.finding(f"{words} is {told}"))
        return self.choice == "model"


def micro_ohm(at: Record, column: str, ohm: decimal.Decimal, ways: str = "write ohm a phase") -> int:
    """A resistance in micro-ohm, rounded to a whole one; what is out of a case's range is a finding."""
    micro = int((ohm * 10**6).to_integral_value(decimal.ROUND_HALF_EVEN))
    if not 1000 <= micro <= 10**9:
        at.wrong(column, f"it is {shown(f'{ohm:f}')[1:-1]} ohm, and not 0.001 to 1000; {ways}")
    return micro


def neutral_field(at: Record, column: str, ohm: decimal.Decimal) -> Field:
    return Field("neutral", micro_ohm(at, column, ohm, "write ohm"), f"a resistor of {ohm:f} ohm to the ground grid")


def volts(at: Record, kilovolts: decimal.Decimal) -> int:
    whole = int((kilovolts * 1000).to_integral_value(decimal.ROUND_HALF_EVEN))
    if not 1000 <= whole <= 2000000:
        at.wrong(None, f"a rated voltage is {kilovolts:f} kV, and not 1 to 2000; look at NOMV, and at BASKV of the bus")
    return whole


def by_volts(kilovolts: Sequence[decimal.Decimal]) -> list[int]:
    """The places of the windings, the highest voltage first, equal ones as they stand."""
    return sorted(range(len(kilovolts)), key=lambda place: -kilovolts[place])


def letters_by_bus(
    at: Record, vector: str, kilovolts: Mapping[int, decimal.Decimal], order: str | None
) -> dict[int, str] | None:
    """The letters of the winding at each bus, of which the voltages are given in the order of the record that has the
    group. Letters stand in the order of the voltages, or in that of the buses, as the user says; where it doesn't matter
    nobody is asked."""
    letters = letters_of(vector)
    if letters is None:
        what = f'"{vector}" is no vector group' if vector else "it is empty, and so is that of the other file"
        at.wrong("VECGRP", f"{what}; allowed are {GROUPS}")
        return None
    many = len(kilovolts)
    if len(letters) < many:
        at.wrong("VECGRP", f'"{vector}" is of fewer windings than the unit has buses, {many}; write a letter for each')
        return None
    if GROUNDED in letters[many:]:
        at.wrong("VECGRP", f'"{vector}" has a grounded winding without a bus; write its bus, or its letter without N')
        return None
    buses = list(kilovolts)
    of_volts = [buses[place] for place in by_volts(list(kilovolts.values()))]
    by_order = {"buses": dict(zip(buses, letters)), "volts": dict(zip(of_volts, letters))}
    if order is None and by_order["buses"] != by_order["volts"]:
        ways = "--vector=volts takes the first letters for the highest voltage, --vector=buses for bus I"
        at.wrong("VECGRP", f'"{vector}" can be read in two ways: bus I isn\'t the one of the highest voltage; {ways}')
        return None
    return by_order[order or "volts"]


def windings_of(
    unit: Transformer,
    data: Windings,
    bus_kilovolts: dict[int, decimal.Decimal],
    order: str | None,
    notes: list[Finding],
) -> list[Winding]:
    """The windings of a unit, the highest voltage first; none where it has none for a case."""
    kilovolts = []
    for bus, rated in zip(unit.buses, unit.rated):
        own = bus_kilovolts[bus]
        kilovolts.append(rated if rated > 0 else own)
        if abs(kilovolts[-1] - own) > RATED_FROM_BUS * own:
            words = f"a winding rated at {kilovolts[-1]:f} kV is at the bus {bus} of {own:f} kV; look at both"
            notes.append(unit.record.finding(words))
    of_buses = dict(zip(unit.buses, kilovolts))
    vector_at, named = (data.record, data.sides) if data.vector else (unit.record, unit.buses)
    letters = letters_by_bus(vector_at, data.vector or unit.vector, {bus: of_buses[bus] for bus in named}, order)
    if letters is None:
        return []
    out = unit.out
    if out is not None and "A" in letters.values():
        if out == by_volts(kilovolts)[0] or letters[unit.buses[out]] == "A":
            notes.append(unit.record.finding(OPEN_AUTO))
            return []
    if out is not None:
        words = f"its status is {unit.status}: the winding at the bus {unit.buses[out]} is out of service"
        notes.append(unit.record.finding(f"{words}, and is left out; the others stay"))
    windings = []
    for place in by_volts(kilovolts):
        bus = unit.buses[place]
        column = next(name for name in SIDES if data.record.bus(name, 0) == bus)
        letter = "D" if place == out else letters[bus]  # as a delta does, a winding that is out carries nothing here
        windings.append(Winding(bus, kilovolts[place], letter, data.sides[bus], column))
    return windings


@dataclasses.dataclass
class Unit:
    """A unit on its way into a case: its records, its name there, and what is told of it."""

    at: Record  # of the power flow
    data_at: Record  # of the resistances
    name: str
    windings: list[Winding]
    bus_name: Callable[[int], str]
    beyond: Beyond
    unit: Transformer
    shares: Shares
    note: str = ""

    def tell(self, words: str) -> None:
        self.beyond.notes.append(self.at.finding(words))

    def tell_unusual(self, column: str, found: tuple[str, str] | None) -> None:
        if found is not None:
            self.beyond.notes.append(self.data_at.finding("".join(found), column))

    def resistance(self, key: str, winding: Winding) -> Field:
        """The resistance of a winding, of which it is told where few have it."""
        column = f"WR{winding.name}"
        if winding.side.ohm == 0:
            return self.half(key, column, winding)
        micro = micro_ohm(self.data_at, column, winding.side.ohm)
        kilovolts = winding.kilovolts
        least, most = usual_at(WINDINGS, kilovolts)
        if key == "series_resistance":  # its voltage is a difference
            least = min(least, Number(WINDINGS[1].least))
        found = unusual(winding.side.ohm, (least, most), f"windings of {short(kilovolts)} kV", kilovolts)
        if 1000 <= micro <= 10**9:
            self.tell_unusual(column, found)
        return Field(key, micro, f"{winding.side.ohm:f} ohm per phase")

    def half(self, key: str, column: str, winding: Winding) -> Field:
        """The resistance of a winding that stands as 0: half of R1-2, where the user says so."""
        nothing = Field(key, 1000)
        if self.shares.word is None or winding.bus not in self.unit.buses[:2]:
            self.shares.refuse(self.data_at, column)
            return nothing
        ohm, what = self.shares.half(self.unit, winding.kilovolts), f"at {short(winding.kilovolts)} kV"
        if key == "common_resistance":
            high = self.windings[0].kilovolts
            ohm, ratio = self.shares.half(self.unit, high), high / winding.kilovolts
            what = f"at {short(high)} kV, over ({short(ratio)} - 1)²"
            ohm = None if ohm is None or ratio == 1 else ohm / (ratio - 1) ** 2
        if ohm is None:
            return nothing
        self.shares.tell(self.data_at, column, ohm, what)
        return Field(key, micro_ohm(self.data_at, column, ohm), f"{float(ohm):.6g} ohm per phase, half of R1-2 {what}")

    def neutral(self, windings: Sequence[Winding]) -> list[Field]:
        """What lies between the one neutral of these windings and the ground grid."""
        if any(winding.side.blocked for winding in windings):
            return [Field("neutral", "blocked", "a blocking device between the neutral and the ground grid")]
        ohms = {winding.side.neutral_ohm: winding.name for winding in windings if winding.side.neutral_ohm != 0}
        if len(ohms) > 1:
            self.data_at.wrong("GRDRJ", "one neutral has two resistances, GRDRI and GRDRJ; make them equal, or one 0")
        for ohm, name in list(ohms.items())[:1]:
            self.tell_unusual(f"GRDR{name}", unusual(ohm, usual_at(NEUTRALS, Number(0)), "neutrals", Number(0)))
            return [neutral_field(self.data_at, f"GRDR{name}", ohm)]
        return []

    def rows(self) -> list[Row]:
        """The row of the case for this unit; none where it isn't one."""
        lower = [winding for winding in self.windings if winding.letters == "A"]
        if lower:
            return self.auto(lower[0])
        grounded = [winding for winding in self.windings if winding.letters == GROUNDED]
        if len(grounded) > 1 and not all(winding.side.blocked for winding in grounded):
            grounded = self.unblocked(grounded)
        if not grounded:
            return [self.listed()]
        if len(grounded) == 1:
            return [self.delta_wye(grounded[0])]
        high, low, *others = grounded
        return [self.wye_wye(high, low, others)]

    def unblocked(self, windings: Sequence[Winding]) -> list[Winding]:
        """The windings whose neutral is grounded; the others are told."""
        for winding in windings:
            if winding.side.blocked:
                self.tell(f"the winding at the bus {winding.bus} is blocked: it is left out, and the others stay")
        return [winding for winding in windings if not winding.side.blocked]

    def listed(self) -> Row:
        self.tell(f"{self.name} has no grounded winding: it is listed as delta-delta")
        return Row(self.name, [Field("kind", "delta-delta"), self.rated("high_volts", self.windings[0])], self.note)

    def rated(self, key: str, winding: Winding) -> Field:
        return Field(key, volts(self.at, winding.kilovolts))

    def side(self, end: str, winding: Winding) -> list[Field]:
        return [self.rated(f"{end}_volts", winding), Field(end, self.bus_name(winding.bus))]

    def tell_of_high(self, winding: Winding) -> None:
        """Tells where the winding that becomes the high side isn't the one of the highest voltage."""
        if winding.kilovolts < self.windings[0].kilovolts:
            what = f"the winding at the bus {winding.bus} is its high side here, and its verdict means nothing"
            self.tell(f"{self.name} isn't grounded at its highest voltage: {what}")

    def delta_wye(self, winding: Winding) -> Row:
        self.tell_of_high(winding)
        fields = [Field("kind", "delta-wye"), *self.side("high", winding)]
        return Row(
            self.name, [*fields, self.resistance("high_resistance", winding), *self.neutral([winding])], self.note
        )

    def refuse_resistors(self, windings: Sequence[Winding]) -> None:
        for winding in windings:
            if winding.side.neutral_ohm != 0:
                words = "a resistor in one of several neutrals has no key in a case, which joins them"
                ways = f"make it 0, and WR{winding.name} greater by three times it"
                self.data_at.wrong(f"GRDR{winding.name}", f"{words}; {ways}")

    def wye_wye(self, high: Winding, low: Winding, others: Sequence[Winding]) -> Row:
        self.tell_of_high(high)
        words = two_transmission_voltages(high.kilovolts, low.kilovolts)
        if words is not None:
            self.tell(f"{self.name}: {words}; look at its vector group")
        self.refuse_resistors((high, low))
        fields = [Field("kind", "wye-wye"), *self.side("high", high), *self.side("low", low)]
        fields += [self.resistance("high_resistance", high), self.resistance("low_resistance", low)]
        third = self.third("wye-wye", others)
        return Row(self.name, [*(with_third(fields, third) if third else fields), *self.floating(high)], self.note)

    def floating(self, winding: Winding) -> list[Field]:
        """The one neutral of wyes of which none is grounded; where one is, the windings that are blocked aren't among them."""
        if not winding.side.blocked:
            return []
        self.tell(f"all neutrals of {self.name} are blocked: its windings stay joined at one floating neutral, as in a case")
        return [Field("neutral", "blocked", FLOATING)]

    def auto(self, low: Winding) -> list[Row]:
        high = self.windings[0]
        if high is low or high.letters not in ("Y", GROUNDED):
            words = "the letter A is not of the highest voltage, and that one has YN or Y; write YNa.."
            self.data_at.wrong("VECGRP", words)
            return []
        fields = [Field("kind", "auto"), *self.side("high", high), *self.side("low", low)]
        fields += [self.resistance("series_resistance", high), self.resistance("common_resistance", low)]
        note = self.note
        if high.letters == "Y":
            neutral, note = [Field("neutral", "blocked", "its neutral is not grounded")], note or "its neutral is not grounded"
        else:
            neutral = self.neutral([high, low])
        others = [winding for winding in self.windings[1:] if winding is not low and winding.letters == GROUNDED]
        third = self.third("auto", self.unblocked(others))
        if third and neutral:
            words = f"the neutral of {self.name} has a device or no ground, and a case joins that of its third winding"
            ways = f"make a resistor 0, and WR{low.name} greater by three times it, or leave the winding out by --beyond=leave"
            self.data_at.wrong(None, f"{words} to it; {ways}")
        return [Row(self.name, [*(with_third(fields, third) if third else fields), *neutral], note)]

    def third(self, kind: str, windings: Sequence[Winding]) -> list[Field]:
        """A third grounded winding, where there is one and it is written."""
        for winding in windings:
            words = f"the third grounded winding of {self.name}, at the bus {winding.bus},"
            if self.beyond.takes(self.at, words, f"the third one of a unit of kind {THREE_SIDED[kind]}"):
                self.refuse_resistors((winding,))
                return [*self.side("third", winding), self.resistance("third_resistance", winding)]
        return []
