"""Questions about what no rule forbids and few networks have: none about right networks, and each about a network of 80 stations with
the mistake planted in it. None keeps a case from being made."""

import random
import unittest
from collections.abc import Callable

from right import Cells, Tables, right_tables, texts_of
from shared import EXAMPLES, TESTS, DeskTest

from gicdesk.case_rows import case_of
from gicdesk.doubt_lines import Line, greater_lines
from gicdesk.doubts import doubts_of
from gicdesk.findings import Finding
from gicdesk.inputs import Input
from gicdesk.latitudes import latitude_off
from gicdesk.psse_raw import read_raw
from gicdesk.seen import Seen, kilovolts_of, remarks_of
from gicdesk.sources import read_sources
from gicdesk.study_seen import seen_case
from gicdesk.usual import Number

SIZES = (12, 20, 30, 45, 60)  # stations of right networks, of which there are twenty
STATIONS, SEED = 80, 3  # of the network in which mistakes are planted; its names say the stations

Plant = Callable[[Tables], None]


def seen_in(text: bytes) -> list[str]:
    """The questions about a case alone, as `study` has them."""
    case = case_of("case.toml", text)
    return [doubt.text for doubt in doubts_of(Seen(case, kilovolts_of(case), notes=remarks_of(text), is_made=False))]


class DoubtsTest(DeskTest):
    def told(self, tables: Tables) -> list[str]:
        """What `case` tells of tables, which it takes."""
        folder = self.folder / "tables"
        folder.mkdir(exist_ok=True)
        for name, text in texts_of(tables).items():
            (folder / f"{name}.csv").write_text(text)
        self.out = self.folder / "case.toml"
        *lines, last = self.done("case", folder, f"--out={self.out}", "--sources", "--force").splitlines()
        self.assertEqual(last, f"{self.out} is made")
        self.assertIn("intervals hold for this case", lines.pop())
        return [line.replace(f"{folder}/", "") for line in lines]

    def seen_beside(self, tables: Tables) -> list[str]:
        """The questions about the case as `study` has them with the tables of places and of sources."""
        given = Input("case", "case.toml", self.out.read_bytes())
        case, findings = case_of(given.name, given.data), list[Finding]()
        names = [row.name for rows in case.lists.values() for row in rows]
        sources = read_sources("sources", names, findings, (self.folder / "case.sources.csv").read_bytes())
        places = {row["name"]: (float(row["latitude"]), float(row["longitude"])) for row in tables["substations"]}
        self.assertEqual(findings, [])
        return [doubt.text for doubt in doubts_of(seen_case(given, places, sources))]


class Right(DoubtsTest):
    def test_no_question_about_twenty_right_networks(self) -> None:
        """Neither of the tables nor of the case that is made of them, alone and with its places and sources."""
        asked = {}
        for seed in range(20):
            tables = right_tables(seed, SIZES[seed % len(SIZES)])
            asked[seed] = self.told(tables) + seen_in(self.out.read_bytes()) + self.seen_beside(tables)
        self.assertEqual({seed: lines for seed, lines in asked.items() if lines}, {})

    def test_no_question_about_the_examples(self) -> None:
        paths = sorted(EXAMPLES.glob("*.toml"))
        self.assertEqual({path.name: found for path in paths if (found := seen_in(path.read_bytes()))}, {})
        self.assertEqual(self.done("case", EXAMPLES / "tables", f"--out={self.folder / 'region.toml'}").count("\n"), 2)  # (the rounding)


def units(tables: Tables, **cells: str) -> list[Cells]:
    """The rows of units with these cells."""
    return [row for row in tables["transformers"] if all(row[key] == value for key, value in cells.items())]


def set_all(rows: list[Cells], **cells: str) -> None:
    for row in rows:
        row.update(cells)


def a_wye(tables: Tables) -> Cells:
    """A step-up unit without a device."""
    return units(tables, kind="delta-wye", neutral="", parallel="", note="")[0]


def three_equal(tables: Tables) -> None:
    unit = units(tables, kind="auto")[0]
    tables["transformers"] += [unit | {"name": f"{unit['name']}{letter}"} for letter in "bc"]
    unit["name"] += "a"


def equal_grounds(tables: Tables) -> None:
    set_all([row for row in tables["substations"] if row["ground_ohm"]], ground_ohm="0.25")


def times_three(tables: Tables) -> None:
    for row in tables["substations"]:
        row["ground_ohm"] = f"{3 * float(row['ground_ohm']):g}" if row["ground_ohm"] else ""


def latitude_off_by_two(tables: Tables) -> None:
    row = tables["zones"][0]
    row["geomagnetic_latitude"] = f"{float(row['geomagnetic_latitude']) + 4.5:.1f}"


def beta_without_a_model(tables: Tables) -> None:
    set_all(tables["zones"], earth_model="")


def neutral(ohm: str) -> Plant:
    return lambda tables: a_wye(tables).update(neutral=ohm)


def at_another_station(tables: Tables) -> None:
    """A unit at the bus of another station with the same voltage."""
    unit = next(row for row in units(tables, kind="delta-wye") if row["high"].endswith("-345"))
    other = [row["name"] for row in tables["buses"] if row["kv"] == "345" and row["name"] != unit["high"]]
    unit["high"] = random.Random(1).choice(other)


def dead_end(tables: Tables) -> None:
    """A bus of 345 kV keeps one of its lines."""
    autos = {row[end] for row in units(tables, kind="auto") for end in ("high", "low")}
    bus = next(row["high"] for row in units(tables, kind="delta-wye") if row["high"].endswith("-345") and row["high"] not in autos)
    for line in [row for row in tables["lines"] if bus in (row["from"], row["to"])][1:]:
        tables["lines"].remove(line)


def step_up_as_reactor(tables: Tables) -> None:
    unit = next(row for row in units(tables, kind="delta-wye", parallel="", neutral="") if row["high"].endswith(("-345", "-500")))
    unit.update(kind="reactor", high_kv="", vector_group="")


def step_up_as_delta(tables: Tables) -> None:
    unit = next(row for row in units(tables, kind="delta-wye", parallel="", neutral="") if row["high"].endswith(("-345", "-500")))
    unit.update(kind="delta-delta", high_ohm="", vector_group="")


def alternating(tables: Tables) -> None:
    """Some lines of the network, of which resistances are the length times that of the conductor, have 15 per cent more."""
    for row in tables["lines"][::7]:
        row["ohm"] = f"{1.15 * float(row['ohm']):.4g}"


def ground_without_a_unit(tables: Tables) -> None:
    """The units of a station of 138 kV are forgotten."""
    bus = next(row["high"] for row in units(tables, kind="delta-wye") if row["high"].endswith("-138"))
    tables["transformers"][:] = [row for row in tables["transformers"] if bus not in (row["high"], row["low"])]


# What is planted, and what is asked: of a network of 80 stations, where a seed doesn't say otherwise.
MISTAKES: tuple[tuple[str, Plant, str, int], ...] = (
    ("three equal rows of a bank", three_equal, "are 3 equal units at the same buses: is it a bank of single-phase units", SEED),
    ("one number in every ground", equal_grounds, "grounds have 0.25 ohm: was each of them measured, or is it a default?", SEED),
    ("grounds times three", times_three, "times what is usual at their voltages", SEED),
    ("a latitude that is off", latitude_off_by_two, "of its stations as seen from the pole of the earth's dipole: is it that of", SEED),
    ("a beta without a model", beta_without_a_model, "zone east: beta is 0.33, and no earth model is named", SEED),
    ("a resistor of 2 ohm", neutral("2"), "has a neutral resistor of 2 ohm, and few have more than 1 ohm", SEED),
    ("a resistor of 3 milli-ohm", neutral("0.003"), "has a neutral resistor of 0.003 ohm, and few have less than 0.005 ohm", SEED),
    ("a blocked neutral", neutral("blocked"), "is blocked: is a blocking device there, and in service?", SEED),
    ("a unit at another station", at_another_station, "is its bus one of another station?", SEED),
    ("a bus with one line", dead_end, "has one line: is a line missing, or at another bus?", SEED),
    ("a step-up unit as a reactor", step_up_as_reactor, "is it the step-up unit of a generator?", SEED),
    ("a step-up unit as delta-delta", step_up_as_delta, "is it a step-up unit, with a grounded wye?", SEED),
    ("resistances for alternating current", alternating, "is it the resistance for alternating current", 4),
    ("a station without its units", ground_without_a_unit, "has a ground and no transformer: switching stations", SEED),
)


class Planted(DoubtsTest):
    def test_each_mistake_is_asked_about(self) -> None:
        for what, plant, words, seed in MISTAKES:
            with self.subTest(what):
                tables = right_tables(seed, STATIONS)
                plant(tables)
                lines = self.told(tables)
                self.assertTrue(any(words in line for line in lines), lines)

    def test_nothing_is_asked_without_them(self) -> None:
        for seed in {seed for *_, seed in MISTAKES}:
            self.assertEqual(self.told(right_tables(seed, STATIONS)), [])

    def test_a_note_answers(self) -> None:
        tables = right_tables(SEED, STATIONS)
        unit = a_wye(tables)
        unit.update(neutral="blocked", note="a step-up unit")
        self.assertEqual(len(self.told(tables)), 1)
        for note in ("with a blocking device", "Checked in 2025"):
            unit["note"] = note
            self.assertEqual(self.told(tables), [])
            self.assertEqual(seen_in(self.out.read_bytes()), [])


class Studies(DoubtsTest):
    def test_zones_are_asked_about_by_the_table_of_sources(self) -> None:
        """The case has another latitude and another beta, since alpha is by the formula."""
        tables = right_tables(SEED, STATIONS)
        latitude_off_by_two(tables)
        beta_without_a_model(tables)
        self.told(tables)
        self.assertEqual(seen_in(self.out.read_bytes()), [])
        asked = self.seen_beside(tables)
        self.assertEqual([text.partition(":")[0] for text in asked], ["zone west", "zone east"])


class Parts(unittest.TestCase):
    def test_remarks_of_rows(self) -> None:
        text = b"""[[transformer]]  # at the head
name = "T1"
neutral = "blocked"  # not this one
[[transformer]]
name = "T2"  # behind the name
transformer = [
  { name = "T3", kind = "auto" },  # behind the row
  { name = "T4", kind = "auto" },
]
"""
        expected = {"T1": "at the head", "T2": "behind the name", "T3": "behind the row", "T4": ""}
        self.assertEqual(remarks_of(text), expected)

    def test_kilovolts_by_units_and_lines(self) -> None:
        path = EXAMPLES / "region.toml"
        found = kilovolts_of(case_of(str(path), path.read_bytes()))
        self.assertEqual(found, {name: float(name.rpartition("-")[2]) for name in found})
        self.assertEqual(len(found), 34)

    def test_latitudes_between_the_two_bounds(self) -> None:
        # 45 degrees to the north and 75.7 to the west lie at 54.19 as seen from the pole.
        place = (Number("45.0"), Number("-75.7"))
        for given, is_asked in ((54.2, False), (55.6, False), (55.8, True), (57.9, True), (58.5, False)):
            self.assertEqual(latitude_off(given, [place]) is not None, is_asked, given)

    def test_resistances_that_were_measured_are_not_asked_about(self) -> None:
        spread = random.Random(7)
        lines = [Line(f"L{place}", 345, 60, 60 * 0.03 * spread.uniform(1, 1.2)) for place in range(60)]
        self.assertEqual(list(greater_lines(lines)), [])
        lines = [Line(f"L{place}", 345, 60 + place, (60 + place) * 0.03) for place in range(20)]
        (found,) = greater_lines([*lines, Line("AC", 345, 80, 80 * 0.0345), Line("other", 345, 80, 80 * 0.04)])
        self.assertEqual((found.names, found.kilovolts), (("AC",), 345))
        self.assertAlmostEqual(found.most, 0.15)


class PowerFlow(DoubtsTest):
    PAIR = TESTS / "pair"

    def told_of(self, gic: str) -> list[str]:
        """What is asked of the pair of the region with these resistances."""
        given, out = self.file("net.gic", gic), self.folder / "case.toml"
        words = (f"--zones={self.PAIR / 'zones.csv'}", f"--lines={self.PAIR / 'lines.csv'}", f"--out={out}", "--force")
        lines = self.done("psse", self.PAIR / "region.raw", given, *words).splitlines()
        return [line.rpartition("/")[2] for line in lines if line.endswith("?")]

    def test_the_questions_of_a_power_flow(self) -> None:
        """Of the region a device and a resistor, and that its resistances of lines are those of the power flow: a file of these
        has no notes."""
        gic = (self.PAIR / "region.gic").read_text()
        self.assertEqual(
            self.told_of(gic),
            [
                "net.gic: GP-G1 has a neutral resistor of 2.5 ohm, and few have more than 1 ohm: is it there, and in ohm?",
                "net.gic: The neutral of KS-A1 is blocked: is a blocking device there, and in service?",
                "region.raw: 38 of 38 lines have the resistance of the power flow (38 have no RBRN), which is mostly that for "
                "alternating current and a warm line, 10 to 20 per cent too much: is that for direct current known?",
            ],
        )

    def test_resistances_that_are_copied_or_of_their_own(self) -> None:
        """The lines of the pair with an RBRN that is the power flow's resistance, and with one that is 12 per cent less."""
        gic = (self.PAIR / "region.gic").read_text()
        findings, notes = list[Finding](), list[Finding]()
        raw = read_raw(str(self.PAIR / "region.raw"), findings, notes)
        head, _, rest = gic.partition("BEGIN BRANCH DATA")
        for factor, is_asked in (("1", True), ("0.88", False)):
            rows = ""
            for branch in raw.branches:
                ohm = branch.resistance * raw.buses[branch.ends[0]].kilovolts ** 2 / raw.base_mva * Number(factor)
                rows += f"{branch.ends[0]},{branch.ends[1]},'{branch.circuit}',{ohm:.6f},0,0,0,0\n"
            told = self.told_of(f"{head}BEGIN BRANCH DATA{rest.partition(chr(10))[0]}\n{rows}{rest.partition(chr(10))[2]}")
            self.assertEqual(any("38 have an RBRN equal to it" in line for line in told), is_asked, told)


if __name__ == "__main__":
    unittest.main()
