"""`gicdesk from-powermodels`: data in other units, of one file twice, changed over, or with voltages that fit no span are refused
or told. The data are those of ten.py."""

import json
import random
import unittest
from collections.abc import Callable
from typing import Any

import ten
from shared import DeskTest, desk

from gicdesk.places import degrees_between
from gicdesk.powermodels_reading import LineFacts, Reading, resistance_note, typical
from gicdesk.powermodels_spans import loop_notes

Data = dict[str, Any]


class ReadingTest(DeskTest):
    def files(self, change: Callable[[Data], object] = lambda data: None, field: float = 1.0, places: bool = False) -> list[object]:
        """The words of both files, each with the change."""
        files: list[object] = []
        for way, name in enumerate(("north", "east")):
            data = ten.powermodels(way, field, places)
            change(data)
            files.append(self.file(f"{name}.json", json.dumps(data)))
        return ["from-powermodels", *files, f"--out={self.folder / 'case.toml'}", "--force"]

    def told(self, words: list[object]) -> str:
        out = self.done(*words).replace(f"{self.folder}/", "")
        self.case = (self.folder / "case.toml").read_text()
        return out

    def fault(self, words: list[object]) -> list[str]:
        return [line.replace(f"{self.folder}/", "") for line in self.refused(*words)]


class Told(ReadingTest):
    def test_the_units_are_told(self) -> None:
        words = "g_gnd is read in siemens, br_r in ohm of the three phases together, and br_v in volts in a field of 1 V/km"
        out = self.told(self.files())
        self.assertIn(f"north.json: {words}; --grounds, --resistances and --field say it otherwise", out)
        for hint in ("perhaps", "in the other unit", "changed over", "stay open", "stays open", "fit no"):
            self.assertNotIn(hint, out)

    def test_right_data_with_places(self) -> None:
        out = self.told(self.files(places=True))
        for hint in ("perhaps", "in the other unit", "changed over", "open", "fit no", "ends turned"):
            self.assertNotIn(hint, out)

    def test_rated_voltages_of_buses(self) -> None:
        self.told(self.files())
        self.assertIn("high_volts = 500000  # base_kv of hi_bus\n", self.case)
        lines = self.fault(self.files(lambda data: data.pop("bus")))
        self.assertIn("north.json: branch_gmd 1: hi_kv is no number; write one, or base_kv of its hi_bus in a table bus", lines)


class Refused(ReadingTest):
    def test_one_file_twice(self) -> None:
        """Also under another name, and in another order of keys."""
        words = self.files()
        twice = self.file("twice.json", json.dumps(ten.powermodels(0), sort_keys=True))
        for other in (words[1], twice):
            (line,) = self.fault([words[0], words[1], other, *words[3:]])
            self.assertIn("all its voltages are those of north.json; is one file given twice? Write one in 1 V/km to the north", line)

    def test_files_changed_over(self) -> None:
        words = self.files(places=True)
        (line,) = self.fault([words[0], words[2], words[1], *words[3:]])
        self.assertIn("by the places of 15 lines the voltages are those to the east: the two files are changed over", line)

    def test_a_field_of_8_with_places(self) -> None:
        """Alpha times beta would be 8 times 0.68."""
        (line,) = self.fault(self.files(field=8.0, places=True))
        words = "by the lengths of 15 lines alpha times beta would be 5.44, and a case has up to 1.5"
        self.assertIn(f"north.json: {words}; see in which field the voltages are, and give --field=8 or --field=10", line)
        out = self.told([*self.files(field=8.0, places=True), "--field=8"])
        self.assertIn("br_v in volts in a field of 8 V/km", out)
        eight = self.case.partition("\n")[2]
        self.told(self.files(places=True))
        self.assertEqual(self.case.partition("\n")[2], eight)

    def test_kilovolts_for_volts(self) -> None:
        (line,) = self.fault(self.files(field=0.001, places=True))
        self.assertIn("alpha times beta would be 0.00068", line)
        self.assertIn("give --field=0.001", line)

    def test_lengths_do_as_places(self) -> None:
        def add_lengths(data: Data) -> None:
            for name, (start, end, *_) in ten.LINES.items():
                north, east = ten.span(start, end)
                for row in data["gmd_branch"].values():
                    if row["name"] == name:
                        row["len_km"] = (north**2 + east**2) ** 0.5 / 1000

        (line,) = self.fault(self.files(add_lengths, field=8.0))
        self.assertIn("by the lengths of 15 lines alpha times beta would be 5.44", line)

    def test_words_that_are_none(self) -> None:
        for word in ("x", "0", "-1", "1e9", "nan"):
            (line,) = self.fault([*self.files(), f"--field={word}"])
            self.assertEqual(line, f"--field={word}: allowed are numbers above 0 and up to 1000, in V/km")


class Units(ReadingTest):
    @staticmethod
    def per_phase(data: Data) -> None:
        for row in data["gmd_branch"].values():
            if not row["name"].endswith(" neutral"):
                row["br_r"] *= 3

    def test_resistances_of_one_phase(self) -> None:
        out = self.told(self.files(self.per_phase, places=True))
        self.assertIn("perhaps br_r is of one phase: then give --resistances=phase", out)
        out = self.told([*self.files(self.per_phase, places=True), "--resistances=phase"])
        self.assertIn("br_r in ohm of one phase", out)
        self.assertNotIn("perhaps", out)
        phase = self.values()
        self.told(self.files(places=True))
        self.assertEqual(self.values(), phase)

    def values(self) -> list[str]:
        """The lines of the case without their remarks."""
        return [line.partition("  #")[0] for line in self.case.splitlines() if not line.startswith("#")]

    def test_a_field_of_8_without_places(self) -> None:
        out = self.told(self.files(field=8.0))
        self.assertIn("perhaps the voltages are in a field of 8 V/km: then give --field=8", out)

    def test_grounds_in_ohm(self) -> None:
        def in_ohm(data: Data) -> None:
            for row in data["gmd_bus"].values():
                row["g_gnd"] = 1 / row["g_gnd"] if row["g_gnd"] else 0.0

        out = self.told(self.files(in_ohm))
        self.assertIn("the middle one of 9 grounds has 3.704 ohm, and in the other unit 0.27; if g_gnd is in ohm, give --grounds=ohm", out)
        out = self.told([*self.files(in_ohm), "--grounds=ohm"])
        self.assertIn("g_gnd is read in ohm", out)
        self.assertNotIn("in the other unit", out)
        ohm = self.values()
        self.told(self.files())
        self.assertEqual(self.values(), ohm)

    def test_a_power_of_ten_of_resistances(self) -> None:
        def milli(data: Data) -> None:
            for row in data["gmd_branch"].values():
                row["br_r"] *= 10

        self.assertIn("perhaps they are in another unit, by a power of ten", self.told(self.files(milli, places=True)))

    def test_what_usual_resistances_say(self) -> None:
        lines = [
            LineFacts(str(place), "L", "a", "b", (50.0, 20.0), 60 * typical(345), 345.0, (60.0, 10.0 + place), None) for place in range(5)
        ]
        self.assertIsNone(resistance_note(lines, Reading()))
        self.assertIsNone(resistance_note(lines[:2], Reading()))


class Spans(ReadingTest):
    def turned(self, name: str, sides: tuple[int, ...]) -> list[object]:
        files: list[object] = []
        for way, file in enumerate(("north", "east")):
            data = ten.powermodels(way, 1.0, self.places)
            for row in data["gmd_branch"].values():
                if row["name"] == name and way in sides:
                    row["br_v"] *= -1
            files.append(self.file(f"{file}.json", json.dumps(data)))
        return ["from-powermodels", *files, f"--out={self.folder / 'case.toml'}", "--force"]

    def test_one_voltage_with_another_sign(self) -> None:
        self.places = True
        out = self.told(self.turned("A-B", (1,)))
        self.assertIn("(A-B): its two voltages fit no one span: ", out)
        out = self.told(self.turned("A-B", (0, 1)))
        self.assertIn("(A-B): its voltages are those of the line the other way: ", out)

    def test_a_loop_that_stays_open(self) -> None:
        self.places = False
        out = self.told(self.turned("A-B", (0, 1)))
        self.assertRegex(out, "closed by .*, stay open: is a voltage wrong, or do its lines lie in zones of other alpha and beta")
        out = self.told(self.turned("", ()))
        self.assertNotIn("open", out)

    def test_files_changed_over_without_places(self) -> None:
        """Meridians converge: in a ring of long lines the loops stay open to the east alone."""
        corners = {"a": (50.0, -100.0), "b": (52.0, -100.0), "c": (52.0, -96.0), "d": (50.0, -96.0), "e": (54.0, -100.0), "f": (54.0, -96.0)}
        rings = ("ab", "bc", "cd", "da", "be", "ef", "fc", "ac", "bf")
        lines = []
        for name in rings:
            volts = tuple(0.5 * metres / 1000 for metres in degrees_between(corners[name[0]], corners[name[1]]))
            lines.append(LineFacts(name, name, name[0], name[1], (volts[0], volts[1]), 1.0, None, None, None))
        self.assertNotIn("changed over", " ".join(loop_notes(lines)))
        changed = [LineFacts(one.index, one.name, one.start, one.end, (one.volts[1], one.volts[0]), 1.0, None, None, None) for one in lines]
        self.assertIn("are the two files changed over?", " ".join(loop_notes(changed)))


class OfTheDesk(ReadingTest):
    """The field that the desk writes into its data."""

    def with_fields(self, north: dict[str, int], east: dict[str, int], field: float = 1.0) -> list[object]:
        files: list[object] = []
        for way, given in enumerate((north, east)):
            data = ten.powermodels(way, field) | {"gicdesk_field": given}
            files.append(self.file(f"{'east' if way else 'north'}.json", json.dumps(data)))
        return ["from-powermodels", *files, f"--out={self.folder / 'case.toml'}", "--force"]

    def test_the_field_of_the_data(self) -> None:
        out = self.told(self.with_fields({"north": 8000, "east": 0}, {"north": 0, "east": 8000}, 8.0))
        self.assertIn("br_v in volts in a field of 8 V/km", out)

    def test_fields_that_do_not_fit_each_other(self) -> None:
        (line,) = self.fault(self.with_fields({"north": 0, "east": 1000}, {"north": 1000, "east": 0}))
        self.assertIn("north.json: its field is to the east, and that of east.json to the north; change the two files over", line.replace(f"{self.folder}/", ""))
        for north, east in (((1000, 0), (0, 8000)), ((1000, 1000), (0, 1000)), ((-1000, 0), (0, -1000))):
            fields = [dict(zip(("north", "east"), one)) for one in (north, east)]
            (line,) = self.fault(self.with_fields(fields[0], fields[1]))
            self.assertIn("aren't as strong, one to the north and one to the east", line)


class Odd(ReadingTest):
    VALUES: tuple[object, ...] = (None, -1, 0, 1, 1e300, 1e-310, -5.0, "", "x", True, [], {}, 0.25, {"north": "x"}, {"north": 1000})

    def test_nothing_ends_in_a_traceback(self) -> None:
        """Whatever stands in the tables beside those of a case, and in these."""
        drawn = random.Random(5)
        for _ in range(120):
            datas = [ten.powermodels(way, 1.0, True) | {"gicdesk_field": {"north": 1000 * (1 - way), "east": 1000 * way}} for way in (0, 1)]
            table = drawn.choice(list(datas[0]))
            for _ in range(drawn.choice((1, 2, 5))):
                self.spoil(drawn, datas, table)
            files = [self.file(f"{way}.json", json.dumps(data)) for way, data in enumerate(datas)]
            option = drawn.choice(("--grounds=siemens", "--grounds=ohm", "--resistances=phase", "--field=8"))
            status, _, _ = desk("from-powermodels", *files, f"--out={self.folder / 'case.toml'}", "--force", option)
            self.assertIn(status, (0, 1))

    def spoil(self, drawn: random.Random, datas: list[Data], table: str) -> None:
        value, is_whole, is_first = json.dumps(drawn.choice(self.VALUES)), drawn.random() < 0.1, drawn.random() < 0.1
        for data in datas:
            rows = data[table]
            if is_whole or not isinstance(rows, dict) or not rows:
                data[table] = json.loads(value)
                continue
            index = sorted(rows)[0 if is_first else len(rows) // 2]
            row = rows[index]
            if isinstance(row, dict) and row:
                row[sorted(row)[len(row) // 3]] = json.loads(value)
            else:
                rows[index] = json.loads(value)


if __name__ == "__main__":
    unittest.main()
