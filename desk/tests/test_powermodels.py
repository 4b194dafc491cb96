"""`gicdesk powermodels`: the data alone, solved by a plain solver, has the potentials and currents of the program."""

import json
import random
import subprocess
import unittest
from collections.abc import Callable
from pathlib import Path
from typing import Any

from plain import solved
from shared import BUILT, EXAMPLES, TESTS, DeskTest, desk

from gicdesk.powermodels_read import scale_of

NORTH, EAST = 6000, -5000
ROLES = ("line", "high", "series", "neutral")
LONG = "a number of 5000 digits"
VALUES: tuple[object, ...] = (None, -1, 0, 1, 3, 1e300, 1e-310, -5.0, LONG, "", "x", True, [], {}, 0.25)


def with_long(data: object) -> str:
    """Data as JSON, with the number in the place of its words."""
    return json.dumps(data).replace(f'"{LONG}"', "9" * 5000)


def potentials(data: dict[str, Any]) -> dict[int, float]:
    """The potential of each node in volts, with (v_from + br_v - v_to) / br_r in each branch."""
    nodes = [row["index"] for row in data["gmd_bus"].values()]
    place = {index: number for number, index in enumerate(nodes)}
    matrix = [[0.0] * len(nodes) for _ in nodes]
    right = [[0.0] for _ in nodes]
    for row in data["gmd_bus"].values():
        matrix[place[row["index"]]][place[row["index"]]] += row["g_gnd"]
    for row in data["gmd_branch"].values():
        ends = place[row["f_bus"]], place[row["t_bus"]]
        for node, other, sign in ((*ends, -1), (ends[1], ends[0], 1)):
            matrix[node][node] += 1 / row["br_r"]
            matrix[node][other] -= 1 / row["br_r"]
            right[node][0] += sign * row["br_v"] / row["br_r"]
    return {index: volts for index, (volts,) in zip(nodes, solved(matrix, right))}


@unittest.skipUnless(BUILT.is_file(), "no program is built")
class PowerModels(DeskTest):
    def data(self, case: object, *words: object) -> dict[str, Any]:
        out = self.folder / "net.json"
        self.done("powermodels", case, f"--program={BUILT}", f"--out={out}", "--force", *words)
        read: dict[str, Any] = json.loads(out.read_text())
        return read

    def test_the_currents_are_those_of_the_program(self) -> None:
        data = self.data(EXAMPLES / "region.toml", f"--north={NORTH}", f"--east={EAST}")
        found = potentials(data)
        words = [str(BUILT), "field", f"--case={EXAMPLES / 'region.toml'}", f"--north={NORTH}", f"--east={EAST}"]
        printed = subprocess.run(words, capture_output=True, text=True, check=True).stdout.splitlines()
        rows = [line.split(" ") for line in printed]
        volts = {row["name"]: found[row["index"]] for row in data["gmd_bus"].values()}
        nodes = [(row[1], int(row[2]) / 1000, int(row[3]) / 1000) for row in rows if row[0] == "node" and len(row) == 4]
        self.assertEqual({name for name, _, _ in nodes}, set(volts))
        for name, low, high in nodes:
            self.assertTrue(low - 1e-6 <= volts[name] <= high + 1e-6, (name, low, volts[name], high))
        branches = {row["name"]: row for row in data["gmd_branch"].values()}
        lines = [row for row in rows if row[0] == "line" and len(row) == 4]
        self.assertEqual({f"{row[1]} line" for row in lines}, {name for name in branches if name.endswith(" line")})
        for _, name, low_text, high_text in lines:
            row = branches[f"{name} line"]
            current = (found[row["f_bus"]] + row["br_v"] - found[row["t_bus"]]) / row["br_r"]
            self.assertTrue(int(low_text) / 1000 - 1e-6 <= current <= int(high_text) / 1000 + 1e-6, (name, current))

    def test_units_have_their_windings(self) -> None:
        data = self.data(EXAMPLES / "region.toml")
        names = {row["index"]: row["name"] for row in data["gmd_branch"].values()}
        units = {row["name"]: row for row in data["branch_gmd"].values()}
        auto, wye = units["KS-A2"], units["MF-T1"]
        self.assertEqual((auto["config"], names[auto["gmd_br_series"]], names[auto["gmd_br_common"]]),
                         ("gwye-gwye-auto", "KS-A2 series", "KS-A2 common"))  # fmt: skip
        self.assertEqual((wye["config"], names[wye["gmd_br_hi"]], names[wye["gmd_br_lo"]]), ("gwye-gwye", "MF-T1 high", "MF-T1 low"))
        self.assertEqual((auto["gmd_br_hi"], auto["hi_bus"]), (-1, -1))
        self.assertEqual((units["OR-L1"]["config"], units["OR-L1"]["gmd_br_hi"]), ("delta-delta", -1))

    def test_numbers_and_places_of_a_power_flow(self) -> None:
        pair, case = TESTS / "pair", self.folder / "made.toml"
        files = [pair / "region.raw", pair / "region.gic", f"--zones={pair / 'zones.csv'}", f"--lines={pair / 'lines.csv'}"]
        self.done("psse", *files, f"--out={case}")
        table = self.folder / "made.names.csv"
        data = self.data(case, f"--names={table}", f"--places={table}")
        unit = next(row for row in data["branch_gmd"].values() if row["name"] == "LK-A1")
        self.assertEqual((unit["hi_bus"], unit["lo_bus"]), (103, 104))
        bus = next(row for row in data["bus_gmd"].values() if row["parent_index"] == 103)
        self.assertEqual((bus["lat"], bus["lon"]), (50.3, -38.6))

    def test_a_case_that_the_program_refuses(self) -> None:
        (line,) = self.refused(
            "powermodels", self.file("case.toml", "format = 9\n"), f"--program={BUILT}", f"--out={self.folder / 'x.json'}"
        )
        self.assertIn("case.toml", line)


class Scales(unittest.TestCase):
    def test_the_greatest_one_that_divides_both(self) -> None:
        # 111221 m to the south and 3301 m to the east, of which nothing divides both, at a scale of 680.
        self.assertEqual(scale_of(-111221 * 680, 3301 * 680), 680)
        for north, east in ((-111221 * 680, 3300 * 680), (100000 * 64, 0), (0, 0), (1_000_000 * 1500, 7 * 1500)):
            scale = scale_of(north, east)
            self.assertEqual((north % scale, east % scale), (0, 0))
            self.assertLessEqual(max(abs(north), abs(east)), 1_000_000 * scale)
        self.assertEqual(scale_of(999_983 * 1511, 1), 1500)


@unittest.skipUnless(BUILT.is_file(), "no program is built")
class Back(DeskTest):
    def written(self, case: object) -> list[str]:
        """The data of both fields."""
        files = []
        for name, field in (("north", "--north=1000"), ("east", "--east=1000")):
            out = self.folder / f"{name}.json"
            words = [field] if name == "north" else ["--north=0", field]
            self.done("powermodels", case, *words, f"--program={BUILT}", f"--out={out}", "--force")
            files.append(str(out))
        return files

    def screen(self, case: object) -> str:
        return subprocess.run([str(BUILT), "screen", f"--case={case}"], capture_output=True, text=True, check=True).stdout

    def test_the_screen_of_a_case_that_is_read_back(self) -> None:
        """Name for name and digit for digit that of the case it was written of; with a blocked neutral and resistors too."""
        for name in ("region.toml", "valley.toml"):
            out = self.folder / name
            self.done("from-powermodels", *self.written(EXAMPLES / name), f"--out={out}")
            self.assertEqual(self.screen(out), self.screen(EXAMPLES / name), name)

    def test_what_a_case_does_not_come_of_is_refused(self) -> None:
        files = self.written(EXAMPLES / "region.toml")
        north = json.loads((self.folder / "north.json").read_text())
        out = f"--out={self.folder / 'case.toml'}"
        changes: list[tuple[Callable[[Any], object], str]] = [
            (lambda data: data["branch_gmd"]["1"].pop("hi_kv"), "branch_gmd 1: hi_kv is no number; write one"),
            (lambda data: data["branch_gmd"]["1"].update(config="wye"), "branch_gmd 1: its config is none of gwye-delta,"),
            (lambda data: data["gmd_branch"]["1"].update(f_bus=9999), "gmd_branch 1: f_bus or t_bus is no row of gmd_bus"),
            (lambda data: data["gmd_branch"]["1"].update(br_r="x"), "gmd_branch 1: br_r is no number; write one"),
            (lambda data: data["branch_gmd"].pop("1"), "it is no winding of a unit, and no line between two buses"),
            (lambda data: data.pop("gmd_bus"), "it has no table gmd_bus of rows by their indices; write one"),
        ]
        for change, words in changes:
            self.assertIn(words, "\n".join(self.changed(files, change)))
        (self.folder / "north.json").write_text("{")
        self.assertIn("it is no JSON", self.refused("from-powermodels", *files, out)[0])
        other = self.written(EXAMPLES / "valley.toml")[0]
        (self.folder / "east.json").write_text(json.dumps(north))
        self.assertIn("isn't that of", self.refused("from-powermodels", other, files[1], out)[0])

    def changed(self, files: list[str], change: Callable[[Any], object], write: Callable[[Any], str] = json.dumps) -> list[str]:
        """The refusal of the data with a change in both files."""
        texts = [Path(file).read_text() for file in files]
        for file, text in zip(files, texts):
            data = json.loads(text)
            change(data)
            Path(file).write_text(write(data))
        try:
            return self.refused("from-powermodels", *files, f"--out={self.folder / 'case.toml'}")
        finally:
            for file, text in zip(files, texts):
                Path(file).write_text(text)

    def test_grounds_that_a_case_does_not_have(self) -> None:
        files = self.written(EXAMPLES / "valley.toml")
        for siemens in (-5.0, 1e-310, 0.00099, 1001):
            lines = self.changed(files, lambda data: data["gmd_bus"]["1"].update(g_gnd=siemens))
            words = f"g_gnd is {siemens:g}, and a ground of a case has 0.001 to 1000 ohm"
            self.assertIn(f"{files[0]}: gmd_bus 1: {words}; write 1 over its ohm, or 0 where there is none", lines)

    def test_windings_that_do_not_fit_each_other(self) -> None:
        files = self.written(EXAMPLES / "region.toml")
        data = json.loads(Path(files[0]).read_text())
        units = {row["config"]: (index, row) for index, row in data["branch_gmd"].items()}
        for config, key, end, words in (
            ("gwye-gwye", "gmd_br_lo", "t_bus", "its windings end at two nodes; both end (t_bus) at its neutral, or at the ground of"),
            ("gwye-gwye-auto", "gmd_br_series", "t_bus", "its series winding ends (t_bus) at another bus than its common one begins"),
            ("gwye-gwye-auto", "gmd_br_common", "f_bus", "its series winding ends (t_bus) at another bus than its common one begins"),
        ):
            unit, row = units[config]
            winding = str(row[key])
            other = next(row["index"] for row in data["gmd_bus"].values() if row["index"] != data["gmd_branch"][winding][end])
            lines = self.changed(files, lambda data: data["gmd_branch"][winding].update({end: other}))
            self.assertIn(f"{files[0]}: branch_gmd {unit}: {words}", "\n".join(lines))

    def test_files_of_two_networks(self) -> None:
        """They have the same branches, but for the voltages of lines; windings and resistors of neutrals have none."""
        files = self.written(EXAMPLES / "region.toml")
        east = json.loads(Path(files[1]).read_text())
        at = {name: next(index for index, row in east["gmd_branch"].items() if row["name"].endswith(name)) for name in ROLES}
        for key, value in (("name", "x"), ("f_bus", 3), ("t_bus", 4), ("br_r", 0.5)):
            data = json.loads(json.dumps(east))
            data["gmd_branch"][at["line"]][key] = value
            (self.folder / "other.json").write_text(json.dumps(data))
            (line,) = self.refused("from-powermodels", files[0], self.folder / "other.json", f"--out={self.folder / 'case.toml'}")
            words = f"its gmd_branch isn't that of {files[0]}, as row {at['line']}; write both of one network"
            self.assertEqual(line, f"{self.folder / 'other.json'}: {words}")
        for role in ROLES[1:]:
            lines = self.changed(files, lambda data: data["gmd_branch"][at[role]].update(br_v=0.5))
            words = "br_v isn't 0, and in a case lines alone have a voltage; make it 0, as it is of windings"
            self.assertEqual(lines, [f"{file}: gmd_branch {at[role]}: {words}" for file in files])

    def test_grounds_and_units_of_two_networks(self) -> None:
        """Both files have the same grounds and the same units."""
        files = self.written(EXAMPLES / "region.toml")
        for table, key, value in (("gmd_bus", "g_gnd", 7.5), ("gmd_bus", "name", "x"), ("branch_gmd", "hi_kv", 1.0)):
            data = json.loads(Path(files[1]).read_text())
            data[table]["2"][key] = value
            (self.folder / "other.json").write_text(json.dumps(data))
            (line,) = self.refused("from-powermodels", files[0], self.folder / "other.json", f"--out={self.folder / 'case.toml'}")
            words = f"its {table} isn't that of {files[0]}, as row 2; write both of one network"
            self.assertEqual(line, f"{self.folder / 'other.json'}: {words}")

    def test_a_resistor_of_a_neutral_that_a_case_does_not_have(self) -> None:
        files = self.written(EXAMPLES / "region.toml")
        rows = json.loads(Path(files[0]).read_text())["gmd_branch"]
        index = next(index for index, row in rows.items() if row["name"].endswith(" neutral"))
        for ohm, is_taken in ((0.0009, False), (0.001, True), (1000, True), (1001, False)):
            words = f"{files[0]}: gmd_branch {index}: br_r is {ohm:g} ohm, and a neutral resistor of a case has 0.001 to 1000"
            if not is_taken:
                self.assertIn(words, self.changed(files, lambda data: data["gmd_branch"][index].update(br_r=ohm)))

    def test_a_number_of_5000_digits(self) -> None:
        files = self.written(EXAMPLES / "valley.toml")
        (line,) = self.changed(files, lambda data: data["gmd_bus"]["1"].update(g_gnd=LONG), with_long)
        self.assertIn(f"{files[0]}: it is no JSON (", line)

    def test_what_is_out_of_service_is_refused(self) -> None:
        """In either file; without a status a row is in service."""
        files = self.written(EXAMPLES / "valley.toml")
        out = f"--out={self.folder / 'case.toml'}"
        for file in files:
            text = Path(file).read_text()
            for table, key in (("gmd_bus", "status"), ("gmd_branch", "br_status"), ("branch_gmd", "br_status")):
                data = json.loads(text)
                data[table]["1"][key] = 0
                Path(file).write_text(json.dumps(data))
                (line,) = self.refused("from-powermodels", *files, out, "--force")
                words = f"{key} is not 1: it is out of service, which a case has no key for; leave it out of the data"
                self.assertEqual(line, f"{file}: {table} 1: {words}")
                data[table]["1"].pop(key)
                Path(file).write_text(json.dumps(data))
                self.done("from-powermodels", *files, out, "--force")
            Path(file).write_text(text)

    def test_nothing_ends_in_a_traceback(self) -> None:
        files = self.written(EXAMPLES / "valley.toml")
        north, east = json.loads(Path(files[0]).read_text()), Path(files[1]).read_text()
        drawn = random.Random(11)
        for _ in range(300):
            data = json.loads(json.dumps(north))
            for _ in range(drawn.choice((1, 2, 4))):
                rows = data[drawn.choice(("gmd_bus", "gmd_branch", "branch_gmd"))]
                row = rows[drawn.choice(list(rows))]
                row[drawn.choice(list(row))] = drawn.choice(VALUES)
            text = with_long(data)
            Path(files[0]).write_text(text)
            Path(files[1]).write_text(drawn.choice((text, east)))
            status, _, _ = desk("from-powermodels", *files, f"--out={self.folder / 'case.toml'}", "--force")
            self.assertIn(status, (0, 1))
