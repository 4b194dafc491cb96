"""The same network by tables, by `.raw` 33 and 35 with `.gic`, and by data of PowerModels has the same screen, name for name."""

import pathlib
import subprocess
import tomllib
import unittest
from typing import Any

import plain
import ten
from shared import BUILT, DeskTest

FORMS = ("tables", "raw 33", "raw 35", "powermodels")


class FormsTest(DeskTest):
    def make(self, form: str) -> pathlib.Path:
        """The case of the network in this form."""
        out = self.folder / f"{form.replace(' ', '')}.toml"
        if form == "tables":
            folder = self.folder / "tables"
            folder.mkdir(exist_ok=True)
            for name, text in ten.tables().items():
                (folder / f"{name}.csv").write_text(text)
            self.told = self.done("case", folder, "--alpha=table", f"--out={out}", "--force")
        elif form == "powermodels":
            files = [self.file(f"{name}.json", ten.text(ten.powermodels(way))) for way, name in enumerate(("north", "east"))]
            self.told = self.done("from-powermodels", *files, f"--out={out}", "--force")
        else:
            files = [self.file("net.raw", ten.raw(int(form[-2:]))), self.file("net.gic", ten.gic())]
            zones = f"--zones={self.file('zones.csv', ten.ZONES)}"
            self.told = self.done("psse", *files, zones, "--alpha=table", f"--out={out}", "--force")
        return out

    def cases(self) -> dict[str, dict[str, Any]]:
        return {form: tomllib.loads(self.make(form).read_text()) for form in FORMS}


class Alike(FormsTest):
    def test_units_are_the_same_name_for_name(self) -> None:
        cases = self.cases()
        names = {form: [(row["name"], row["kind"], row["high_volts"]) for row in case["transformer"]] for form, case in cases.items()}
        for form in FORMS[1:]:
            self.assertEqual(names[form], names["tables"], form)

    def test_currents_by_a_plain_solver(self) -> None:
        """Each unit has the same current in both fields, to a millionth of an ampere: no form rounds what another doesn't."""
        found = {
            form: plain.effective_currents(case, lambda _: ten.SCALE) for form, case in self.cases().items() if form != "powermodels"
        }
        powermodels = tomllib.loads(self.make("powermodels").read_text())
        scales = {row["name"]: row["scale"] / 1000 for row in powermodels["zone"]}
        found["powermodels"] = plain.effective_currents(powermodels, scales.__getitem__)
        for form in FORMS[1:]:
            for name, currents in found["tables"].items():
                for one, other in zip(currents, found[form][name]):
                    self.assertAlmostEqual(one, other, 6, (form, name))
        self.assertGreater(sum(plain.worst(one) >= 75 for one in found["tables"].values()), 1)

    def test_what_differs_is_told(self) -> None:
        """A line with a series capacitor carries nothing, and isn't in data of PowerModels; all else of them is there."""
        cases = self.cases()
        capacitors = {row["name"] for row in cases["tables"]["line"] if row.get("blocked")}
        self.assertEqual(capacitors, {"A-C"})
        for form in ("raw 33", "raw 35"):
            self.make(form)
            for words in (
                "E-PS joins two buses of one voltage, and its vector group has a delta: it is taken as a phase shifter",
                "all neutrals of H-T1 are blocked: its windings stay joined at one floating neutral",
                "it is a series capacitor, and blocked",
                "Fir: RG is empty, which is taken as no ground",
            ):
                self.assertIn(words, self.told, form)
        self.make("powermodels")
        self.assertIn("the rated voltages of 10 units are base_kv of their buses", self.told)
        self.assertEqual(len(cases["powermodels"]["line"]), len(cases["tables"]["line"]) - len(capacitors))


@unittest.skipUnless(BUILT.is_file(), "no program is built")
class Screens(FormsTest):
    def test_the_screen_is_the_same_of_each_form(self) -> None:
        screens = {}
        for form in FORMS:
            words = [str(BUILT), "screen", f"--case={self.make(form)}"]
            screens[form] = subprocess.run(words, capture_output=True, text=True, check=True).stdout
        self.assertIn(" reaches\n", screens["tables"])
        for form in FORMS[1:]:
            self.assertEqual(screens[form], screens["tables"], form)


if __name__ == "__main__":
    unittest.main()
