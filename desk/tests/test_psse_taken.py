"""`gicdesk psse`: what of a pair of files can be meant in several ways is taken in one, told, and has an option for the other."""

import unittest

from test_psse import GIC, RAW, ZONES, Made, PsseTest

RECORD = "0.3,0.1,0.0,0,0,0,'YNd1',1,0.6,2.5"
ONE_VOLTAGE = RAW.replace("6,'SOUTH LV ',138.0,1", "6,'SOUTH PS ',345.0,1")


class Taken(PsseTest):
    def told_of(self, raw: str, gic: str, *words: str, zones: str = ZONES) -> tuple[Made, str]:
        made = self.case([*self.words(raw, gic, zones), *words, "--force"])
        return made, "\n".join(self.shown).replace(f"{self.folder}/", "")

    # Phase shifters

    def test_a_phase_shifter_is_a_resistance_in_series(self) -> None:
        """Of a vector group with a delta, where nothing is said; both windings of the .gic are in series."""
        for group in ("YNd1", "YNyn0d1"):
            made, told = self.told_of(ONE_VOLTAGE, GIC.replace("'YNd1'", f"'{group}'"), "--beyond=leave")
            line = {"name": "T4-6-1", "from": "4_SOUTH_A", "to": "6_SOUTH_PS", "zone": "all", "resistance": 400000}
            self.assertEqual(made["line"]["T4-6-1"], line | {"north": 0, "east": 0}, group)
            self.assertNotIn("T4-6-1", made["transformer"])
            self.assertIn(
                "net.raw line 30: T4-6-1 joins two buses of one voltage, and its vector group has a delta: it is taken as a phase "
                "shifter, a resistance in series; --phase-shifter=windings takes the windings of its group\n"
                "net.raw line 30: T4-6-1 is a line of 0.4 ohm, WRI and WRJ\n",
                told,
            )

    def test_a_phase_shifter_as_windings(self) -> None:
        made, told = self.told_of(ONE_VOLTAGE, GIC, "--beyond=leave", "--phase-shifter=windings")
        self.assertEqual(made["transformer"]["T4-6-1"]["kind"], "delta-wye")
        self.assertIn("its windings are those of its vector group, by --phase-shifter=windings", told)

    def test_one_without_a_delta(self) -> None:
        gic = GIC.replace(RECORD, "0.3,0.1,0.0,0,0,0,'YNyn0',1,0.6,0.0")
        made, told = self.told_of(ONE_VOLTAGE, gic, "--beyond=leave")
        self.assertEqual(made["transformer"]["T4-6-1"]["kind"], "wye-wye")
        self.assertIn("if it is a phase shifter, --phase-shifter=line takes a resistance in series", told)
        made, told = self.told_of(ONE_VOLTAGE, gic, "--beyond=leave", "--phase-shifter=line")
        self.assertEqual(made["line"]["T4-6-1"]["resistance"], 400000)
        self.assertIn("a resistance in series, by --phase-shifter=line", told)

    def test_a_phase_shifter_without_resistances_of_windings(self) -> None:
        """R1-2 of the power flow is the resistance in series: 0.001 per unit on 100 MVA at 345 kV are 1.19025 ohm."""
        gic = GIC.replace(RECORD, "0,0,0,0,0,0,'YNd1',1,0.6,0")
        made, told = self.told_of(ONE_VOLTAGE, gic, "--beyond=leave")
        self.assertEqual(made["line"]["T4-6-1"]["resistance"], 1190250)
        self.assertIn("T4-6-1 is a line of 1.19 ohm, R1-2 of the power flow", told)

    def test_units_of_two_voltages_are_none(self) -> None:
        for word in ("line", "windings"):
            made, told = self.told_of(RAW, GIC, "--beyond=leave", f"--phase-shifter={word}")
            self.assertEqual(made["transformer"]["T4-6-1"]["kind"], "delta-wye")
            self.assertNotIn("two buses of one voltage", told)

    # Neutrals that are all blocked

    def test_all_neutrals_of_a_wye_wye_are_blocked(self) -> None:
        """Its windings stay joined, as those of a wye-wye of tables whose neutral is blocked."""
        made, told = self.told_of(RAW, GIC.replace(RECORD, "0.3,0.1,0.0,1,1,0,'YNyn0',1,0.6,0.0"), "--beyond=leave")
        unit = made["transformer"]["T4-6-1"]
        self.assertEqual((unit["kind"], unit["neutral"]), ("wye-wye", "blocked"))
        self.assertIn("all neutrals of T4-6-1 are blocked: its windings stay joined at one floating neutral, as in a case", told)
        made, told = self.told_of(RAW, GIC.replace(RECORD, "0.3,0.1,0.0,1,0,0,'YNyn0',1,0.6,0.0"), "--beyond=leave")
        self.assertEqual(made["transformer"]["T4-6-1"]["kind"], "delta-wye")
        self.assertNotIn("floating", told)

    def test_all_three_neutrals_are_blocked(self) -> None:
        gic = GIC.replace("0.2,0.1,0.05,0,0,0,'YNa0yn0'", "0.2,0.1,0.05,1,1,1,'YNyn0yn0'")
        made, _ = self.told_of(RAW, gic, "--beyond=model")
        self.assertEqual((made["transformer"]["BANK"]["kind"], made["transformer"]["BANK"]["neutral"]), ("wye-wye-wye", "blocked"))

    # Statuses

    def test_a_winding_that_is_out_is_told(self) -> None:
        for status, bus in ((2, 2), (3, 3), (4, 1)):
            raw = RAW.replace("'BANK',1", f"'BANK',{status}")
            _, told = self.told_of(raw, GIC.replace("YNa0yn0", "YNyn0yn0"), "--beyond=leave")
            words = f"its status is {status}: the winding at the bus {bus} is out of service, and is left out; the others stay"
            self.assertIn(f"net.raw line 25: {words}", told)
        _, told = self.told_of(RAW, GIC, "--beyond=leave")
        self.assertNotIn("its status is", told)

    # Factors by cores

    def with_core(self, core: int) -> str:
        return GIC.replace("'YNd1',1,0.6", f"'YNd1',{core},0.0")

    def test_what_each_core_is_taken_as(self) -> None:
        for core, factor, meaning, origin in (
            (-1, "0.33", "three phases in shell form", "three phases in shell form"),
            (1, "1.18", "three single-phase units", "three single-phase units"),
            (7, "0.66", "seven limbs", "five limbs"),
        ):
            _, told = self.told_of(RAW, self.with_core(core), "--beyond=leave", "--factors")
            words = f"CORE {core} is taken as {meaning}: {factor} Mvar an ampere at 500 kV, published for {origin} of 500 kV"
            self.assertIn(f"net.gic: {words}, in 1 unit: T4-6-1", told)
            table = self.out.with_suffix(".factors.csv").read_text()
            self.assertIn(f"T4-6-1,{factor},500,CORE {core}: published for {origin} of 500 kV\n", table)

    def test_a_core_without_a_factor_is_named(self) -> None:
        _, told = self.told_of(RAW, self.with_core(0), "--beyond=leave", "--factors")
        words = "CORE 0 is taken as an unknown core, and 1 unit has no factor: T4-6-1; a table of --core-factors gives one"
        self.assertIn(f"net.gic: {words}", told)

    def test_a_table_of_factors_by_cores(self) -> None:
        table = self.file("cores.csv", "core,mvar_per_ampere,at_kv\n0,0.8,345\n7,0.5,\n")
        words = ("--beyond=leave", "--factors", f"--core-factors={table}")
        _, told = self.told_of(RAW, self.with_core(0), *words)
        self.assertIn("CORE 0 is taken as an unknown core: 0.8 Mvar an ampere at 345 kV, by --core-factors, in 1 unit", told)
        self.assertIn("T4-6-1,0.8,345,CORE 0: by --core-factors\n", self.out.with_suffix(".factors.csv").read_text())
        self.told_of(RAW, self.with_core(7), *words)
        self.assertIn("T4-6-1,0.5,500,CORE 7: by --core-factors\n", self.out.with_suffix(".factors.csv").read_text())

    def test_a_table_by_cores_that_is_none(self) -> None:
        table = self.file("cores.csv", "core,mvar_per_ampere,at_kv\n0,500,345\n0,0.5,3000\n")
        lines = [line.replace(f"{self.folder}/", "") for line in self.refused(*self.words(), f"--core-factors={table}")]
        self.assertEqual(
            lines,
            [
                "cores.csv line 2, mvar_per_ampere: it is 500, and not above 0 and up to 100; write Mvar an ampere",
                "cores.csv line 3, core: 0 stands in line 2 already; leave one of the two",
                "cores.csv line 3, at_kv: it is 3000, and not 1 to 2000; write kilovolts",
            ],
        )


class Headings(PsseTest):
    """Files whose sections have other headings: the case is the same one."""

    OF_35 = (
        RAW.replace(" 33,", " 35,")
        .replace("second title\n", "second title\n0 / END OF SYSTEM-WIDE DATA, BEGIN BUS DATA\n")
        .replace(",0.03,0.1,0,0,0,0,0,0,0,1,1,0", ",0.03,0.1,''" + 16 * ",0" + ",1,1,0")
        .replace(",0.001,0.0,0,0,0,0,0,0,0,1,1,0", ",0.001,0.0,''" + 16 * ",0" + ",1,1,0")
        .replace(",-0.02,0.0,0,0,0,0,0,0,0,1,1,0", ",-0.02,0.0,''" + 16 * ",0" + ",1,1,0")
        .replace(",0.03,0.0,0,0,0,0,0,0,0,0,1,0", ",0.03,0.0,''" + 16 * ",0" + ",0,1,0")
        .replace(",0.03,0.0,0,0,0,0,0,0,0,1,1,0", ",0.03,0.0,''" + 16 * ",0" + ",1,1,0")
        .replace(
            "0 / END OF BRANCH DATA, BEGIN TRANSFORMER DATA\n",
            "0 / END OF BRANCH DATA, BEGIN SYSTEM SWITCHING DEVICE DATA\n4,5,'9 ',0.0001" + 12 * ",0" + ",1\n"
            "0 / END OF SYSTEM SWITCHING DEVICE DATA, BEGIN TRANSFORMER DATA\n",
        )
    )

    def made_of(self, raw: str) -> tuple[Made, str]:
        made = self.case([*self.words(raw), "--beyond=leave", "--force"])
        return made, "\n".join(self.shown).replace(f"{self.folder}/", "")

    def test_other_words_for_sections(self) -> None:
        expected, told = self.made_of(self.OF_35)
        self.assertIn("the switching device 4-5 '9' ties two buses", told)
        self.assertIn("L1-4-1", expected["line"])
        for changes in (
            {"BEGIN BRANCH DATA": "BEGIN AC LINE DATA", "BEGIN SYSTEM SWITCHING DEVICE DATA": "BEGIN SWITCHING DEVICES SECTION"},
            {"BEGIN BRANCH DATA": "BEGIN NON-TRANSFORMER BRANCHES DATA", "BEGIN TRANSFORMER DATA": "BEGIN TRANSFORMERS"},
            {"BEGIN BUS DATA": "Begin Buses", "BEGIN FIXED SHUNT DATA": "BEGIN FIXED BUS SHUNTS DATA"},
            {"BEGIN BRANCH DATA": "BEGIN TRANSMISSION LINE DATA", "BEGIN AREA DATA": "BEGIN AREAS DATA"},
        ):
            raw = self.OF_35
            for before, after in changes.items():
                self.assertIn(before, raw)
                raw = raw.replace(before, after)
            made, told = self.made_of(raw)
            self.assertEqual(made, expected, changes)
            self.assertNotIn("is skipped", told)
            self.assertNotIn("is read as", told)

    def test_an_unknown_heading_is_taken_by_its_place_and_told(self) -> None:
        expected, _ = self.made_of(self.OF_35)
        made, told = self.made_of(self.OF_35.replace("BEGIN BRANCH DATA", "BEGIN CONDUCTOR DATA"))
        self.assertEqual(made, expected)
        line = self.OF_35[: self.OF_35.index("BEGIN BRANCH DATA")].count("\n") + 1
        words = "the section CONDUCTOR is read as BRANCH, which no other heading names, by its place in the file"
        self.assertIn(f"net.raw line {line}: {words}", told)

    def test_an_unknown_section_between_others_is_skipped(self) -> None:
        expected, _ = self.made_of(self.OF_35)
        between = "BEGIN RATING SET DATA\n1,'A',100\n0 / END OF RATING SET DATA, BEGIN BRANCH DATA"
        made, told = self.made_of(self.OF_35.replace("BEGIN BRANCH DATA", between))
        self.assertEqual(made, expected)
        self.assertIn("the section RATING SET is skipped, with 1 line", told)

    def test_headings_without_names(self) -> None:
        expected, _ = self.made_of(self.OF_35)
        bare = "\n".join("0" if line.startswith("0 /") else line for line in self.OF_35.split("\n"))
        self.assertEqual(self.made_of(bare)[0], expected)


if __name__ == "__main__":
    unittest.main()
