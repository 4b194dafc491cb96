"""What no rule forbids and nobody means: a geographic latitude, betas changed over, windings of all autotransformers changed
over, and storms that say less than they seem to."""

import decimal
import math
import unittest

from shared import EXAMPLES, DeskTest
from test_case import CaseTest
from test_psse import GIC, RAW, PsseTest
from test_study import STORM, StudyTest

from gicdesk.autos import Auto, turned_words
from gicdesk.factors import Factor
from gicdesk.latitudes import POLE, dipole_latitude, latitude_words
from gicdesk.storm_notes import factor_notes, field_notes, steps_without, switching_notes, zone_notes
from gicdesk.storms import StormStep, SwitchingRow
from gicdesk.usual import Number


def by_vectors(place: tuple[float, float]) -> float:
    """The latitude as seen from the pole, by the angle between two unit vectors."""

    def vector(at: tuple[float, float]) -> tuple[float, float, float]:
        latitude, longitude = map(math.radians, at)
        return (
            math.cos(latitude) * math.cos(longitude), math.cos(latitude) * math.sin(longitude), math.sin(latitude)
        )  # fmt: skip

    product = sum(one * other for one, other in zip(vector(place), vector(POLE)))
    return abs(90 - math.degrees(math.acos(product)))


class Latitudes(unittest.TestCase):
    def test_the_latitude_as_seen_from_the_pole(self) -> None:
        for place in ((50.0, -100.0), (-33.9, 18.4), (60.2, 25.0), (48.4, -123.4), (0.0, 0.0), (-45.9, 170.5), POLE):
            self.assertAlmostEqual(dipole_latitude(place), by_vectors(place), 5, place)

    def words(self, given: float, *places: tuple[str, str]) -> str:
        found = latitude_words(given, [(Number(north), Number(east)) for north, east in places])
        return found or ""

    def test_a_geographic_one_is_asked_about_where_the_two_differ(self) -> None:
        # In North America, where the geomagnetic latitude is some eight to ten degrees more.
        self.assertIn("is it that one", self.words(45.4, ("45.0", "-75.7"), ("46.0", "-76.0")))
        self.assertEqual(self.words(55.5, ("45.0", "-75.7"), ("46.0", "-76.0")), "")
        # In the south of New Zealand it is some four degrees more; southern latitudes count as northern ones.
        self.assertIn("is it that one", self.words(45.9, ("-45.9", "170.5")))
        self.assertEqual(self.words(49.4, ("-45.9", "170.5")), "")
        # In the middle of Europe the two differ by a degree or two: nothing can be told.
        self.assertEqual(self.words(50.1, ("50.1", "14.4")), "")
        self.assertEqual(self.words(50.1), "")

    def test_one_of_another_region_is_asked_about(self) -> None:
        words = self.words(65.0, ("45.0", "-75.7"))
        self.assertIn("it is 65, and the stations of the zone lie at 54.2 to 54.2 degrees", words)
        self.assertNotIn("geographic", words)


class Tables(CaseTest):
    def test_a_geographic_latitude(self) -> None:
        self.change("zones", "57.30", "49.50")
        (line,) = self.findings("--alpha=formula")
        self.assertTrue(line.startswith("zones.csv line 2, geomagnetic_latitude: it is 49.5, and the stations of the zone lie"))
        self.assertTrue(line.endswith("look up the geomagnetic one of the year, or give --accept=latitude:upland"), line)
        self.made("--alpha=formula", "--accept=latitude:upland")

    def test_betas_of_two_zones_changed_over(self) -> None:
        self.texts["earth_models"] = "name,beta\nCLAY,0.79\nROCK,0.85\n"
        self.change("zones", "beta,note", "beta,earth_model,note")
        self.change("zones", "0.85,", "0.85,ROCK,")
        self.change("zones", "0.79,", "0.79,CLAY,")
        self.made()
        self.out.unlink()
        self.change("zones", "0.85,", "0.79,")
        self.change("zones", "0.79,CLAY", "0.85,CLAY")
        words = "write the beta of its model, or give --accept=beta:"
        self.assertEqual(
            self.findings(),
            [
                f"zones.csv line 2, beta: it is 0.79, and its earth model ROCK has 0.85; 0.79 is that of CLAY; {words}upland",
                f"zones.csv line 3, beta: it is 0.85, and its earth model CLAY has 0.79; 0.85 is that of ROCK; {words}coast",
            ],
        )
        self.change("zones", "ROCK", "ROCKS")
        self.assertIn('its earth model "ROCKS" is none of CLAY, ROCK', self.findings()[0])


class Autos(DeskTest):
    def test_all_of_the_region_changed_over(self) -> None:
        folder = self.folder / "tables"
        folder.mkdir()
        for path in (EXAMPLES / "tables").iterdir():
            text = path.read_text()
            if path.name == "transformers.csv":
                text = text.replace("series_ohm", "x").replace("common_ohm", "series_ohm").replace(",x,", ",common_ohm,")
            (folder / path.name).write_text(text)
        (line,) = [line for line in self.refused("case", folder, f"--out={self.folder / 'case.toml'}") if "autotransformers" in line]
        self.assertIn("in all 16 autotransformers whose voltages tell it the series and the common winding are as if", line)
        self.assertTrue(line.endswith("change series_ohm and common_ohm over, or give --accept=turned:autos"), line)

    def test_one_or_some_are_not_told(self) -> None:
        def auto(high: str, low: str, series: str, common: str) -> Auto:
            return Auto("T", *map(Number, (high, low, series, common)))

        turned, right = auto("345", "138", "0.1", "0.2"), auto("345", "138", "0.2", "0.1")
        self.assertIsNone(turned_words([turned]))
        self.assertIsNone(turned_words([turned, turned, right]))
        self.assertIn("in all 2 autotransformers", turned_words([turned, turned, auto("400", "200", "1", "2")]) or "")
        self.assertIn("in all 2 autotransformers", turned_words([turned, auto("500", "345", "0.2", "0.1")]) or "")
        self.assertIsNone(turned_words([right, auto("500", "345", "0.1", "0.2")]))


class PowerFlow(PsseTest):
    def test_a_geographic_latitude_and_a_beta_of_another_model(self) -> None:
        zones = "name,geomagnetic_latitude,beta,earth_model\nall,50,0.81,ROCK\n"
        models = self.file("models.csv", "name,beta\nROCK,0.85\nCLAY,0.81\n")
        self.case([*self.words(zones=zones), "--beyond=leave", f"--earth-models={models}"])
        told = [line.replace(f"{self.folder}/", "") for line in self.shown]
        words = "it is 0.81, and its earth model ROCK has 0.85; 0.81 is that of CLAY; write the beta of its model"
        self.assertIn(f"zones.csv line 2, beta: {words}", told)
        (line,) = [line for line in told if "geographic" in line]
        self.assertIn("their geographic latitude is 49.0 to 50.0: is it that one; look up", line)

    def test_autos_changed_over(self) -> None:
        second = "1,2,3,'2 ',1,1,1,0,0,2,'OTHER',1,1,1.0\n" + RAW[RAW.index("0.001,0.02,100,0.001") : RAW.index("4,6,0,")]
        raw = RAW.replace("4,6,0,'1 '", second + "4,6,0,'1 '", 1)
        row = "1,2,3,'1 ',0.2,0.1,0.05,0,0,0,'YNa0yn0',1,0.6,0.0,0.0,0.0,0\n"
        for series, common, is_told in (("0.2", "0.1", False), ("0.1", "0.2", True)):
            rows = "".join(row.replace("0.2,0.1", f"{series},{common}").replace("'1 '", f"'{number} '") for number in (1, 2))
            self.case([*self.words(raw, GIC.replace(row, rows)), "--beyond=leave", "--force"])
            self.assertEqual("in all 2 autotransformers" in "".join(self.shown), is_told)


class Storms(StudyTest):
    def steps(self, *rows: tuple[int, int, int]) -> list[StormStep]:
        return [StormStep(time, {"Z": (north, east)}) for time, north, east in rows]

    def test_a_zone_without_rows(self) -> None:
        data = b"time,zone,north,east\n0,A,1,0\n0,B,1,0\n60,A,1,0\n120,*,1,0\n"
        self.assertEqual(steps_without(data, ["A", "B", "C"]), {"B": 1, "C": 2})
        self.assertEqual(
            zone_notes(b"time,zone,north,east\n0,A,1,0\n60,A,1,0\n", ["A", "B"], 2),
            ["The zone B has no row in the storm: it has no field at any step. Is it meant?"],
        )
        self.assertEqual(
            zone_notes(data, ["A", "B"], 3),
            ["The zone B has no row at 1 of 3 steps, and no field there. Is it meant?"],
        )
        self.assertEqual(zone_notes(b"time,north,east\n0,1,0\n", ["A", "B"], 1), [])

    def test_steps_of_a_second_and_weak_fields(self) -> None:
        self.assertEqual(
            field_notes(self.steps((0, 3, 4), (1, 0, 0), (2, 0, 0))),
            [
                "All 3 steps of the storm are one second apart. Are its times in minutes?",
                "The strongest field of the storm is 0.005 V/km, before alpha and beta. Is it in V/km, and not in mV/km?",
            ],
        )
        self.assertEqual(field_notes(self.steps((0, 100, 0), (1, 0, 0), (61, 0, 0))), [])

    def test_switchings_that_never_come_into_force(self) -> None:
        steps = self.steps((0, 1, 0), (60, 1, 0))
        rows = [SwitchingRow(10, "L", "open"), SwitchingRow(50, "L", "close"), SwitchingRow(61, "K", "open")]
        self.assertEqual(
            switching_notes(rows, steps),
            ["2 switchings of 3 come into force at no step of the storm: 10 s open L; 61 s open K.".replace(";", ",")],
        )
        self.assertEqual(switching_notes(rows[1:2], steps), [])

    def test_factors_without_a_voltage(self) -> None:
        given = decimal.Decimal("1.18")
        found = {
            "A": Factor(given, decimal.Decimal(500), 500000, True),
            "B": Factor(given, decimal.Decimal(500), 345000, True),
            "C": Factor(given, decimal.Decimal(345), 345000),
        }
        # 1.18 times 345 over 500 is 0.8142.
        words = "1 factor without at_kv is taken for 500 kV, and scaled by the unit's kilovolts: 1.18 for B of 345 kV is 0.8142"
        self.assertEqual(factor_notes(found), [f"{words} Mvar an ampere."])
        self.assertEqual(factor_notes({"A": found["A"], "C": found["C"]}), [])

    def test_they_stand_on_the_terminal_and_on_the_page(self) -> None:
        storm = self.file("storm.csv", STORM.replace("3000,4000", "30,40").replace("8000", "80"))
        switch = self.file("switch.csv", "time,item,action\n130,K,close\n")
        page = self.page(f"--storm={storm}", f"--switch={switch}")
        weak = "The strongest field of the storm is 0.08 V/km, before alpha and beta. Is it in V/km, and not in mV/km?"
        unseen = "1 switching of 1 come into force at no step of the storm: 130 s close K."
        for note in (weak, unseen):
            self.assertIn(f"note: {note}\n", self.shown)
            self.assertIn(note, self.text_of("answer", page))
