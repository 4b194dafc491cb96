"""`gicdesk csv`: each report as a table. The reports are those of docs/FORMATS.md and of examples/reports."""

import csv
import io
import re
import subprocess
import sys
import unittest

from shared import REPORTS, TOP, DeskTest

from gicdesk.decimals import middle_text, shifted, signed

SCREEN = """\
screen
width 100 threshold 75000 field 8000
transformer TA north -50001 -49999 east -66667 -66666 worst 83332 83335 reaches
transformer TB north 49999 50001 east 66666 66667 worst 83332 83335 reaches
end
"""
STUDY = """\
study
width 100 threshold 75000 steps 2
step 1 time 0
zone Z north 1000 east 0
node A -31251 -31249
node a dead
ground A -31251 -31249
line L open
line K blocked
winding TA high -31251 -31249
neutral TA open
effective TA -10417 -10416
peaks
node A 93749 93751
ground A open
winding TA high open
neutral TA blocked
transformer TA 31249 31251 below
monitor 1 13
dwell TA 0 1
monitor 2 34
earth A -31251 93751
earth B open
monitor 3 30
loss 21561810 21563190 step 2
monitor 4 13
said "a, b"
xend
"""


def rows(text: str) -> list[dict[str, str]]:
    return list(csv.DictReader(io.StringIO(text)))


def filled(row: dict[str, str]) -> dict[str, str]:
    return {head: cell for head, cell in row.items() if cell}


class Decimals(unittest.TestCase):
    def test_the_point_is_moved_and_no_digit_lost(self) -> None:
        for number, places, text in (
            (152724, 3, "152.724"),
            (-42140, 3, "-42.140"),
            (0, 3, "0.000"),
            (-5, 3, "-0.005"),
            (999, 3, "0.999"),
            (100000000000, 9, "100.000000000"),
            (-(2**100), 3, "-1267650600228229401496703205.376"),
        ):
            self.assertEqual(shifted(number, places), text)

    def test_the_middle_is_exact(self) -> None:
        for low, high, text in ((1, 2, "0.0015"), (-2, -1, "-0.0015"), (-1, 1, "0.0000"), (0, 3, "0.0015"), (-7, 4, "-0.0015")):
            self.assertEqual(middle_text(low, high, 3), text)

    def test_a_difference_has_its_sign(self) -> None:
        self.assertEqual([signed(number, 3) for number in (5, 0, -5)], ["+0.005", "0.000", "-0.005"])


def interval(unit: str, low: str, high: str, middle: str) -> dict[str, str]:
    return {f"low_{unit}": low, f"high_{unit}": high, f"middle_{unit}": middle}


class Csv(DeskTest):
    def table(self, text: str, *words: str) -> str:
        return self.done("csv", self.file("report.txt", text), *words)

    def test_screen(self) -> None:
        self.assertEqual(
            self.table(SCREEN),
            "transformer,north_low_A_per_phase,north_high_A_per_phase,north_middle_A_per_phase,east_low_A_per_phase,"
            "east_high_A_per_phase,east_middle_A_per_phase,worst_low_A_per_phase,worst_high_A_per_phase,"
            "worst_middle_A_per_phase,verdict,threshold_A_per_phase,field_V_per_km,width_A\n"
            "TA,-50.001,-49.999,-50.0000,-66.667,-66.666,-66.6665,83.332,83.335,83.3335,reaches,75.000,8.000,0.100\n"
            "TB,49.999,50.001,50.0000,66.666,66.667,66.6665,83.332,83.335,83.3335,reaches,75.000,8.000,0.100\n",
        )

    def test_volts(self) -> None:
        self.assertEqual(
            self.table("volts\nnorth 1000 east -500\nline L 100000000000\nline K -1\nend\n"),
            "line,volts_V,north_V_per_km,east_V_per_km\n"
            "L,100.000000000,1.000,-0.500\n"
            "K,-0.000000001,1.000,-0.500\n",
        )

    def test_list(self) -> None:
        self.assertEqual(
            self.table(
                "list\nnodes 4 elements 3\nelement A ground A * 1 1000000\nelement TA third t TA 3 300000\n"
                "element TA neutral TA A 1 1800000\nend\n"
            ),
            "item,role,from,to,times,ohm\nA,ground,A,*,1,1.000000\nTA,third,t,TA,3,0.300000\n"
            "TA,neutral,TA,A,1,1.800000\n",
        )

    def test_check(self) -> None:
        self.assertEqual(
            self.table("check\nnode A live\nnode B dead\nlive 1\nend\n"), "node,state\nA,live\nB,dead\n"
        )

    def test_field(self) -> None:
        text = (
            "field\nnorth 1000 east 0 width 100 threshold 75000\nnode A -31251 -31249\nnode B dead\n"
            "ground A -31251 -31249\nline L open\nline K blocked\nwinding TA high -31251 -31249\n"
            "winding TA low open\nneutral TA -31251 -31249\neffective TA -10417 -10416\n"
            "transformer TA 10416 10417 below\nend\n"
        )
        asked = {
            "north_V_per_km": "1.000",
            "east_V_per_km": "0.000",
            "threshold_A_per_phase": "75.000",
            "width_V_or_A": "0.100",
        }
        amperes = interval("A", "-31.251", "-31.249", "-31.2500")
        expected = [
            {"kind": "node", "name": "A"} | interval("V", "-31.251", "-31.249", "-31.2500"),
            {"kind": "node", "name": "B", "state": "dead"},
            {"kind": "ground", "name": "A"} | amperes,
            {"kind": "line", "name": "L", "state": "open"},
            {"kind": "line", "name": "K", "state": "blocked"},
            {"kind": "winding", "name": "TA", "winding": "high"} | amperes,
            {"kind": "winding", "name": "TA", "winding": "low", "state": "open"},
            {"kind": "neutral", "name": "TA"} | amperes,
            {"kind": "effective", "name": "TA"} | interval("A_per_phase", "-10.417", "-10.416", "-10.4165"),
            {"kind": "transformer", "name": "TA", "verdict": "below"}
            | interval("A_per_phase", "10.416", "10.417", "10.4165"),
        ]
        self.assertEqual(list(map(filled, rows(self.table(text)))), [row | asked for row in expected])
        self.assertEqual(
            self.table(text, "--part=node"),
            "kind,name,low_V,high_V,middle_V,state,north_V_per_km,east_V_per_km,threshold_A_per_phase,width_V_or_A\n"
            "node,A,-31.251,-31.249,-31.2500,,1.000,0.000,75.000,0.100\n"
            "node,B,,,,dead,1.000,0.000,75.000,0.100\n",
        )

    def test_study(self) -> None:
        asked = {"threshold_A_per_phase": "75.000", "steps": "2", "width_V_or_A": "0.100"}
        step = {"block": "step", "step": "1", "time_s": "0"}
        amperes = interval("A", "-31.251", "-31.249", "-31.2500")
        expected = [
            step | {"kind": "zone", "name": "Z", "north_V_per_km": "1.000", "east_V_per_km": "0.000"},
            step | {"kind": "node", "name": "A"} | interval("V", "-31.251", "-31.249", "-31.2500"),
            step | {"kind": "node", "name": "a", "state": "dead"},
            step | {"kind": "ground", "name": "A"} | amperes,
            step | {"kind": "line", "name": "L", "state": "open"},
            step | {"kind": "line", "name": "K", "state": "blocked"},
            step | {"kind": "winding", "name": "TA", "winding": "high"} | amperes,
            step | {"kind": "neutral", "name": "TA", "state": "open"},
            step | {"kind": "effective", "name": "TA"} | interval("A_per_phase", "-10.417", "-10.416", "-10.4165"),
            {"block": "peaks", "kind": "node", "name": "A"} | interval("V", "93.749", "93.751", "93.7500"),
            {"block": "peaks", "kind": "ground", "name": "A", "state": "open"},
            {"block": "peaks", "kind": "winding", "name": "TA", "winding": "high", "state": "open"},
            {"block": "peaks", "kind": "neutral", "name": "TA", "state": "blocked"},
            {"block": "peaks", "kind": "transformer", "name": "TA", "verdict": "below"}
            | interval("A_per_phase", "31.249", "31.251", "31.2500"),
            {"block": "monitor", "kind": "dwell", "monitor": "1", "name": "TA"}
            | {"certain_steps": "0", "possible_steps": "1"},
            {"block": "monitor", "kind": "earth", "monitor": "2", "name": "A"}
            | interval("A", "-31.251", "93.751", "31.2500"),
            {"block": "monitor", "kind": "earth", "monitor": "2", "name": "B", "state": "open"},
            {"block": "monitor", "kind": "loss", "monitor": "3", "step": "2"}
            | interval("var", "21561.810", "21563.190", "21562.5000"),
            {"block": "monitor", "kind": "text", "monitor": "4", "text": 'said "a, b"'},
            {"block": "monitor", "kind": "text", "monitor": "4", "text": "x"},
        ]
        self.assertEqual(list(map(filled, rows(self.table(STUDY)))), [row | asked for row in expected])

    def test_a_part_of_a_study(self) -> None:
        for part, many in (("step", 9), ("peaks", 5), ("monitor", 6), ("node", 3), ("dwell", 1), ("table", 0)):
            table = self.table(STUDY, f"--part={part}")
            self.assertEqual(len(rows(table)), many, part)
        # No cell of a row gets lost with the columns that a part doesn't have.
        whole = list(map(filled, rows(self.table(STUDY))))
        for part in ("step", "peaks", "monitor"):
            chosen = [row for row in whole if row["block"] == part]
            self.assertEqual(list(map(filled, rows(self.table(STUDY, f"--part={part}")))), chosen)

    def test_lines_of_monitors_that_are_not_known(self) -> None:
        # The byte 0xb2 is a raised 2 in Latin-1, and no digit; a number of the program has no 0 in front, and the low
        # end of an interval isn't above its high one.
        lines = [
            b"dwell A \xb2 1",
            b"dwell A 0 1 2",
            b"earth A -\xb2 1",
            b"earth A 2 1",
            b"loss 01 2 step 1",
            b"table 1 \xb2 step 1",
            b"table 1 2 step \xb2",
            b"loss open",
        ]
        text = b"".join(line + b"\n" for line in lines)
        head = b"study\nwidth 100 threshold 75000 steps 2\npeaks\nmonitor 1 %d\n" % len(text)
        found = rows(self.done("csv", self.file("report.txt", head + text + b"end\n"), "--part=text"))
        told = [line.decode("utf-8", "replace") for line in lines]
        self.assertEqual([(row["kind"], row["text"]) for row in found], [("text", line) for line in told])

    def test_the_lines_of_the_monitor_of_a_table(self) -> None:
        text = "table -1500 2500 step 2\ntable none\n"
        head = f"study\nwidth 100 threshold 75000 steps 2\npeaks\nmonitor 1 {len(text)}\n"
        found = rows(self.table(f"{head}{text}end\n", "--part=table"))
        self.assertEqual([row["low_var"] for row in found], ["-1.500", ""])
        self.assertEqual([row["high_var"] for row in found], ["2.500", ""])
        self.assertEqual([(row["step"], row["state"]) for row in found], [("2", ""), ("", "none")])

    def test_cells_are_quoted_as_csv_needs(self) -> None:
        self.assertIn(',"said ""a, b""",', self.table(STUDY))

    def test_outage(self) -> None:
        text = (
            "outage\nwidth 100 threshold 75000 field 8000\noutage L unearthed B\noutage K unresolved C\n"
            "outage TA idle\noutage TB below 2 reaches 0 undecided 1 outside 3\ntransformer TA worst 0 2 below\n"
            "transformer TB none\nend\n"
        )
        event = "75.000,8.000,0.100\n"
        self.assertEqual(
            self.table(text),
            "kind,name,outcome,node,below,reaches,undecided,outside,worst_low_A_per_phase,worst_high_A_per_phase,"
            "worst_middle_A_per_phase,verdict,threshold_A_per_phase,field_V_per_km,width_A\n"
            f"outage,L,unearthed,B,,,,,,,,,{event}outage,K,unresolved,C,,,,,,,,,{event}outage,TA,idle,,,,,,,,,,{event}"
            f"outage,TB,solved,,2,0,1,3,,,,,{event}transformer,TA,,,,,,,0.000,0.002,0.0010,below,{event}"
            f"transformer,TB,,,,,,,,,,none,{event}",
        )
        self.assertEqual(
            self.table(text, "--part=transformer"),
            "kind,name,worst_low_A_per_phase,worst_high_A_per_phase,worst_middle_A_per_phase,verdict,threshold_A_per_phase,"
            f"field_V_per_km,width_A\ntransformer,TA,0.000,0.002,0.0010,below,{event}transformer,TB,,,,none,{event}",
        )

    def test_series(self) -> None:
        self.assertEqual(
            self.table(
                "series\nwidth 100 transformer TA steps 2\nstep 1 time 0 31249 31251\nstep 2 time 60 0 0\nend\n"
            ),
            "transformer,step,time_s,low_A_per_phase,high_A_per_phase,middle_A_per_phase,width_A\n"
            "TA,1,0,31.249,31.251,31.2500,0.100\nTA,2,60,0.000,0.000,0.0000,0.100\n",
        )

    def test_make(self) -> None:
        self.assertEqual(
            self.table(
                "make\nseed 7 size 2\nnodes 4 elements 5\nwalk 16\nbelow 0 reaches 2 undecided 0 outside 0\nend\n"
            ),
            "seed,size,nodes,elements,walk,below,reaches,undecided,outside\n7,2,4,5,16,0,2,0,0\n",
        )

    def test_certificate(self) -> None:
        self.assertEqual(
            self.table("certificate\nnodes 2 north 1000 east 0\ncert A 1 -68719476736 68719476736\ncert B dead\nend\n"),
            "node,state,entry,guess_grains,radius_grains,north_V_per_km,east_V_per_km\n"
            "A,,1,-68719476736,68719476736,1.000,0.000\nB,dead,,,,1.000,0.000\n",
        )

    def test_recheck(self) -> None:
        self.assertEqual(
            self.table("recheck\nnorth 1000 east 0\nnode A 0 1\nend\n"),
            "node,low_V,high_V,middle_V,north_V_per_km,east_V_per_km\nA,0.000,0.001,0.0005,1.000,0.000\n",
        )

    def test_review(self) -> None:
        self.assertEqual(
            self.table(
                "review\nungrounded B\npart 4 A\nclosure L -90 12345\nvalue zone Z latitude 60\n"
                "value transformer TB high_resistance 3000\nalpha Y 5000\nvolts TB high_volts 34500 345000\noutside D\n"
                "findings 8\nend\n"
            ),
            "kind,list,name,field,number,unit,other,north_m,east_m\n"
            "ungrounded,,B,,,,,,\n"
            "part,,A,,4,nodes,,,\n"
            "closure,,L,,,,,-90,12345\n"
            "value,zone,Z,latitude,60,hundredths of a degree,,,\n"
            "value,transformer,TB,high_resistance,3000,micro-ohm,,,\n"
            "alpha,zone,Y,latitude,5000,hundredths of a degree,,,\n"
            "volts,transformer,TB,high_volts,34500,V,345000,,\n"
            "outside,,D,,,,,,\n",
        )

    def test_every_sample_report_has_a_row_for_each_of_its_lines(self) -> None:
        for path in sorted(REPORTS.glob("*_*.txt")):
            lines = path.read_text().splitlines()
            heads = ("peaks", "monitor", "end", "live")
            counted = [line for line in lines[2 if lines[0] != "check" else 1 :] if line.split(" ")[0] not in heads]
            if lines[0] == "study":
                counted = [line for line in counted if not line.startswith("step ")]
            self.assertEqual(len(rows(self.done("csv", path))), len(counted), path.name)

    def test_every_number_of_a_sample_screen_is_the_printed_one(self) -> None:
        lines = (REPORTS / "region_screen.txt").read_text().splitlines()[2:-1]
        table = rows(self.done("csv", REPORTS / "region_screen.txt"))
        for line, row in zip(lines, table, strict=True):
            words = line.split(" ")
            self.assertEqual([row["transformer"], row["verdict"]], [words[1], words[11]])
            printed = [words[place] for place in (3, 4, 6, 7, 9, 10)]
            shown = [cell for head, cell in row.items() if "_low_" in head or "_high_" in head]
            self.assertEqual([str(int(cell.replace(".", ""))) for cell in shown], printed)
            for name in ("north", "east", "worst"):
                low, high, middle = (float(row[f"{name}_{place}_A_per_phase"]) for place in ("low", "high", "middle"))
                self.assertAlmostEqual(middle, (low + high) / 2, 9)

    def test_semicolons_and_decimal_commas(self) -> None:
        # A name may have a point, and keeps it.
        text = "volts\nnorth 1000 east -500\nline L.1 100000000000\nend\n"
        self.assertEqual(
            self.table(text, "--comma"),
            "line;volts_V;north_V_per_km;east_V_per_km\nL.1;100,000000000;1,000;-0,500\n",
        )
        for path in sorted(REPORTS.glob("*_*.txt")):
            point = list(csv.reader(io.StringIO(self.done("csv", path))))
            comma = list(csv.reader(io.StringIO(self.done("csv", path, "--comma")), delimiter=";"))
            for row, other in zip(point, comma, strict=True):
                self.assertEqual([cell.replace(",", ".") for cell in other], row)
                self.assertFalse([cell for cell in other if re.fullmatch(r"-?[0-9]+\.[0-9]+", cell)])

    def test_from_the_standard_input_and_from_windows(self) -> None:
        expected = self.table(SCREEN)
        self.assertEqual(self.done("csv", "-", stdin=SCREEN.encode()), expected)
        windows = b"\xef\xbb\xbf" + SCREEN.replace("\n", "\r\n").encode()
        self.assertEqual(self.done("csv", self.file("windows.txt", windows)), expected)


class Output(DeskTest):
    def test_a_new_file_is_written_and_an_old_one_kept(self) -> None:
        report, out = self.file("report.txt", SCREEN), self.folder / "table.csv"
        self.assertEqual(self.done("csv", report, f"--out={out}"), "")
        self.assertEqual(out.read_text(), self.done("csv", report))
        out.write_text("mine")
        (line,) = self.refused("csv", report, f"--out={out}")
        self.assertEqual(line, f"{out}: it is there already; choose another name, or give --force to replace it")
        self.assertEqual(out.read_text(), "mine")
        self.done("csv", report, f"--out={out}", "--force")
        self.assertEqual(out.read_text(), self.done("csv", report))
        self.assertEqual(sorted(path.name for path in self.folder.iterdir()), ["report.txt", "table.csv"])

    def test_an_output_that_is_full_is_told_once(self) -> None:
        with open("/dev/full", "wb") as full:
            words = [sys.executable, "-B", str(TOP / "desk" / "gicdesk"), "csv", str(self.file("report.txt", SCREEN))]
            ran = subprocess.run(words, stdout=full, stderr=subprocess.PIPE, stdin=subprocess.DEVNULL)
        line = b"gicdesk: the output: it can't be written (No space left on device); see where the output goes\n"
        self.assertEqual((ran.returncode, ran.stderr), (1, line))

    def test_nothing_is_written_for_a_report_that_is_refused(self) -> None:
        out = self.folder / "table.csv"
        self.refused("csv", self.file("report.txt", SCREEN[:-4]), f"--out={out}")
        self.assertFalse(out.exists())

    def test_what_is_no_file_never_gives_way(self) -> None:
        report = self.file("report.txt", SCREEN)
        (self.folder / "folder").mkdir()
        for name in ("folder", "/dev/null"):
            (line,) = self.refused("csv", report, f"--out={self.folder / name}", "--force")
            self.assertEqual(line, f"{self.folder / name}: it is there already, and no plain file; choose another name")
        (line,) = self.refused("csv", report, f"--out={self.folder}/none/table.csv")
        self.assertTrue(line.endswith("there is no such folder; make the folder first"), line)


class Refusals(DeskTest):
    def told(self, text: str | bytes, *expected: str) -> None:
        """The report is refused with these lines behind the name of the file."""
        path = self.file("report.txt", text)
        self.assertEqual([line.removeprefix(str(path)) for line in self.refused("csv", path)], list(expected))

    def test_a_file_that_is_not_there(self) -> None:
        (line,) = self.refused("csv", self.folder / "none.txt")
        words = "it can't be read (No such file or directory); look at the name and at the folder you are in"
        self.assertEqual(line, f"{self.folder}/none.txt: {words}")

    def test_no_report(self) -> None:
        self.told("", ": it is empty: the program ended without a report, and told why on its error stream")
        line = "gicstudy: usage: words"
        self.told(
            f"{line}\n", f' line 1: "{line}" is what the program tells where it has no report; see docs/FAULTS.md'
        )
        self.told(
            "time,north,east\n",
            ' line 1: "time,north,east" begins no report; a report begins with one of volts, list, check, field, '
            "study, screen, outage, series, make, certificate, recheck, review, robust",
        )
        self.told(
            SCREEN.encode("utf-16"),
            ": it is in UTF-16, as `>` of some shells of Windows writes it; write it inside WSL",
        )

    def test_a_report_that_is_cut(self) -> None:
        cut = 'the report is cut: it ends before its line "end"; ask the program for it again'
        self.told("screen\n", f" line 2: {cut}")
        self.told(SCREEN.removesuffix("end\n"), f" line 5: {cut}")
        self.told(SCREEN.removesuffix("\n"), f" line 5: {cut}")
        self.told(STUDY[: STUDY.index("said")], f" line 27: {cut}")

    def test_lines_that_are_wrong_are_told_at_once(self) -> None:
        printed = "; take the report as it was printed"
        form = f'"transformer NAME north LO HI east LO HI worst LO HI VERDICT"{printed}'
        faulty = SCREEN.replace("83332 83335", "83,332 83335", 1).replace("TB north", "TB nord")
        self.told(
            faulty,
            ' line 3: "transformer TA north -50001 -49999 east -66667 -66666 worst 83,332 83335 reaches" is not of the '
            "form " + form,
            ' line 4: "transformer TB nord 49999 50001 east 66666 66667 worst 83332 83335 reaches" is not of the form '
            + form,
        )
        for text, number, line, forms in (
            ("recheck\nnorth 1000 east 0\nnode A 1 0\nend\n", 3, "node A 1 0", '"node NAME LO HI"'),
            ("check\nnode A alive\nlive 0\nend\n", 2, "node A alive", '"node NAME live" or "node NAME dead"'),
            ("make\nseed 07 size 2\n", 2, "seed 07 size 2", '"seed COUNT size COUNT"'),
        ):
            self.told(text, f' line {number}: "{line}" is not of the form {forms}{printed}')

    def test_counts_that_disagree(self) -> None:
        again = "stand there; ask the program for the report again"
        self.told("check\nnode A live\nlive 2\nend\n", f" line 3: 2 live nodes are told and 1 {again}")
        elements = "list\nnodes 1 elements 2\nelement A ground A * 1 1000000\nend\n"
        self.told(elements, f" line 3: 2 elements are told and 1 {again}")
        self.told("review\noutside D\nfindings 3\nend\n", f" line 3: 3 findings are told and 1 {again}")

    def test_two_reports_in_one_file(self) -> None:
        self.told(SCREEN * 2, ' line 6: something follows behind "end"; take one report alone')
        twice = SCREEN.replace("TB", "TA")
        words = "TA has 2 lines of one kind above here, and a report has one; take one report alone"
        self.told(twice, f" line 4: {words}")

    def test_a_name_that_stands_twice(self) -> None:
        words = "has 2 lines of one kind above here, and a report has one; take one report alone"
        zone = "zone Z north 1000 east 0\n"
        for text, line, name in (
            ("check\nnode A live\nnode A dead\nlive 1\nend\n", 3, "A"),
            ("certificate\nnodes 2 north 1000 east 0\ncert A 31 -5 0\ncert A dead\nend\n", 4, "A"),
            ("recheck\nnorth 1000 east 0\nnode B 1 2\nnode B 1 2\nend\n", 4, "B"),
            (f"study\nwidth 100 threshold 75000 steps 2\nstep 1 time 0\n{zone * 2}peaks\nend\n", 5, "Z"),
        ):
            self.told(text, f" line {line}: {name} {words}")

    def test_only_so_many_findings_are_told(self) -> None:
        rows = "".join(f"line L{place} x\n" for place in range(25))
        lines = self.refused("csv", self.file("report.txt", f"volts\nnorth 1 east 1\n{rows}end\n"))
        self.assertEqual([len(lines), lines[-1]], [21, "and 5 more"])

    def test_findings_that_differ_in_their_lines_alone_are_told_together(self) -> None:
        twelve = ", ".join(map(str, range(4, 16)))
        for many, also in ((2, "line 4"), (3, "lines 4, 5"), (25, f"lines {twelve} and 12 more")):
            text = "volts\nnorth 1 east 1\n" + "line L x\n" * many + "end\n"
            (line,) = self.refused("csv", self.file("report.txt", text))
            self.assertIn('report.txt line 3: "line L x" is not of the form', line)
            self.assertTrue(line.endswith(f"; so also in {also}"), line)

    def test_a_part_that_is_none(self) -> None:
        path = self.file("report.txt", SCREEN)
        (line,) = self.refused("csv", path, "--part=node")
        words = "--part=node is no part of a report of screen; allowed is none: it is one table, so leave --part out"
        self.assertEqual(line, f"{path}: {words}")
        (line,) = self.refused("csv", REPORTS / "region_outage.txt", "--part=node")
        self.assertTrue(line.endswith("allowed is one of outage, transformer"), line)


if __name__ == "__main__":
    unittest.main()
