"""Tests of judge.py by hand: the loop of docs/FORMATS.md, whose potentials are whole numbers of millivolts.

    python3 .ci/tests.py independent/tests/test_judge.py
"""

import contextlib
import io
import os
import subprocess
import sys
import tempfile
import unittest
import unittest.mock

import judge

LOOP = """format = 1
zone = [{ name = "Z", latitude = 6000, beta = 100 }]
substation = [{ name = "A", ground = 1000000 }, { name = "B", ground = 1000000 }]
bus = [{ name = "a", substation = "A" }, { name = "b", substation = "B" }]
line = [{ name = "L", from = "a", to = "b", zone = "Z", resistance = 3000000, north = 60000, east = 80000 }]
transformer = [
  { name = "TA", kind = "delta-wye", high_volts = 345000, high = "a", high_resistance = 300000 },
  { name = "TB", kind = "delta-wye", high_volts = 345000, high = "b", high_resistance = 300000 },
]
"""
# 480 volts to the north and 640 to the east drive 150 and 200 amperes through 3.2 ohm.
FIELD = """field
north 8000 east 0 width 100 threshold 75000
node A -150000 -150000
node B 149999 150001
node a -165001 -164999
node b 164999 165001
ground A -150001 -149999
ground B 149999 150001
line L 149999 150001
winding TA high -150001 -149999
winding TB high 149999 150001
effective TA -50001 -49999
effective TB 49999 50001
transformer TA 49999 50001 below
transformer TB 49999 50001 below
end
"""
SCREEN = """screen
width 100 threshold 75000 field 8000
transformer TA north -50001 -49999 east -66667 -66666 worst 83332 83335 reaches
transformer TB north 49999 50001 east 66666 66667 worst 83332 83335 reaches
end
"""
OUTAGE = """outage
width 100 threshold 75000 field 8000
outage L below 2 reaches 0 undecided 0 outside 0
outage TA below 2 reaches 0 undecided 0 outside 0
outage TB below 2 reaches 0 undecided 0 outside 0
transformer TA worst 0 2 below
transformer TB worst 0 2 below
end
"""
# A unit without a winding, behind the two of the loop.
WITH_DELTA = LOOP.replace(
    "300000 },\n]", '300000 },\n  { name = "TD", kind = "delta-delta", high_volts = 345000 },\n]'
)
SCREEN_WITH_DELTA = SCREEN.replace("end\n", "transformer TD north 0 0 east 0 0 worst 0 0 outside\nend\n")
OUTAGE_WITH_DELTA = (
    OUTAGE.replace("outside 0", "outside 1")
    .replace("transformer TA", "outage TD idle\ntransformer TA")
    .replace("end\n", "transformer TD worst 0 0 outside\nend\n")
)
ALL_OF_FIELD = "13 intervals and 2 verdicts shown, 0 refuted, 0 open"


def certificate(north: int, east: int, entries: list[int], millivolts: list[int], spread: int = 0) -> str:
    """A certificate of the loop, with guesses in millivolts and radii in grains, as given, for an entry of 1."""
    rows = [
        f"cert {node} {entry} {10**6 * 2**36 * guess} {entry * spread}"
        for node, entry, guess in zip("ABab", entries, millivolts)
    ]
    return "\n".join(["certificate", f"nodes 4 north {north} east {east}", *rows, "end", ""])


def chain(resistance: int) -> dict[str, str]:
    """The files of 64 nodes in a row, A and 63 buses, whose elements have `resistance` micro-ohm each, and B at its far end.

    Without TB only the ground of A earths the row. The entries are then k(128 - k) at its k-th node, 4096 at the last.
    """
    buses = [f"b{place}" for place in range(1, 64)]
    lines = [
        f'{{ name = "L{start}", from = "{start}", to = "{end}", zone = "Z", resistance = {3 * resistance}, '
        "north = 0, east = 0 },"
        for start, end in zip(buses, buses[1:])
    ]
    case = [
        "format = 1",
        'zone = [{ name = "Z", latitude = 6000, beta = 100 }]',
        f'substation = [{{ name = "A", ground = {resistance} }}, {{ name = "B", ground = {resistance} }}]',
        "bus = [",
        *(f'{{ name = "{bus}", substation = "{"B" if bus == "b63" else "A"}" }},' for bus in buses),
        "]\nline = [",
        *lines,
        "]\ntransformer = [",
        *(
            f'{{ name = "{name}", kind = "delta-wye", high_volts = 345000, high = "{bus}", '
            f"high_resistance = {3 * resistance} }},"
            for name, bus in (("TA", "b1"), ("TB", "b63"))
        ),
        "]",
    ]
    counts = "below 2 reaches 0 undecided 0 outside 0"
    report = [
        "outage",
        "width 100 threshold 75000 field 8000",
        *(f"outage L{bus} {counts}" for bus in buses[:-1]),
        f"outage TA {counts}",
        "outage TB unresolved b63",
        "transformer TA worst 0 2 below",
        "transformer TB worst 0 2 below",
        "end",
    ]
    entries = {"A": 127, "B": 1} | {bus: place * (128 - place) for place, bus in enumerate(buses, 2)}
    rows = [f"cert {node} {entry} 0 0" for node, entry in entries.items()]
    files = {"case": "\n".join(case), "outage": "\n".join([*report, ""])}
    for side, field in (("north", "north 8000 east 0"), ("east", "north 0 east 8000")):
        files[f"certs/TB.{side}.cert"] = "\n".join(["certificate", f"nodes 65 {field}", *rows, "end", ""])
    return files


FILES = {
    "case": LOOP,
    "field": FIELD,
    "screen": SCREEN,
    "outage": OUTAGE,
    "north": certificate(8000, 0, [31, 31, 33, 33], [-150000, 150000, -165000, 165000]),
    "east": certificate(0, 8000, [31, 31, 33, 33], [-200000, 200000, -220000, 220000]),
    "certs/L.north.cert": certificate(8000, 0, [21, 21, 22, 22], [0, 0, 0, 0]),
    "certs/L.east.cert": certificate(0, 8000, [21, 21, 22, 22], [0, 0, 0, 0]),
    "certs/TA.north.cert": certificate(8000, 0, [1, 31, 34, 33], [0, 0, -480000, 0]),
    "certs/TA.east.cert": certificate(0, 8000, [1, 31, 34, 33], [0, 0, -640000, 0]),
    "certs/TB.north.cert": certificate(8000, 0, [31, 1, 33, 34], [0, 0, 0, 480000]),
    "certs/TB.east.cert": certificate(0, 8000, [31, 1, 33, 34], [0, 0, 0, 640000]),
}
OF_FIELD = ["--report=field", "--cert=north"]
OF_SCREEN = ["--report=screen", "--north=north", "--east=east"]
OF_OUTAGE = ["--report=outage", "--certs=certs"]


class Judging(unittest.TestCase):
    def judged(self, words: list[str], **changed: str) -> tuple[int, str, str]:
        """The status, the last line, and the line on the error stream, with other files in place of some."""
        output, told, before = io.StringIO(), io.StringIO(), os.getcwd()
        with tempfile.TemporaryDirectory() as folder:
            os.mkdir(os.path.join(folder, "certs"))
            for name, content in {**FILES, **changed}.items():
                with open(os.path.join(folder, name), "w", encoding="utf-8") as file:
                    file.write(content)
            os.chdir(folder)
            try:
                with contextlib.redirect_stdout(output), contextlib.redirect_stderr(told):
                    status = judge.main(["--case=case", *words])
            finally:
                os.chdir(before)
        lines = output.getvalue().splitlines() or [""]
        return status, lines[-1], told.getvalue()

    def refused(self, status: int, words: list[str], **changed: str) -> None:
        ended, _, told = self.judged(words, **changed)
        self.assertEqual((ended, told[:7], told.count("\n")), (status, "judge: ", 1), told)

    def test_right_reports_are_shown(self) -> None:
        self.assertEqual(self.judged(OF_FIELD), (0, ALL_OF_FIELD, ""))
        self.assertEqual(self.judged(OF_SCREEN), (0, "6 intervals and 2 verdicts shown, 0 refuted, 0 open", ""))
        self.assertEqual(self.judged(OF_OUTAGE), (0, "2 intervals and 5 verdicts shown, 0 refuted, 0 open", ""))

    def test_a_wrong_interval_is_refuted(self) -> None:
        for old, new in [("A -150000 -150000", "A -150001 -150001"), ("L 149999 150001", "L 149950 150051")]:
            status, last, _ = self.judged(OF_FIELD, field=FIELD.replace(old, new))
            self.assertEqual((status, last), (15, "12 intervals and 2 verdicts shown, 1 refuted, 0 open"))

    def test_an_end_within_what_is_shown_is_open(self) -> None:
        spread = certificate(8000, 0, [31, 31, 33, 33], [-150000, 150000, -165000, 165000], 10**6)
        off = spread.replace(str(10**6 * 2**36 * 150000), str(10**6 * 2**36 * 150000 + 1000))
        status, last, _ = self.judged(OF_FIELD, north=off)
        self.assertEqual((status, last), (16, "12 intervals and 2 verdicts shown, 0 refuted, 1 open"))

    def test_a_verdict_has_to_be_that_of_its_interval(self) -> None:
        for verdict in ("reaches", "undecided", "outside"):
            status, last, _ = self.judged(OF_FIELD, field=FIELD.replace("50001 below\nend", f"50001 {verdict}\nend"))
            self.assertEqual((status, last), (15, "13 intervals and 1 verdicts shown, 1 refuted, 0 open"))

    def test_outages_without_certificates_are_open(self) -> None:
        with_none = {name: content for name, content in FILES.items() if not name.startswith("certs/")}
        with unittest.mock.patch.dict(FILES, with_none, clear=True):
            self.assertEqual(self.judged(OF_OUTAGE)[0], 16)

    def test_idle_and_unearthed_outages_are_decided(self) -> None:
        counts = "below 2 reaches 0 undecided 0 outside 0"
        for word in ("idle", "unearthed a", "unresolved a"):
            self.assertEqual(self.judged(OF_OUTAGE, outage=OUTAGE.replace(f"L {counts}", f"L {word}"))[0], 15)
        self.refused(13, [*OF_OUTAGE, "--switch=s"], s="time,item,action\n0,L,open\n")
        alone = LOOP.replace('{ name = "B", ground = 1000000 }', '{ name = "B" }')
        report = OUTAGE.replace(f"L {counts}", "L unearthed B").replace(f"TA {counts}", "TA unearthed B")
        report = report.replace("TB worst 0 2", "TB worst 0 0")  # no winding of it stands there
        only_a = {side: certificate(*field, [21, 1, 22, 23], [0, 0, 0, volts]).replace("cert B 1 0 0", "cert B dead")
                  for side, field, volts in (("north", (8000, 0), 480000), ("east", (0, 8000), 640000))}
        files = {f"certs/TB.{side}.cert": text.replace("A 21", "A 31").replace("a 22", "a 33").replace("b 23", "b 34")
                 for side, text in only_a.items()}
        status, last, _ = self.judged(OF_OUTAGE, case=alone, outage=report, **files)
        self.assertEqual((status, last), (0, "2 intervals and 5 verdicts shown, 0 refuted, 0 open"))

    def test_unresolved_is_refuted_where_the_rounded_rows_hold(self) -> None:
        counts = "below 2 reaches 0 undecided 0 outside 0"
        whole, rounded = chain(1000000), chain(1000003)  # of 1 siemens each nothing is lost by rounding
        for files, word, status, last in [
            (whole, "unresolved b63", 15, "0 intervals and 0 verdicts shown, 1 refuted, 67 open"),
            (whole, counts, 16, "0 intervals and 1 verdicts shown, 0 refuted, 67 open"),
            (rounded, "unresolved b63", 16, "0 intervals and 0 verdicts shown, 0 refuted, 68 open"),
            (rounded, counts, 16, "0 intervals and 0 verdicts shown, 0 refuted, 68 open"),
            (rounded, "unresolved TB", 15, "0 intervals and 0 verdicts shown, 1 refuted, 67 open"),
        ]:
            files = files | {"outage": files["outage"].replace("TB unresolved b63", f"TB {word}")}
            with unittest.mock.patch.dict(FILES, files, clear=True):
                self.assertEqual(self.judged(OF_OUTAGE), (status, last, ""), word)

    def test_where_no_winding_stands_the_worst_current_is_0(self) -> None:
        status, last, _ = self.judged(OF_SCREEN, case=WITH_DELTA, screen=SCREEN_WITH_DELTA)
        self.assertEqual((status, last), (0, "9 intervals and 3 verdicts shown, 0 refuted, 0 open"))
        status, last, _ = self.judged(OF_OUTAGE, case=WITH_DELTA, outage=OUTAGE_WITH_DELTA)
        self.assertEqual((status, last), (0, "3 intervals and 7 verdicts shown, 0 refuted, 0 open"))
        wide = OUTAGE_WITH_DELTA.replace("worst 0 0 outside", "worst 0 100 outside")
        status, last, _ = self.judged(OF_OUTAGE, case=WITH_DELTA, outage=wide)
        self.assertEqual((status, last), (15, "2 intervals and 7 verdicts shown, 1 refuted, 0 open"))
        wide = SCREEN_WITH_DELTA.replace("worst 0 0 outside", "worst 0 100 outside")
        status, last, _ = self.judged(OF_SCREEN, case=WITH_DELTA, screen=wide)
        self.assertEqual((status, last), (15, "8 intervals and 3 verdicts shown, 1 refuted, 0 open"))

    def test_the_third_interval_is_made_of_the_first_two(self) -> None:
        for old, new in [("83332 83335", "83331 83335"), ("83332 83335", "83332 83336"), ("-50001 -4", "-50010 -4")]:
            status, last, _ = self.judged(OF_SCREEN, screen=SCREEN.replace(old, new, 1))
            self.assertEqual((status, last), (15, "5 intervals and 2 verdicts shown, 1 refuted, 0 open"))

    def test_a_byte_order_mark_in_front_of_the_case_is_dropped(self) -> None:
        self.assertEqual(self.judged(OF_FIELD, case="\ufeff" + LOOP), (0, ALL_OF_FIELD, ""))
        self.refused(5, OF_FIELD, case="\ufeff\ufeff" + LOOP)

    def test_counts_have_to_be_those_of_the_currents(self) -> None:
        for below, reaches, undecided in ((1, 1, 0), (1, 0, 1), (2, 1, 0)):
            counts = f"L below {below} reaches {reaches} undecided {undecided}"
            report = OUTAGE.replace("L below 2 reaches 0 undecided 0", counts)
            self.assertEqual(self.judged(OF_OUTAGE, outage=report)[0], 15)

    def test_reports_that_are_not_whole_are_refused(self) -> None:
        lines = FIELD.splitlines(keepends=True)
        for place in range(len(lines)):
            self.refused(14, OF_FIELD, field="".join(lines[:place] + lines[place + 1 :]))
            self.refused(14, OF_FIELD, field="".join(lines[:place] + lines[place : place + 1] + lines[place:]))
        for old, new in [("node A", "node B"), (" 75000", " 75001"), ("-150000", "-0150000"), ("end\n", "end")]:
            self.refused(14, OF_FIELD, field=FIELD.replace(old, new))
        self.refused(14, OF_FIELD, field=FIELD.replace("TA 49999", "TA 49998"))

    def test_other_certificates_are_refused(self) -> None:
        self.refused(13, ["--report=field", "--cert=east"])
        self.refused(13, ["--report=screen", "--north=east", "--east=north"])
        for old, new in [("A 31", "A 30"), ("-1030", "-1031"), ("t a", "t b"), ("nodes 4", "nodes 5"), ("end", "dead")]:
            self.refused(13, OF_FIELD, north=FILES["north"].replace(old, new))
        self.refused(13, [*OF_FIELD, "--switch=s"], s="time,item,action\n0,L,open\n")
        self.refused(14, [*OF_FIELD, "--switch=s"], s="time,item,action\n0,L,open\n", north=FILES["certs/L.north.cert"])

    def test_faulty_cases_and_switchings_are_refused(self) -> None:
        for old, new in [
            ("format = 1", "format = 4"), ("latitude = 6000", "latitude = 9001"), ("beta = 100", "beta = 1.0"),
            ('"TB"', '"TA"'), ('"TB"', '"T B"'), ('to = "b"', 'to = "c"'), ('to = "b"', 'to = "a"'),
            ('"delta-wye"', '"line"'), ("300000 },\n]", "300000, neutral = 5000 },\n]"), ("zone = [{", "zone = {"),
        ]:
            self.assertIn(old, LOOP)
            self.refused(5, OF_FIELD, case=LOOP.replace(old, new))
        for rows in ["", "time,item\n", "time,item,action\n0,L,block\n", "time,item,action\n1,L,open\n0,L,close\n"]:
            self.refused(7, [*OF_FIELD, "--switch=s"], s=rows)

    def test_an_error_stream_that_takes_nothing_changes_no_status(self) -> None:
        here = os.path.dirname(os.path.abspath(judge.__file__))
        for script, words, status in (
            ("recheck.py", ["--case=none", "--cert=none"], 3),
            ("recheck.py", ["--case"], 2),
            ("judge.py", ["--case=none", "--report=none", "--cert=none"], 3),
        ):
            for stream in ("2>/dev/full", "2>&-"):
                shell = f'exec "$@" {stream}'
                ran = subprocess.run(
                    ["sh", "-c", shell, "sh", sys.executable, "-B", os.path.join(here, script), *words],
                    stdin=subprocess.DEVNULL,
                    stdout=subprocess.PIPE,
                )
                self.assertEqual((ran.returncode, ran.stdout), (status, b""), (script, words, stream))

    def test_words_and_files_that_are_not_there_are_refused(self) -> None:
        self.refused(2, [])
        self.refused(2, [*OF_FIELD, "--cert=north"])
        self.refused(2, [*OF_FIELD, "--east=east"])
        self.refused(3, ["--report=nothing", "--cert=north"])
        self.refused(3, ["--report=outage", "--certs=nothing"])


if __name__ == "__main__":
    unittest.main()
