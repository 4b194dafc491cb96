"""`gicdesk outages`: over a program that stands for the real one, and over the real one where it is built.

The network of most tests is two substations with a ground of 1 ohm and a winding of a tenth of an ohm each, for the
three phases together, and two lines K and L of 1 ohm between them. In 8 V/km to the north 800 V stand in each line.
With both the loop has 2.7 ohm, so 296.3 A flow, 98.765 A a phase; with one it has 3.2 ohm, and a phase has 83.333 A.
"""

import contextlib
import csv
import os
import sys
import unittest
from unittest import mock

from shared import BUILT, EXAMPLES, FAKE, REPORTS, DeskTest, desk

from gicdesk.events import BaseSwitchings, one_event
from gicdesk.outages import Worst, worst_of
from gicdesk.progress import Progress
from gicdesk.reports import ScreenUnit
from gicdesk.forms import Interval

LIST = """\
list
nodes 4 elements 7
element A ground A * 1 1000000
element B ground B * 1 1000000
element L line a b 3 3000000
element K line a b 3 3000000
element TA high a TA 3 300000
element TB high b B 3 300000
element TA neutral TA A 1 1800000
end
"""
VOLTS = "volts\nnorth 0 east 0\nline L 0\nline K 0\nline S 0\nend\n"  # S has a series capacitor: no element
OUTAGE = """\
outage
width 100 threshold 75000 field 8000
outage L below 0 reaches 2 undecided 0 outside 1
outage K below 0 reaches 2 undecided 0 outside 1
outage S idle
outage TA below 2 reaches 0 undecided 0 outside 1
outage TB unearthed B
outage D idle
transformer TA worst 83333 83335 reaches
transformer TB worst 83333 83335 reaches
transformer D worst 0 0 outside
end
"""
BOTH, ONE, NONE = "98765 98767 reaches", "83333 83335 reaches", "0 2 below"
HEADS = "event,item,action\n"


def screen(first: str, second: str) -> str:
    """The report of a screen with the worst currents of TA and TB. D is a delta-delta unit."""
    text = "screen\nwidth 100 threshold 75000 field 8000\n"
    for name, worst in (("TA", first), ("TB", second)):
        text += f"transformer {name} north 0 1 east 0 1 worst {worst}\n"
    return text + "transformer D north 0 0 east 0 0 worst 0 0 outside\nend\n"


class OutagesTest(DeskTest):
    """With reports for the program that stands for the real one."""

    def setUp(self) -> None:
        super().setUp()
        self.reports = self.folder / "reports"
        self.reports.mkdir()
        patch = mock.patch.dict(os.environ, {"FAKE_REPORTS": str(self.reports)})
        patch.start()
        self.addCleanup(patch.stop)
        self.enterContext(contextlib.chdir(self.folder))
        self.file("case.toml", "")
        self.prints("list", LIST)
        self.prints("volts", VOLTS)
        self.prints("outage", OUTAGE)
        self.prints("screen", screen(BOTH, BOTH))
        for item in "KL":
            self.prints(f"screen+{item}", screen(ONE, ONE))
        for items in ("K+L", "TA", "K+TA"):
            self.prints(f"screen+{items}", screen(NONE, NONE))

    def prints(self, name: str, text: str) -> None:
        (self.reports / f"{name}.txt").write_text(text)

    def words(self, *words: object) -> tuple[object, ...]:
        return ("outages", "case.toml", f"--program={FAKE}", *words)

    def events(self, rows: str) -> str:
        return f"--events={self.file('events.csv', HEADS + rows)}"

    def tables(self, *words: object) -> dict[str, list[dict[str, str]]]:
        """The tables that the command puts into a folder."""
        folder = self.folder / "out"
        self.shown = self.done(*self.words(f"--out={folder}", *words))
        tables = {}
        for path in folder.iterdir():
            with open(path, newline="") as file:
                tables[path.stem] = list(csv.DictReader(file))
        return tables


class Events(OutagesTest):
    ROWS = "both lines,K,open\nboth lines,L,open\none line,K,open\nthe unit,TA,open\n"

    def test_the_worst_event_of_each_transformer(self) -> None:
        self.prints("screen+TA", screen(NONE, "90000 90002 reaches"))
        units = {row["transformer"]: row for row in self.tables(self.events(self.ROWS))["units"]}
        self.assertEqual(
            units["TB"],
            {
                "transformer": "TB",
                "no_event_low_A_per_phase": "98.765",
                "no_event_high_A_per_phase": "98.767",
                "no_event_verdict": "reaches",
                "worst_event": "the unit",
                "worst_low_A_per_phase": "90.000",
                "worst_high_A_per_phase": "90.002",
                "worst_verdict": "reaches",
                "perhaps_as_bad": "",
                "events_reaches": "2",
                "events_undecided": "0",
            },
        )
        self.assertEqual([units["TA"]["worst_event"], units["TA"]["worst_high_A_per_phase"]], ["one line", "83.335"])
        self.assertEqual([units["D"]["worst_verdict"], units["D"]["perhaps_as_bad"]], ["outside", ""])

    def test_a_table_of_semicolons(self) -> None:
        rows = (HEADS + self.ROWS).replace(",", ";")
        shown = self.done(*self.words(f"--events={self.file('semicolons.csv', rows)}"))
        self.assertEqual(shown, self.done(*self.words(self.events(self.ROWS))))

    def test_how_each_event_ends(self) -> None:
        self.prints("screen+TA", "gicstudy: unearthed: step 1 node B\n")
        self.prints("screen+K+L", "gicstudy: unresolved: step 1 node a\n")
        tables = self.tables(self.events(self.ROWS))
        cells = [tuple(row.values()) for row in tables["events"]]
        self.assertEqual(
            cells,
            [
                ("", "", "solved", "", "0", "2", "0", "1"),
                ("both lines", "open K; open L", "unresolved", "a", "", "", "", ""),
                ("one line", "open K", "solved", "", "0", "2", "0", "1"),
                ("the unit", "open TA", "unearthed", "B", "", "", "", ""),
            ],
        )
        self.assertIn("3 events: 1 solved, 1 unearthed, 1 unresolved\n", self.shown)
        self.assertIn("both lines  open K; open L  unresolved a\n", self.shown)
        # The currents are those of the networks that could be solved.
        self.assertEqual([row["event"] for row in tables["currents"]], [""] * 3 + ["one line"] * 3)

    def test_what_is_shown(self) -> None:
        shown = self.done(*self.words(self.events(self.ROWS)))
        self.assertEqual(
            shown.splitlines(),
            [
                "case case.toml, threshold 75.000 A, field 8.000 V/km, width 0.100 A",
                "no event: below 0 reaches 2 undecided 0 outside 1",
                "3 events: 3 solved",
                "",
                "event       switchings      ends",
                "both lines  open K; open L  below 2 reaches 0 undecided 0 outside 1",
                "one line    open K          below 0 reaches 2 undecided 0 outside 1",
                "the unit    open TA         below 2 reaches 0 undecided 0 outside 1",
                "",
                "transformer       no event, A          worst, A  verdict  worst event  perhaps as bad",
                "TA           98.765 to 98.767  83.333 to 83.335  reaches  one line",
                "TB           98.765 to 98.767  83.333 to 83.335  reaches  one line",
                "D              0.000 to 0.000    0.000 to 0.000  outside",
            ],
        )

    def test_who_reaches_the_threshold_in_an_event_alone(self) -> None:
        self.prints("screen", screen(NONE, NONE))
        self.prints("screen+K", screen("74990 75010 undecided", ONE))
        shown = self.done(*self.words(self.events(self.ROWS))).splitlines()
        self.assertEqual(shown[3], "below with no event, and reaches in one: TB")
        self.assertEqual(shown[4], "below with no event, and undecided in one: TA")

    def test_the_switchings_of_an_event_come_behind_those_in_force(self) -> None:
        # K is open already; the event closes it and opens TA: the file has a row for each, with times that don't fall.
        switch = self.file("switch.csv", "time,item,action\r\n5,L,close\r\n+060,K,open")
        tables = self.tables(self.events("swap,K,close\nswap,TA,open\n"), f"--switch={switch}")
        cells = [(row["event"], row["switchings"], row["below"]) for row in tables["events"]]
        self.assertEqual(cells, [("", "", "0"), ("swap", "close K; open TA", "2")])
        self.assertEqual([row["worst_event"] for row in tables["units"]], ["swap", "swap", ""])
        self.assertIn(f"case case.toml, switchings {switch}, threshold", self.shown)

    def test_switchings_in_force_whose_last_quotation_mark_is_missing(self) -> None:
        # To the program such a field ends with the file; what comes behind is not to fall into it.
        base = BaseSwitchings(b'time,item,action\r\n5,L,open\r\n+07,L,"close')
        wanted = b"time,item,action\n5,L,open\n+07,L,close\n7,K,open\n"
        self.assertEqual(base.with_event(one_event("K")), wanted)

    def test_a_folder_for_what_is_passing_that_is_full_is_told(self) -> None:
        words = self.words(self.events("one line,K,open\n"))
        for call in ("pathlib.Path.write_bytes", "tempfile.NamedTemporaryFile"):
            with self.subTest(call), mock.patch(call, side_effect=OSError(28, "No space left on device")):
                (line,) = self.refused(*words)
                told = "the switchings of a run can't be written there (No space left on device); look at TMPDIR"
                self.assertEqual(line, f"the temporary folder: {told}")

    def test_the_network_without_an_event_need_not_be_solved(self) -> None:
        self.prints("screen", "gicstudy: unearthed: step 1 node B\n")
        units = self.tables(self.events("one line,K,open\n"))["units"]
        cells = [(row["no_event_verdict"], row["worst_event"], row["worst_verdict"]) for row in units]
        self.assertEqual(cells, [("", "one line", "reaches")] * 2 + [("", "", "outside")])
        self.assertIn("no event: unearthed B\n", self.shown)

    def test_no_event_that_can_be_solved(self) -> None:
        self.prints("screen+K", "gicstudy: unearthed: step 1 node B\n")
        units = self.tables(self.events("one line,K,open\n"))["units"]
        self.assertEqual([row["worst_verdict"] for row in units], ["none"] * 3)

    def test_names_are_quoted_as_csv_needs(self) -> None:
        self.done(*self.words(self.events('"bus, ""west""",K,open\n'), f"--out={self.folder / 'out'}"))
        self.assertIn('\nTA,98.765,98.767,reaches,"bus, ""west""",', (self.folder / "out" / "units.csv").read_text())


class Singles(OutagesTest):
    def test_each_single_item(self) -> None:
        tables = self.tables()
        ends = [(row["event"], row["outcome"], row["node"], row["reaches"]) for row in tables["events"]]
        self.assertEqual(
            ends,
            [
                ("", "solved", "", "2"),
                ("L", "solved", "", "2"),
                ("K", "solved", "", "2"),
                ("S", "idle", "", ""),
                ("TA", "solved", "", "0"),
                ("TB", "unearthed", "B", ""),
                ("D", "idle", "", ""),
            ],
        )
        worst = [(row["worst_event"], row["perhaps_as_bad"], row["worst_high_A_per_phase"]) for row in tables["units"]]
        self.assertEqual(worst, [("L", "K", "83.335"), ("L", "K", "83.335"), ("", "", "0.000")])
        # Of many items only those are shown of which nothing can be said.
        lines = ["6 events: 3 solved, 1 unearthed, 2 idle", "", "event  switchings  ends"]
        lines += ["TB     open TB     unearthed B", ""]
        self.assertEqual(self.shown.splitlines()[2:7], lines)

    def test_a_network_that_can_not_be_solved_is_refused(self) -> None:
        self.prints("screen", "gicstudy: unearthed: step 1 node B\n")
        self.prints("outage", "gicstudy: unearthed: step 1 node B\n")
        (line,) = self.refused(*self.words())
        start = 'case.toml: the program ended with status 8 and "gicstudy: unearthed: step 1 node B"'
        self.assertTrue(line.startswith(start), line)


class Worsts(unittest.TestCase):
    def test_what_may_be_as_bad(self) -> None:
        def row(event: str, low: int, high: int) -> tuple[str, ScreenUnit]:
            return event, ScreenUnit("T", Interval(0, 0), Interval(0, 0), Interval(low, high), "below")

        # The exact current of `near` can lie above that of `worst`, and that of `far` can't: it is below 100.
        worst = worst_of([row("far", 0, 99), row("worst", 100, 120), row("near", 90, 100)])
        self.assertEqual((worst.event, worst.unit.worst, worst.perhaps), ("worst", Interval(100, 120), ("near",)))
        self.assertEqual(worst.perhaps_text, "near")
        many = Worst("worst", worst.unit, tuple(map(str, range(50))))
        self.assertTrue(many.perhaps_text.endswith("; 39; and 10 more"))


class Refusals(OutagesTest):
    def told(self, text: str, *expected: str) -> None:
        """The table of events is refused with these lines behind its name, and nothing is written."""
        path = self.file("events.csv", text)
        lines = self.refused(*self.words(f"--events={path}", f"--out={self.folder / 'out'}"))
        self.assertEqual([line.removeprefix(f"{path} ") for line in lines], list(expected))
        self.assertFalse((self.folder / "out").exists())

    def test_all_rows_that_are_wrong_are_told_at_once(self) -> None:
        self.told(
            f"{HEADS}e,K,trip\ne,KK,open\n,L,open\ne,K\ne,TB,block\ne,a b,open\nf,L,open\nf,L,close\n\n",
            'line 2, action: "trip" is none of open, close, block, unblock; write one of these',
            'line 3, item: "KK" isn\'t a line, a transformer, or a substation with a ground, as open takes; is it K?',
            "line 4, event: it is empty; give each event a name",
            "line 5: it has 2 cells, and not 3: event,item,action",
            'line 6, item: "TB" isn\'t a transformer with a neutral resistor, as block takes; look at the names of '
            "the case",
            'line 7, item: "a b" is no name of a case; allowed are 1 to 32 letters, digits and _ - .',
            "line 9, item: L is in this event already, by line 8; leave one of the two",
        )

    def test_a_near_name_is_one_that_the_action_takes(self) -> None:
        lines = self.refused(*self.words(self.events("e,KK,open\nf,KK,block\ng,KK,open\n")))
        self.assertIn("as open takes; is it K?; so also in line 4", lines[0])
        self.assertIn("as block takes; look at the names of the case", lines[1])

    def test_a_name_that_a_spreadsheet_works_out(self) -> None:
        (line,) = self.refused(*self.words(self.events("=1+1,K,open\n")))
        self.assertTrue(line.endswith('line 2, event: "=1+1" is a formula to a spreadsheet; begin it with another letter'), line)

    def test_another_table(self) -> None:
        words = "and not event,item,action; write these, with commas or semicolons"
        self.told("event\titem\taction\ne\tK\topen\n", f'line 1: the columns are "event\\x09item\\x09action", {words}')
        self.told("", f'line 1: the columns are "", {words}')
        self.told(HEADS, "line 1: it has no event; write a row for each switching of an event")
        self.told(
            f'{HEADS}e,K,trip\n"e,K,open\n',
            'line 2, action: "trip" is none of open, close, block, unblock; write one of these',
            "line 3: it is no table of commas here (unexpected end of data); look at the quotation marks",
        )

    def test_bytes_of_another_code_page(self) -> None:
        path = self.file("events.csv", HEADS.encode() + b"Str\xf6me,K,open\n")
        (line,) = self.refused(*self.words(f"--events={path}"))
        self.assertEqual(line, f"{path} line 2: the byte 0xf6 is no UTF-8; save the file as UTF-8")

    def test_more_rows_than_switchings_may_have(self) -> None:
        self.prints("screen+S", screen(BOTH, BOTH))
        for rows, words in (
            (4095, "events.csv line 2: e has 2 rows, with 4095 of --switch more than 4096; take fewer"),
            (4096, "switch.csv: it has 4096 rows, and none is left for what is taken out; take fewer"),
        ):
            switch = self.file("switch.csv", "time,item,action\n" + "0,S,open\n" * rows)
            (line,) = self.refused(*self.words(self.events("e,K,open\ne,L,open\n"), f"--switch={switch}"))
            self.assertTrue(line.endswith(words), line)

    def test_what_the_program_refuses_is_told_by_the_line_of_the_table(self) -> None:
        # Where the transformers aren't known, a wrong name is found by the program alone.
        self.prints("screen", "gicstudy: unearthed: step 1 node B\n")
        self.prints("screen+K+X", "gicstudy: switch: item in row 2\n")
        self.prints("screen+Y", "gicstudy: switch: item in row 1\n")
        events = self.file("events.csv", f"{HEADS}e,K,open\nf,Y,open\ne,X,open\n")
        lines = self.refused(*self.words(f"--events={events}"))
        words = "docs/FAULTS.md says what it comes from"
        self.assertEqual(
            lines,
            [
                f'{events} line 4: e: the program ended with status 7 and "gicstudy: switch: item in row 2"; {words}',
                f'{events} line 3: f: the program ended with status 7 and "gicstudy: switch: item in row 1"; {words}',
            ],
        )

    def test_a_case_that_the_program_refuses(self) -> None:
        self.prints("screen", "gicstudy: cannot read case\n")
        (line,) = self.refused(*self.words())
        words = "docs/FAULTS.md says what it comes from"
        self.assertEqual(line, f'case.toml: the program ended with status 3 and "gicstudy: cannot read case"; {words}')

    def test_a_program_that_is_none(self) -> None:
        (line,) = self.refused("outages", "case.toml", "--program=/none")
        self.assertEqual(line, "/none: there is no such program that can be run; give its path by --program")
        other = self.file("other", "#!/bin/sh\necho hello\n")
        other.chmod(0o755)
        (line,) = self.refused("outages", "case.toml", f"--program={other}")
        self.assertTrue(line.startswith('the report of gicstudy screen line 1: "hello" begins no report'), line)

    def test_a_folder_that_is_there(self) -> None:
        out = self.folder / "out"
        words = self.words(self.events("e,K,open\n"), f"--out={out}")
        self.done(*words)
        (out / "mine.txt").write_text("mine")
        (line,) = self.refused(*words)
        more = "choose another name, or give --force to replace what the command writes in it"
        self.assertEqual(line, f"{out}: it is there already; {more}")
        self.done(*words, "--force")
        names = ["currents.csv", "events.csv", "mine.txt", "units.csv"]
        self.assertEqual(sorted(path.name for path in out.iterdir()), names)

    def test_too_little_memory_is_told(self) -> None:
        with mock.patch("gicdesk.outages.find_outages", side_effect=MemoryError):
            (line,) = self.refused(*self.words())
        self.assertEqual(line, "there is too little memory; give it more, or leave out what isn't needed")

    def test_words_that_the_program_refuses(self) -> None:
        self.prints("screen", "gicstudy: usage: number --width\n")
        (line,) = self.refused(*self.words("--width=9"))
        self.assertIn('"gicstudy: usage: number --width"', line)

    def test_usage(self) -> None:
        for words in ((), ("outages",), ("outages", "case.toml", "--nothing"), ("fly",)):
            status, out, err = desk(*words)
            self.assertEqual((status, out), (2, ""))
            self.assertIn("usage: gicdesk", err)


class Bars(unittest.TestCase):
    def test_nothing_in_a_pipe_and_a_bar_on_a_terminal(self) -> None:
        for terminal in (False, True):
            stream = mock.Mock(wraps=sys.stderr)
            stream.isatty.return_value = terminal
            stream.write.return_value = None
            progress = Progress(3, stream)
            progress.next("K")
            progress.next("L")
            progress.end()
            written = [call.args[0] for call in stream.write.call_args_list]
            bars = [f"\r\x1b[K[{'.' * 30}] 1 of 3 K", f"\r\x1b[K[{'#' * 10}{'.' * 20}] 2 of 3 L", "\r\x1b[K"]
            self.assertEqual(written, bars if terminal else [])


    def test_the_bar_is_taken_away_where_the_work_is_stopped(self) -> None:
        stream = mock.Mock()
        stream.isatty.return_value = True
        with self.assertRaises(KeyboardInterrupt), Progress(1, stream):
            raise KeyboardInterrupt
        self.assertEqual([call.args[0] for call in stream.write.call_args_list], ["\r\x1b[K"])

    def test_no_error_stream(self) -> None:
        with Progress(1, None) as progress:
            progress.next("K")
        self.assertEqual(progress.done, 1)


@unittest.skipUnless(BUILT.is_file(), "no program is built")
class OverTheProgram(DeskTest):
    def tables(self, case: str, *words: object) -> dict[str, list[dict[str, str]]]:
        folder = self.folder / "out"
        self.done("outages", EXAMPLES / case, f"--program={BUILT}", f"--out={folder}", *words)
        tables = {}
        for path in folder.iterdir():
            with open(path, newline="") as file:
                tables[path.stem] = list(csv.DictReader(file))
        return tables

    def test_each_single_item_of_the_valley(self) -> None:
        # The program's own report of outages has the greatest worst current of each transformer, without a name.
        lines = [line.split(" ") for line in (REPORTS / "valley_outage.txt").read_text().splitlines()]
        tables = self.tables("valley.toml")
        ends = [(row["event"], row["outcome"]) for row in tables["events"][1:]]
        outages = [words for words in lines if len(words) > 1 and words[0] == "outage"]
        self.assertEqual(ends, [(words[1], "idle" if words[2] == "idle" else "solved") for words in outages])
        heads = ("worst_low_A_per_phase", "worst_high_A_per_phase")
        worst = [(row["transformer"], *(row[head].replace(".", "") for head in heads)) for row in tables["units"]]
        self.assertEqual(worst, [(words[1], *words[3:5]) for words in lines if words[0] == "transformer"])

    def test_outages_of_the_region(self) -> None:
        # One screen for each item, made by hand, has these: the transformers that are below the threshold in the whole
        # network and reach it without the item, with the high end of their current.
        recipe = {
            ("LK-IB", "IB-A1"): "155.8",
            ("LK-IB", "IB-A2"): "155.8",
            ("QR-AD", "QR-T1"): "104.4",
            ("QR-AD", "AD-T1"): "98.9",
            ("IB-A1", "IB-A2"): "96.7",
            ("MF-T1", "QR-T1"): "103.9",
            ("DM-G1", "DM-G2"): "82.2",
        }
        items = dict.fromkeys(item for item, _ in recipe)
        rows = "".join(f"{item},{item},open\n" for item in items) + "both,GP-G1,block\nboth,Quarry,open\n"
        tables = self.tables("region.toml", f"--events={self.file('events.csv', HEADS + rows)}")
        units = {row["transformer"]: row for row in tables["units"]}
        reaching = {
            (row["event"], row["transformer"]): f"{float(row['worst_high_A_per_phase']):.1f}"
            for row in tables["currents"]
            if row["event"] and row["verdict"] == "reaches" and units[row["transformer"]]["no_event_verdict"] == "below"
        }
        self.assertEqual(reaching, recipe)
        worst = {name: units[name]["worst_event"] for name in ("QR-T1", "AD-T1", "IB-A1")}
        self.assertEqual(worst, {"QR-T1": "QR-AD", "AD-T1": "QR-AD", "IB-A1": "LK-IB"})
        # Grounds and neutral resistors are items too. The only winding of GP-G1 runs to a neutral that is blocked then.
        self.assertEqual(tables["events"][-1]["switchings"], "block GP-G1; open Quarry")
        currents = {(row["event"], row["transformer"]): row["worst_high_A_per_phase"] for row in tables["currents"]}
        self.assertLess(float(currents["both", "GP-G1"]), 0.1)

    def test_a_wrong_name_is_told_with_the_next_one(self) -> None:
        events = self.file("events.csv", f"{HEADS}trip,N-N,open\ntrip,Junction,open\n")
        lines = self.refused("outages", EXAMPLES / "valley.toml", f"--program={BUILT}", f"--events={events}")
        what = "isn't a line, a transformer, or a substation with a ground, as open takes"
        self.assertEqual(lines[0], f'{events} line 2, item: "N-N" {what}; is it N-M?')
        self.assertTrue(lines[1].startswith(f'{events} line 3, item: "Junction" {what}'), lines[1])


if __name__ == "__main__":
    unittest.main()
