#!/usr/bin/env python3
"""Tests of the table of wrong edits, and of what tries them, with a stand-in for the toolchain.

    python3 .ci/tests.py trials/tests/test_edits.py
"""

from __future__ import annotations

import contextlib
import fcntl
import io
import os
import re
import signal
import subprocess
import sys
import tempfile
import time
import unittest
from pathlib import Path
from typing import NamedTuple
from unittest import mock

import edits
from crates import Fault
from edit_state import FILE, Refusal, key_of, oldest, read_state, record, write_state
from paths import HERE, TOP
from referee.words import MODES
from sources import read_sources

# The gate tries no more.
MOST_IN_GATE = 130
FOLDERS = {"gate": edits.GATE, "demand": edits.ON_DEMAND}
KINDS = ("headline", "mode", "law", "call", "width of", "text of", "order of")
SENTENCES = range(1, 17)
WITH_A_WIDTH = ("field", "screen", "outage", "study", "series", "make")
ORDERS = ("the words", "the files", "the case", "the storm", "switchings", "the certificate")
# The laws of the promises that no edit breaks.
LAWS_WITHOUT_AN_EDIT = (
    "any_grounds",
    "autotransformer_terminal",
    "bound_networks_are_solved",
    "capped",
    "certificate",
    "diagonal",
    "elimination",
    "first_share",
    "greatest_over_all_orientations",
    "item",
    "last_row",
    "least_capped_vector",
    "limits",
    "linear_views",
    "losses_are_bounded",
    "no_effect",
    "parts",
    "passing",
    "peak_is_absolute",
    "peak_is_narrow",
    "potential",
    "potential_bound",
    "program_headline",
    "rounded_residual",
    "second_share",
    "settled",
    "sharp",
    "square",
    "starts",
    "superposed_effective",
    "superposed_width",
    "superposition",
    "sweeps_converge",
    "text",
    "text_determines_potentials",
    "usage_is_of_words",
    "worked_case",
    "worked_cases",
    "worked_no_ground",
    "worked_one_ground",
    "worked_shares",
    "worked_starts",
    "worked_step",
    "worst_interval",
    "worst_verdict",
)


class Row(NamedTuple):
    """A line of the table."""

    place: str
    crate: str
    name: str
    guards: tuple[str, ...]
    words: str


def read_row(line: str) -> Row:
    left, *rest = line.split(" | ")
    place, crate, name = left.split()
    guards, words = rest if rest else ("", "")
    return Row(place, crate, name, tuple(guards.split(", ")) if guards else (), words)


def read_rows() -> list[Row]:
    lines = (TOP / "trials/edits.txt").read_text(encoding="utf-8").splitlines()
    return [read_row(it) for it in lines if it and not it.startswith("#")]


def why_not_applied(crate: Path, edit: str) -> str | None:
    """Why an edit can't be applied to its crate today, if it can't: each text that it changes stands once in its file."""
    texts: dict[str, str] = {}
    path = old = ""
    for line in edit.splitlines():
        if line.startswith("file: "):
            path = line.removeprefix("file: ")
            if not path.startswith(("src/", "specs/", "proofs/")) or not (crate / path).is_file():
                return f"there is no file {path}"
            texts.setdefault(path, (crate / path).read_text(encoding="utf-8"))
        elif line.startswith("old: "):
            old = line.removeprefix("old: ")
        elif line.startswith("new:"):
            if not path or not old or texts[path].count(old) != 1:
                return f"'{old}' doesn't stand once in {path or 'a file'}"
            texts[path] = texts[path].replace(old, line.removeprefix("new:").removeprefix(" "))
            old = ""
    return None if texts else "it changes nothing"


class Table(unittest.TestCase):
    def setUp(self) -> None:
        self.rows = read_rows()
        self.gate = [it for it in self.rows if it.place == "gate"]
        self.guards = {guard for row in self.gate for guard in row.guards}
        self.promises = (TOP / "docs/PROMISES.md").read_text(encoding="utf-8")

    def test_table_and_folders_agree(self) -> None:
        told = sorted(f"crates/{it.crate}/{FOLDERS[it.place]}/{it.name}.edit" for it in self.rows)
        found = sorted(str(it.relative_to(TOP)) for it in TOP.glob("crates/*/*/*.edit"))
        self.assertEqual((sorted({*told} - {*found}), sorted({*found} - {*told})), ([], []), "told and not there, there and not told")

    def test_crates_and_names_rise(self) -> None:
        names = [(it.crate, it.name) for it in self.rows]
        self.assertEqual(names, sorted(set(names)))

    def test_each_edit_can_be_applied(self) -> None:
        for row in self.rows:
            with self.subTest(f"{row.crate} {row.name}"):
                crate = TOP / "crates" / row.crate
                edit = (crate / FOLDERS[row.place] / f"{row.name}.edit").read_text(encoding="utf-8")
                self.assertIsNone(why_not_applied(crate, edit))

    def test_what_was_refused_is_an_edit(self) -> None:
        names = {(it.crate, it.name) for it in self.rows}
        self.assertEqual([it for it in read_state(TOP) if it not in names], [])

    def test_gate_has_few(self) -> None:
        self.assertLessEqual(len(self.gate), MOST_IN_GATE)

    def test_what_the_gate_tries_guards_something(self) -> None:
        for row in self.gate:
            with self.subTest(f"{row.crate} {row.name}"):
                self.assertTrue(row.guards and row.words)

    def test_what_is_guarded_is_of_a_known_kind(self) -> None:
        for row in self.rows:
            with self.subTest(f"{row.crate} {row.name}"):
                self.assertEqual([it for it in row.guards if not it.startswith(KINDS)], [])

    def test_each_sentence_of_the_headline_has_an_edit(self) -> None:
        told = re.findall(r"(?m)^(\d+)\. ", self.promises.partition("## Mode by mode")[0])
        self.assertEqual([int(it) for it in told], list(SENTENCES))
        self.assertEqual([it for it in SENTENCES if f"headline {it}" not in self.guards], [])

    def test_each_mode_has_an_edit_and_one_of_its_text(self) -> None:
        told = re.findall(r"(?m)^- \*\*`(\w+)`\*\* needs", self.promises)
        self.assertEqual(sorted(told), sorted(MODES))
        wanted = [f"{kind} {it}" for kind in ("mode", "text of") for it in MODES]
        self.assertEqual([it for it in wanted if it not in self.guards], [])

    def test_each_width_and_each_order_has_an_edit(self) -> None:
        wanted = [f"width of {it}" for it in WITH_A_WIDTH] + [f"order of {it}" for it in ORDERS]
        self.assertEqual([it for it in wanted if it not in self.guards], [])

    def test_laws_and_calls_are_those_of_the_promises(self) -> None:
        guards = {guard for row in self.rows for guard in row.guards}
        names = {guard.split()[1] + ("_law" if guard.startswith("law ") else "") for guard in guards if guard.startswith(("law ", "call "))}
        self.assertEqual([it for it in sorted(names) if not re.search(rf"`{it}`", self.promises)], [])

    def test_each_law_of_the_promises_has_an_edit_or_is_listed(self) -> None:
        told = {it.removesuffix("_law") for it in re.findall(r"`(\w+_law)`", self.promises)}
        guarded = {guard.removeprefix("law ") for row in self.rows for guard in row.guards}
        self.assertEqual(sorted(told - guarded), sorted(LAWS_WITHOUT_AN_EDIT))


# A crate's source tells how its proof ends, and an edit's text whether it is refused.
KIT = '''#!/usr/bin/env python3
import os, sys, time


class Crate:
    cuts_libraries = False

    def __init__(self, folder, root, known):
        self.folder, self.name = folder, os.path.basename(folder)
        self.is_program = os.path.isfile(f"{folder}/src/main.rt")
        with open(f"{folder}/src/" + ("main.rt" if self.is_program else "lib.rt")) as it:
            self.text = it.read()
        with open(f"{root}/crates.txt") as it:
            lines = dict(line.split(":") for line in it)
        self.below = lines[self.name].split()

    def words(self, flags, keeps):
        return flags

    def prove(self, words):
        assert words[0] == "check"
        return self.status()

    def status(self):
        lacking = [it for it in self.below if not os.path.isdir(f"{self.folder}/../{it}/out/rlib")]
        if lacking or "FAILS" in self.text:
            print(f"{self.name} isn't proved {lacking}")
            return 1
        return 0

    def call(self, words):
        raise AssertionError(words)

    def build_rlib(self, flags, anew):
        assert anew and self.cuts_libraries
        os.makedirs(f"{self.folder}/out/rlib")
        return self.status()


class rtlib:
    Crate = Crate
    guarded = staticmethod(lambda: [])


def must_fail_all(crate, edits, flags):
    for it in edits:
        with open(it) as file:
            text = file.read()
        if "STOPS" in text:
            sys.exit("stopped")
        if "SLEEPS" in text:
            print("it sleeps", flush=True)
            time.sleep(100)
        name = os.path.basename(it)
        yield ("refused" in text, f"must-fail {crate.name}/{name}: " + ("refused" if "refused" in text else "NOT REFUSED"))


if __name__ == "__main__":
    print("kit 1")
'''


# A call of which a second signal comes while it removes what it has made.
SIGNALLED_TWICE = '''
import os, shutil, signal, sys
from pathlib import Path

import edits

removed = shutil.rmtree


def remove(*words, **how):
    os.kill(os.getpid(), signal.SIGINT)
    removed(*words, **how)


shutil.rmtree = remove
sys.exit(edits.main([], Path(sys.argv[1])))
'''


class State(unittest.TestCase):
    def setUp(self) -> None:
        folder = tempfile.TemporaryDirectory()
        self.addCleanup(folder.cleanup)
        self.top = Path(folder.name)

    def test_without_a_file_nothing_was_tried(self) -> None:
        self.assertEqual(read_state(self.top), {})

    def test_what_is_written_is_read(self) -> None:
        state = {("b", "x"): Refusal("1", "2026-12-02"), ("a", "y"): Refusal("2", "2026-12-01")}
        write_state(self.top, state)
        self.assertEqual(read_state(self.top), state)
        self.assertEqual((self.top / FILE).read_text(), "crate,edit,commit,day\na,y,2,2026-12-01\nb,x,1,2026-12-02\n")

    def test_another_table_is_refused(self) -> None:
        for text in ("", "crate,edit\n", "crate,edit,commit,day\na,b,c\n"):
            with self.subTest(text):
                (self.top / FILE).parent.mkdir(exist_ok=True)
                (self.top / FILE).write_text(text)
                with self.assertRaises(Fault):
                    read_state(self.top)

    def test_edits_that_are_gone_are_forgotten(self) -> None:
        write_state(self.top, {("a", "gone"): Refusal("1", "2026-12-01"), ("a", "kept"): Refusal("1", "2026-12-01")})
        record(self.top, [("a", "kept"), ("a", "new")], [("a", "new")], [], Refusal("2", "2026-12-02"))
        self.assertEqual([*read_state(self.top)], [("a", "kept"), ("a", "new")])

    def test_those_never_tried_are_the_oldest(self) -> None:
        paths = [Path(f"crates/a/wrong/{it}.edit") for it in ("late", "never", "early", "nor")]
        state = {("a", "late"): Refusal("1", "2026-12-02"), ("a", "early"): Refusal("1", "2026-11-30")}
        self.assertEqual([key_of(it)[1] for it in oldest(paths, state, 3)], ["never", "nor", "early"])


class Ended(NamedTuple):
    status: int
    out: str
    err: str


class Trials(unittest.TestCase):
    def setUp(self) -> None:
        folder = tempfile.TemporaryDirectory()
        self.addCleanup(folder.cleanup)
        self.folder = Path(folder.name)
        self.top = self.folder / "top"
        self.write("crates.txt", "low:\nhigh: low\nprogram: low high\ngicstudy: high\n")
        self.write("build/seconds.txt", "# none\nlow 3\n")
        for name in ("low", "high"):
            self.write(f"crates/{name}/src/lib.rt", f"// {name}\n")
        for name in ("program", "gicstudy"):
            self.write(f"crates/{name}/src/main.rt", f"// {name}\n")
        self.write("crates/low/wrong/one.edit", "refused")
        self.write("crates/low/wrong/two.edit", "refused")
        self.write("crates/low/must-fail/three.edit", "refused")
        self.write("crates/program/wrong/four.edit", "refused")
        self.write_kit(KIT)

    def write(self, path: str, text: str) -> None:
        file = self.top / path
        file.parent.mkdir(parents=True, exist_ok=True)
        file.write_text(text, encoding="utf-8")

    def write_kit(self, text: str) -> None:
        rt = self.folder / "bin/rt"
        rt.parent.mkdir(exist_ok=True)
        rt.write_text(text, encoding="utf-8")
        rt.chmod(0o755)

    def commit(self) -> None:
        git = ["git", "-C", str(self.top), "-c", "user.name=T", "-c", "user.email=t@example"]
        for it in (["init", "-q"], ["add", "-A"], ["commit", "-q", "--allow-empty", "-m", "t"]):
            subprocess.run([*git, *it], check=True, stdin=subprocess.DEVNULL)

    def tried(self, *words: str) -> Ended:
        self.commit()
        path = f"{self.folder / 'bin'}:{os.environ['PATH']}"
        scratch = self.folder / "scratch"
        scratch.mkdir(exist_ok=True)
        out, err = io.StringIO(), io.StringIO()
        with mock.patch.dict(os.environ, {"PATH": path}), mock.patch.object(tempfile, "tempdir", str(scratch)):
            with contextlib.redirect_stdout(out), contextlib.redirect_stderr(err), mock.patch.object(edits, "stop_on_signals"):
                status = edits.main(list(words), self.top)
        self.assertEqual(list(scratch.iterdir()), [])
        return Ended(status, out.getvalue(), err.getvalue())

    def last(self, ended: Ended) -> str:
        return ended.out.splitlines()[-1]

    def test_all_on_demand_are_refused(self) -> None:
        ended = self.tried()
        self.assertEqual((ended.status, self.last(ended)), (0, "3 passed, 0 failed"))
        self.assertIn("must-fail low/one.edit: refused", ended.out)
        self.assertNotIn("three", ended.out)
        self.assertIn("high is proved", ended.out)

    def test_those_of_the_gate_too(self) -> None:
        ended = self.tried("--all", "--jobs", "2")
        self.assertEqual((ended.status, self.last(ended)), (0, "4 passed, 0 failed"))

    def test_a_named_crate(self) -> None:
        ended = self.tried("low")
        self.assertEqual((ended.status, self.last(ended)), (0, "2 passed, 0 failed"))
        self.assertNotIn("high is proved", ended.out)

    def test_one_that_is_not_refused_fails(self) -> None:
        self.write("crates/low/wrong/two.edit", "still proved")
        ended = self.tried()
        self.assertEqual((ended.status, self.last(ended)), (1, "2 passed, 1 failed"))
        self.assertIn("failed: must-fail low/two.edit: NOT REFUSED", ended.out)

    def test_edits_that_were_not_tried_fail(self) -> None:
        self.write("crates/low/wrong/two.edit", "STOPS")
        ended = self.tried("low")
        self.assertEqual((ended.status, self.last(ended)), (1, "1 passed, 1 failed"))
        self.assertIn("not all edits were tried", ended.out)

    def test_no_edit_passes_where_its_crate_or_one_below_is_not_proved(self) -> None:
        self.write("crates/high/src/lib.rt", "// FAILS\n")
        ended = self.tried()
        self.assertEqual((ended.status, self.last(ended)), (1, "2 passed, 1 failed"))
        self.assertIn("program: its 1 edits aren't tried, since high isn't proved", ended.out)

    def state(self) -> list[tuple[str, str]]:
        return [*read_state(self.top)]

    def test_what_was_refused_is_kept(self) -> None:
        self.write("crates/low/wrong/two.edit", "still proved")
        self.tried()
        self.assertEqual(self.state(), [("low", "one"), ("program", "four")])
        found = read_state(self.top)["low", "one"]
        self.assertRegex(found.commit, "^[0-9a-f]{8}$")
        self.assertEqual(found.day, edits.today())

    def test_what_is_no_longer_refused_is_forgotten(self) -> None:
        self.tried("low")
        self.write("crates/low/wrong/two.edit", "still proved")
        self.tried("low")
        self.assertEqual(self.state(), [("low", "one")])

    def test_what_was_told_before_a_trial_ended_early_is_kept(self) -> None:
        self.write("crates/low/wrong/two.edit", "STOPS")
        self.tried("low")
        self.assertEqual(self.state(), [("low", "one")])

    def test_the_oldest_are_tried(self) -> None:
        ended = self.tried("--oldest", "1")
        self.assertEqual((self.last(ended), self.state()), ("1 passed, 0 failed", [("low", "one")]))
        ended = self.tried("--oldest", "2")
        self.assertEqual((self.last(ended), self.state()), ("2 passed, 0 failed", [("low", "one"), ("low", "two"), ("program", "four")]))
        write_state(self.top, read_state(self.top) | {("low", "two"): Refusal("a", "2026-01-01")})
        ended = self.tried("--oldest", "1")
        self.assertIn("must-fail low/two.edit: refused", ended.out)
        self.assertEqual(read_state(self.top)["low", "two"].day, edits.today())

    def built(self) -> Path:
        """Another checkout of the same sources."""
        built = self.folder / "built"
        subprocess.run(["cp", "-r", str(self.top), str(built)], check=True)
        return built

    def test_libraries_of_the_same_sources_are_taken(self) -> None:
        built = self.built()
        its_sum = read_sources(self.top).sums("kit 1")["low"]
        for name, text in (("low", its_sum), ("high", "another")):
            (built / f"crates/{name}/out/rlib").mkdir(parents=True)
            (built / f"crates/{name}/{edits.MARK}").write_text(text)
        ended = self.tried("--top", str(built))
        self.assertEqual((ended.status, self.last(ended)), (0, "3 passed, 0 failed"))
        self.assertIn("1 libraries are there", ended.out)
        self.assertNotIn("low is proved", ended.out)
        self.assertIn("high is proved", ended.out)
        self.assertEqual([it.name for it in (built / "crates/high/out").iterdir()], ["rlib"])

    def test_no_build_goes_on_in_a_checkout_whose_libraries_are_used(self) -> None:
        folder = os.open(self.built() / "crates", os.O_RDONLY)
        self.addCleanup(os.close, folder)
        began = edits.Trial.run
        free: list[bool] = []

        def run(trial: edits.Trial) -> None:
            try:
                fcntl.flock(folder, fcntl.LOCK_EX | fcntl.LOCK_NB)
                free.append(True)
            except BlockingIOError:
                free.append(False)
            began(trial)

        with mock.patch.object(edits.Trial, "run", run):
            self.assertEqual(self.tried("--top", str(self.folder / "built")).status, 0)
        self.assertEqual(free, [False])
        fcntl.flock(folder, fcntl.LOCK_EX | fcntl.LOCK_NB)

    def test_a_second_signal_cuts_no_cleaning_up(self) -> None:
        self.write("crates/low/wrong/one.edit", "SLEEPS")
        self.commit()
        scratch = self.folder / "scratch"
        scratch.mkdir()
        ran = subprocess.Popen(
            [sys.executable, "-B", "-c", SIGNALLED_TWICE, str(self.top)],
            env={
                **os.environ,
                "PATH": f"{self.folder / 'bin'}:{os.environ['PATH']}",
                "PYTHONPATH": str(HERE),
                "TMPDIR": str(scratch),
            },
            stdin=subprocess.DEVNULL,
            stdout=subprocess.DEVNULL,
            stderr=subprocess.PIPE,
            text=True,
        )
        until = time.monotonic() + 60
        while not any(it.read_text() for it in scratch.glob("*/clone/try-low.log")) and time.monotonic() < until:
            time.sleep(0.05)
        ran.send_signal(signal.SIGINT)
        _, err = ran.communicate(timeout=60)
        self.assertEqual((ran.returncode, err, list(scratch.iterdir())), (-signal.SIGINT, "", []))

    def test_names_that_are_none(self) -> None:
        for name, why in (("another", "crates.txt doesn't list another"), ("high", "high has no edit in wrong")):
            with self.subTest(name):
                ended = self.tried(name)
                self.assertEqual((ended.status, ended.err), (2, f"edits.sh: {why}\n"))
                self.assertEqual(self.last(ended), "0 passed, 1 failed")

    def test_another_toolchain_is_told(self) -> None:
        self.write_kit(KIT.replace("class rtlib", "class other"))
        ended = self.tried()
        self.assertEqual((ended.status, self.last(ended)), (2, "0 passed, 1 failed"))
        self.assertIn("isn't laid out as the trial of edits expects it", ended.err)


if __name__ == "__main__":
    unittest.main()
