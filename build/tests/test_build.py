"""Whole builds of a small checkout with a toolchain that only looks like one."""

import contextlib
import fcntl
import io
import os
import shutil
import signal
import subprocess
import time
import unittest
from collections.abc import Callable
from pathlib import Path

import main
from builder import TRIED
from checkout import TOP, Checkout
from command import words_of

BUILT = TOP / "crates/gicstudy/out/gicstudy"
PROVED = ["low", "left", "right", "high", "gicstudy"]


def setUpModule() -> None:
    # What runs in the background ignores an interrupt, and behind nohup a hangup; so would the builds started here.
    for number in (signal.SIGINT, signal.SIGHUP):
        if signal.getsignal(number) is signal.SIG_IGN:
            signal.signal(number, signal.SIG_DFL)


def is_held(folder: int) -> bool:
    """Whether another holds the lock of a folder; where none does, none does behind it."""
    try:
        fcntl.flock(folder, fcntl.LOCK_EX | fcntl.LOCK_NB)
    except BlockingIOError:
        return True
    fcntl.flock(folder, fcntl.LOCK_UN)
    return False


class Builds(unittest.TestCase):
    def setUp(self) -> None:
        self.at = Checkout()
        self.addCleanup(self.at.remove)

    def build(self) -> None:
        status, _, said = self.at.prove()
        self.assertEqual(status, 0, said)
        self.at.settle()

    def test_first_build_proves_each_crate_below_once_and_runs_the_program(self) -> None:
        status, out, said = self.at.prove("field", "--case=a b")
        self.assertEqual((status, out), (0, "gicstudy: field --case=a b\n"), said)
        noted = self.at.noted()
        self.assertEqual(sorted(noted), sorted(PROVED))
        self.assertEqual((noted[0], noted[-2:]), ("low", ["high", "gicstudy"]))
        self.assertIn("gicstudy: 0 of 5 crates proved", said)

    def test_nothing_is_left_behind(self) -> None:
        self.build()
        kept = [f"{name}/out/rlib" for name in PROVED[:-1]]
        names = ("build.times", "gicstudy", "gicstudy.places", "gicstudy.proved", "gicstudy.sources")
        self.assertEqual(self.at.left(), sorted([*kept, *(f"gicstudy/out/{it}" for it in names)]))
        self.assertEqual(list(self.at.top.glob("build/**/__pycache__")), [])

    def test_a_built_program_starts_without_python(self) -> None:
        self.build()
        self.assertFalse(self.at.is_looked_at())

    def test_without_its_list_of_places_or_find_it_is_looked_at(self) -> None:
        self.build()
        (self.at.top / "crates/gicstudy/out/gicstudy.places").write_bytes(b"")
        self.assertTrue(self.at.is_looked_at())
        self.assertEqual(self.at.call(has_rt=False)[0], 0)
        self.assertFalse(self.at.is_looked_at())
        (Path(self.at.path_without_python()) / "find").unlink()
        self.assertTrue(self.at.is_looked_at())

    def test_an_older_python_is_told(self) -> None:
        for older in ((3, 10), (3, 6), (2, 7)):
            with contextlib.redirect_stderr(io.StringIO()) as said:
                self.assertEqual(main.main([], older), 1)
            self.assertRegex(said.getvalue(), r"\Agicstudy: .*needs Python 3\.11 or later; the python3 .* is older\n\Z")

    def test_a_build_that_another_has_made_meanwhile_is_none(self) -> None:
        self.build()
        self.assertEqual(self.at.build_again(), (0, ""))
        self.assertEqual(self.at.noted(), [])

    def test_a_record_has_the_time_of_the_sources_and_tells_which_file_the_program_is(self) -> None:
        self.build()
        changes: list[Callable[[], None]] = [lambda: None, lambda: self.at.write("high", "high again")]
        for change in changes:
            change()
            self.at.prove("field")
            program, record, stamp = (self.at.out / f"gicstudy{it}" for it in ("", ".sources", ".proved"))
            self.assertEqual(stamp.stat().st_mtime_ns, program.stat().st_ctime_ns)
            found = program.stat()
            self.assertEqual(stamp.read_text(encoding="utf-8"), f"{found.st_ino} {found.st_size}\n")
        # (a second back, so that a save within the last moments counts as later)
        self.assertLess(record.stat().st_mtime, time.time() - 1)

    def test_a_record_that_is_no_text_tells_nothing(self) -> None:
        self.build()
        record = self.at.top / "crates/gicstudy/out/gicstudy.sources"
        record.write_bytes(b"\xff\n")
        os.utime(record, (1, 1))
        status, _, said = self.at.prove(has_rt=False)
        self.assertEqual(status, 1)
        self.assertRegex(said, r"\Agicstudy: there is no record of the sources of the program, .*\n\Z")
        self.assertEqual(self.at.prove()[0], 0)

    def test_lists_that_cannot_be_read_are_told_in_a_line(self) -> None:
        seconds = self.at.top / "build/seconds.txt"
        for line, told in ((b"low 1 2\n", "has the line 'low 1 2'"), (b"low nan\n", "has the line"), (b"\xff\n", "UTF-8")):
            seconds.write_bytes(line)
            status, _, said = self.at.prove()
            self.assertEqual(status, 1)
            self.assertRegex(said.splitlines()[-1], rf"\Agicstudy: .*seconds.txt .*{told}")
        (self.at.top / "crates.txt").write_bytes(b"\xff:\n")
        self.assertEqual(self.at.prove(), (1, "", f"gicstudy: {self.at.top / 'crates.txt'} isn't text in UTF-8\n"))

    def test_a_saved_source_has_its_crate_and_those_above_built(self) -> None:
        self.build()
        self.at.write("right", "right again")
        self.assertEqual(self.at.prove()[0], 0)
        self.assertEqual(self.at.noted(), ["right", "high", "gicstudy"])

    def test_a_source_of_another_crate_changes_nothing(self) -> None:
        self.build()
        self.at.write("other", "other again")
        self.assertEqual(self.at.prove(has_rt=False)[0], 0)

    def test_an_added_source_and_one_taken_away_are_seen(self) -> None:
        self.build()
        more = self.at.source("left").with_name("more.rt")
        changes: list[Callable[[], object]] = [lambda: more.write_text("more\n", encoding="utf-8"), more.unlink]
        for change in changes:
            change()
            self.assertTrue(self.at.is_looked_at())
            self.assertEqual(self.at.prove()[0], 0)
            self.assertEqual(self.at.noted(), ["left", "high", "gicstudy"])
            self.at.settle()

    def test_a_new_folder_of_sources_is_seen(self) -> None:
        self.build()
        folder = self.at.top / "crates/low/proofs"
        folder.mkdir()
        (folder / "Lib.antt").write_text("lemma\n", encoding="utf-8")
        self.assertTrue(self.at.is_looked_at())
        self.assertEqual(self.at.prove()[0], 0)
        self.assertEqual(sorted(self.at.noted()), sorted(PROVED))

    def test_a_source_saved_with_an_old_time_is_seen(self) -> None:
        self.build()
        self.at.write("low", "low again")
        os.utime(self.at.source("low"), (1, 1))
        self.assertEqual(self.at.prove()[0], 0)
        self.assertEqual(sorted(self.at.noted()), sorted(PROVED))

    def test_newer_times_alone_need_no_toolchain(self) -> None:
        self.build()
        for name in PROVED:
            os.utime(self.at.source(name))
        self.assertTrue(self.at.is_looked_at())
        time.sleep(1.1)
        self.assertEqual(self.at.prove(has_rt=False)[0], 0)
        self.assertFalse(self.at.is_looked_at())

    def test_without_the_toolchain_it_says_how_to_go_on(self) -> None:
        status, _, said = self.at.prove(has_rt=False)
        self.assertEqual(status, 1)
        self.assertRegex(said, r"\Agicstudy: there is no proved program, .*rt.* is not on the path: add .*\n\Z")
        self.build()
        self.at.write("low", "low again")
        status, _, said = self.at.prove(has_rt=False)
        self.assertEqual(status, 1)
        self.assertRegex(said, r"\Agicstudy: crates/low/src/lib.rt has changed .*or run the existing program, .*\n\Z")

    def test_a_source_saved_while_it_builds_is_built_by_the_next_call(self) -> None:
        self.at.write("high", "high SLOW")
        started = self.at.start("--prove", "field")
        self.at.wait_for("high")
        self.at.write("left", "left again")
        self.assertEqual(started.communicate(timeout=300)[0], "gicstudy: field\n")
        self.at.forget()
        self.assertEqual(self.at.prove()[0], 0)
        self.assertEqual(self.at.noted(), ["left", "high", "gicstudy"])

    def test_a_program_that_others_put_there_is_built_again(self) -> None:
        self.build()
        program = self.at.top / "crates/gicstudy/out/gicstudy"
        program.write_text("#!/bin/sh\necho other\n", encoding="utf-8")
        self.assertEqual(self.at.prove("field")[1], "gicstudy: field\n")

    def test_a_crate_that_fails_is_named_with_its_log(self) -> None:
        self.at.write("left", "left FAILS")
        self.at.write("right", "right SLOW")
        status, _, said = self.at.prove()
        self.assertEqual(status, 1)
        log = self.at.top / "crates/left/out/build.log"
        self.assertIn(f"gicstudy: left was not proved; the last lines of {log}:\n", said)
        self.assertIn("gicstudy: | src/lib.rt:1:1: error: it isn't proved\n", said)
        self.assertEqual(said.splitlines()[-1], f"gicstudy: the build failed; its log is {log}")
        self.assertIn("error", log.read_text(encoding="utf-8"))
        self.assertEqual(self.at.noted("end"), ["low", "right"])
        self.at.write("left", "left")
        self.at.forget()
        self.assertEqual(self.at.prove()[0], 0)
        self.assertEqual(self.at.noted(), ["left", "high", "gicstudy"])

    def test_a_crate_counts_as_proved_only_where_its_library_is_there(self) -> None:
        self.at.write("left", "left LOST")
        status, _, said = self.at.prove()
        self.assertEqual(status, 1)
        self.assertIn("gicstudy: left was reported as proved, but its library is missing; the last lines", said)
        self.assertNotIn("left is proved; ", said)

    def test_a_program_that_ends_with_another_status_takes_no_place(self) -> None:
        self.build()
        before = (self.at.out / "gicstudy").read_bytes()
        self.at.write("gicstudy", "gicstudy BROKEN")
        status, _, said = self.at.prove()
        self.assertEqual(status, 1)
        self.assertIn("gicstudy: gicstudy was linked, but its trial run ended with status 8; the last lines", said)
        self.assertEqual((self.at.out / "gicstudy").read_bytes(), before)

    def test_a_toolchain_of_another_kind_is_told(self) -> None:
        (self.at.bin / "rtlib.py").write_text("KIT = ''\n", encoding="utf-8")
        status, _, said = self.at.prove()
        self.assertEqual(status, 1)
        self.assertIn("gicstudy: low can't be built with a toolchain of the tests; the last lines", said)
        self.assertIn("has another layout than this build expects", said)

    def test_a_killed_proof_is_tried_once_more_alone(self) -> None:
        self.at.write("high", "high KILLED")
        status, _, said = self.at.prove()
        if "was killed" in said:
            self.assertEqual(self.at.noted(), [*sorted(PROVED[:3], key=self.at.noted().index), "high", "high", "gicstudy"])
        self.assertEqual(status, 0, said)

    def test_stopped_it_ends_its_runs_and_the_next_call_goes_on(self) -> None:
        self.at.write("high", "high SLOW")
        for number in (signal.SIGTERM, signal.SIGINT, signal.SIGHUP):
            started = self.at.start("--prove")
            self.at.wait_for("high")
            started.send_signal(number)
            said = started.communicate(timeout=30)[1]
            self.assertEqual(started.returncode, -number)
            self.assertIn("gicstudy: stopped; the next ./gicstudy --prove continues from here\n", said)
            self.assertNotIn("gicstudy/out/snapshot", self.at.left())
            self.at.forget()
        self.assertEqual(self.at.prove()[0], 0)
        self.assertEqual(self.at.noted(), ["high", "gicstudy"])

    def test_what_a_killed_build_left_is_taken_up_and_removed(self) -> None:
        self.at.write("high", "high SLOW")
        started = self.at.start("--prove")
        self.at.wait_for("high")
        started.kill()
        started.communicate(timeout=300)
        self.assertIn("gicstudy/out/snapshot", self.at.left())
        self.at.forget()
        shutil.rmtree(self.at.top / "crates/high/out")
        self.assertEqual(self.at.prove()[0], 0)
        self.assertEqual(self.at.noted(), ["high", "gicstudy"])
        self.assertNotIn("gicstudy/out/snapshot", self.at.left())

    def test_a_second_call_waits_for_the_first(self) -> None:
        self.at.write("high", "high SLOW")
        first = self.at.start("--prove", "first")
        self.at.wait_for("high")
        status, out, said = self.at.prove("second")
        self.assertEqual((status, out), (0, "gicstudy: second\n"))
        self.assertEqual(said, "gicstudy: waiting for another build of this checkout\n")
        self.assertEqual(first.communicate(timeout=300)[0], "gicstudy: first\n")
        self.assertEqual(sorted(self.at.noted()), sorted(PROVED))

    def test_messages_that_nobody_reads_end_nothing(self) -> None:
        started = self.at.start("--prove", "field")
        assert started.stderr is not None and started.stdout is not None
        started.stderr.close()
        self.assertEqual(started.stdout.read(), "gicstudy: field\n")
        self.assertEqual(started.wait(300), 0)
        started.stdout.close()

    def test_a_checkout_that_cannot_be_written_is_told(self) -> None:
        (self.at.top / "crates/low/out").write_text("", encoding="utf-8")
        status, _, said = self.at.prove()
        self.assertEqual(status, 1)
        out = self.at.top / "crates/low/out"
        self.assertIn(f"gicstudy: the program must be built, but {out} can't be written: ", said)

    def test_a_disk_without_room_fails_the_build(self) -> None:
        full = "import errno, os, snapshot\ndef fill(*_): raise OSError(errno.ENOSPC, os.strerror(errno.ENOSPC))\n"
        status, _, said = self.at.call_with(f"{full}snapshot.Snapshot.fill = fill", "--prove")
        self.assertEqual(status, 1)
        self.assertRegex(said.splitlines()[-1], r"\Agicstudy: the build failed: No space left on device \(free .*\)\Z")

    def test_folders_are_locked_in_the_order_of_rt(self) -> None:
        folders = {name: os.open(self.at.top / "crates" / name, os.O_RDONLY) for name in PROVED}
        for it in folders.values():
            self.addCleanup(os.close, it)
        fcntl.flock(folders["left"], fcntl.LOCK_EX)
        started = self.at.start("--prove", "field")
        assert started.stderr is not None
        self.assertEqual(started.stderr.readline(), "gicstudy: waiting for rt, which is at work in crates/left\n")
        held = [name for name in sorted(PROVED) if name != "left" and is_held(folders[name])]
        self.assertEqual(held, ["gicstudy", "high"])
        fcntl.flock(folders["left"], fcntl.LOCK_UN)
        self.assertEqual(started.communicate(timeout=300)[0], "gicstudy: field\n")

    def test_files_of_editors_are_no_sources(self) -> None:
        self.build()
        for name in (".lib.rt.swp", "#lib.rt#", "lib.rt~"):
            (self.at.source("low").parent / name).write_text("kept", encoding="utf-8")
        (self.at.source("low").parent / ".#lib.rt").symlink_to("nobody@nowhere")
        self.at.forget()
        status, _, said = self.at.prove("field")
        self.assertEqual((status, said, self.at.noted()), (0, "", []))

    @unittest.skipUnless(BUILT.is_file(), "no program is built")
    def test_the_run_that_links_the_program_ends_with_status_0(self) -> None:
        words: list[str | Path] = [BUILT, *TRIED]
        ran = subprocess.run(words, cwd=TOP / "crates" / "gicstudy", stdin=subprocess.DEVNULL, capture_output=True)
        self.assertEqual((ran.returncode, ran.stderr), (0, b""))

    def test_what_failed_is_told_in_a_line(self) -> None:
        full = "No space left on device"
        for error, told in (
            (OSError(28, full), full),
            (OSError(28, full, "a"), f"{full}: a"),
            (shutil.Error([("a", "b", f"[Errno 28] {full}: 'b'")]), f"[Errno 28] {full}: 'b'"),
        ):
            self.assertEqual(words_of(error), told)


if __name__ == "__main__":
    unittest.main()
