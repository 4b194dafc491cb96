"""Answers without proof in a small checkout with a toolchain that only looks like one, and what stands in front of MODE."""

import fcntl
import os
import random
import shutil
import signal
import subprocess
import tempfile
import time
import unittest
from collections.abc import Callable
from pathlib import Path

from checkout import TOP, Checkout
from copies import with_copies
from record import keep_found, look
from sources import read_sources, sum_of
from unproved import COMPILES, PROVE, UNPROVED

FIRST = f"gicstudy: {COMPILES}{UNPROVED}\n"
LATER = f"gicstudy: {UNPROVED}\n"
WAITS = "gicstudy: waiting for another call to compile the program\n"
# A change by which the first program that is found on the shelf is gone before it runs.
GONE = """
import shutil, unproved
found = unproved.kept_program
def found_once(folder):
    program = found(folder)
    if program is not None:
        unproved.kept_program = found
        shutil.rmtree(folder)
    return program
unproved.kept_program = found_once
"""
# Changes by which a signal comes as soon as a folder of ours is made, and before it is removed.
AT_ITS_MAKING = """
import os, tempfile
made = tempfile.mkdtemp
def interrupted(**how):
    folder = made(**how)
    os.kill(os.getpid(), NUMBER)
    return folder
tempfile.mkdtemp = interrupted
"""
AT_ITS_END = """
import os, shutil
removed = shutil.rmtree
def interrupted(*words, **how):
    os.kill(os.getpid(), NUMBER)
    removed(*words, **how)
shutil.rmtree = interrupted
"""
# What a call may take on a machine with much to do.
WAIT = 300
HINT = "gicstudy: ./gicstudy --help prints the modes and options\n"


def setUpModule() -> None:
    # What runs in the background ignores an interrupt, and behind nohup a hangup; so would the calls started here.
    for number in (signal.SIGINT, signal.SIGHUP):
        if signal.getsignal(number) is signal.SIG_IGN:
            signal.signal(number, signal.SIG_DFL)


class First(unittest.TestCase):
    def setUp(self) -> None:
        self.at = Checkout()
        self.addCleanup(self.at.remove)
        self.work = Path(tempfile.mkdtemp(prefix="gicstudy-test-"))
        self.addCleanup(shutil.rmtree, self.work, True)
        self.shelf = self.at.out / "unproved"

    def kept(self) -> Path:
        (found,) = self.shelf.glob("*/gicstudy")
        return found

    def is_tidy(self) -> None:
        """Nothing but the kept program and the toolchain lies there, and nothing of `rt try` is left."""
        if self.shelf.is_dir():
            self.assertLessEqual({it.name for it in self.shelf.iterdir() if it.is_file()}, {"toolchain"})
            self.assertLessEqual(len([it for it in self.shelf.iterdir() if it.is_dir()]), 1)
            self.assertEqual(list(self.shelf.glob("scratch-*")), [])
        # (where it is told to end, `rt` takes a moment)
        for folder in self.at.noted("in"):
            self.assertFalse(os.path.exists(folder))

    def test_the_first_call_compiles_and_the_second_runs_what_was_kept(self) -> None:
        out = "gicstudy without proof: screen --case=a b\n"
        self.assertEqual(self.at.call("screen", "--case=a b"), (0, out, FIRST))
        self.assertEqual(self.at.call("screen", "--case=a b"), (0, out, LATER))
        self.assertEqual(self.at.noted("try"), ["make"])
        self.assertEqual(len(self.at.noted("version")), 1)
        self.assertEqual(self.at.noted(), [])
        self.is_tidy()

    def test_status_and_line_are_the_programs_own(self) -> None:
        self.at.call("screen")
        for status in (0, *range(2, 14)):
            self.assertEqual(self.at.call("status", str(status)), (status, "", f"{LATER}gicstudy: line {status}\n"))

    def test_a_first_call_that_ends_with_a_status_of_rt_try_ends_with_its_own(self) -> None:
        self.assertEqual(self.at.call("status", "6"), (6, "", f"{FIRST}gicstudy: line 6\n"))

    def test_files_are_those_of_the_caller(self) -> None:
        for name in (b"plain", b"a b", b"two\nlines", b"--case", b"-n", b"\xff\xfe", "ö".encode(), b"--case=x"):
            (Path(os.fsdecode(os.fsencode(self.work) + b"/" + name))).write_text(f"text of {len(name)}\n", encoding="utf-8")
            for word in (name, os.fsencode(self.work) + b"/" + name):
                answer = self.at.call("show", b"--case=" + word, cwd=self.work)
                self.assertEqual(answer[:2], (0, f"text of {len(name)}\n"), word)
        status, out, said = self.at.call("show", "--case=nothing", cwd=self.work)
        self.assertEqual((status, out, said), (3, "", f"{LATER}gicstudy: cannot read case\n"))
        self.assertEqual(self.at.noted("try"), ["make"])

    def test_pipes_are_read_by_the_program(self) -> None:
        for words in ("echo of a pipe | {0} show --case=/dev/stdin", "{0} show --case=<(echo of a pipe)"):
            ran = subprocess.run(
                ["bash", "-c", words.format(self.at.top / "gicstudy")], env=self.at.environment(), capture_output=True, text=True
            )
            self.assertEqual((ran.returncode, ran.stdout), (0, "of a pipe\n"), ran.stderr)

    def test_a_report_may_be_long(self) -> None:
        for _ in range(2):
            status, out, _ = self.at.call("big")
            self.assertEqual((status, len(out)), (0, 2000000))

    def test_a_fault_of_the_program_is_no_answer(self) -> None:
        self.at.call("screen")
        for word, why in (("fault", "AddressSanitizer: stack-overflow on address 1"), ("crash", "signal 11")):
            status, _, said = self.at.call(word)
            self.assertEqual(status, 1)
            self.assertRegex(said.removeprefix(LATER), rf"\Agicstudy: no answer: .* without proof \({why}\), .*; {PROVE}\n\Z")
        self.assertEqual(self.at.call("pipe")[0], -signal.SIGPIPE)
        self.assertEqual(self.at.call("environment", ASAN_OPTIONS="detect_leaks=1")[:2], (0, ""))

    def test_a_program_that_cannot_be_compiled_is_told(self) -> None:
        self.at.write("gicstudy", "REFUSED")
        status, out, said = self.at.call("screen")
        self.assertEqual((status, out), (1, ""))
        below = self.at.top / "crates/low/src/lib.rt"
        self.assertIn(f"gicstudy: | src/main.rt:1:1: error: no such name\ngicstudy: | {below}:2:1: error: nor there\n", said)
        self.assertTrue(said.splitlines()[-1].startswith("gicstudy: no answer: "))
        self.is_tidy()

    def test_what_a_signal_stops_leaves_nothing(self) -> None:
        for number in (signal.SIGINT, signal.SIGTERM, signal.SIGHUP):
            self.at.write("gicstudy", f"WAITS {number}")
            self.at.forget()
            for ends in (os.kill, os.killpg):
                started = self.at.start("screen")
                while not self.at.noted("in"):
                    time.sleep(0.05)
                ends(started.pid, number)
                out, said = started.communicate(timeout=WAIT)
                self.assertEqual((started.returncode, out, said), (-number, "", FIRST))
                self.is_tidy()
                self.at.forget()

    def test_a_run_that_a_signal_stops_is_ended(self) -> None:
        self.at.call("screen")
        note = self.work / "process"
        for number in (signal.SIGINT, signal.SIGTERM, signal.SIGHUP, signal.SIGKILL):
            started = self.at.start("wait", str(note))
            while not (note.is_file() and note.read_text(encoding="utf-8").endswith("\n")):
                time.sleep(0.02)
            process = int(note.read_text(encoding="utf-8"))
            note.unlink()
            started.send_signal(number)
            self.assertEqual(started.communicate(timeout=WAIT), ("", LATER))
            self.assertEqual(started.returncode, -number)
            with self.assertRaises(ProcessLookupError):
                for _ in range(100):
                    os.kill(process, 0)
                    time.sleep(0.02)

    def test_a_signal_at_the_making_or_the_end_of_a_folder_leaves_nothing(self) -> None:
        self.at.out.mkdir()
        self.shelf.write_bytes(b"")
        for change in (AT_ITS_MAKING, AT_ITS_END):
            for number in (signal.SIGINT, signal.SIGTERM, signal.SIGHUP):
                code = change.replace("NUMBER", str(int(number)))
                self.assertEqual(self.at.call_with(code, "screen", TMPDIR=str(self.work))[0], -number)
                self.assertEqual(list(self.work.iterdir()), [])

    def test_what_a_killed_call_left_is_removed(self) -> None:
        self.at.write("gicstudy", "WAITS")
        started = self.at.start("screen")
        while not self.at.noted("in"):
            time.sleep(0.05)
        os.killpg(started.pid, signal.SIGKILL)
        started.communicate(timeout=WAIT)
        self.assertEqual(len(list(self.shelf.glob("scratch-*"))), 1)
        self.at.write("gicstudy", "gicstudy")
        self.assertEqual(self.at.call("screen")[0], 0)
        self.is_tidy()

    def test_an_early_interrupt_prints_no_traceback(self) -> None:
        chance, begun = random.Random(1), time.monotonic()
        self.assertEqual(self.at.call("screen", TMPDIR=str(self.work))[0], 0)
        whole = time.monotonic() - begun
        shutil.rmtree(self.shelf)
        for moment in [chance.uniform(0, whole / 2) for _ in range(40)]:
            started = self.at.start("screen", TMPDIR=str(self.work))
            time.sleep(moment)
            sent = time.monotonic()
            os.killpg(started.pid, signal.SIGINT)
            said = started.communicate(timeout=WAIT)[1]
            self.assertNotIn("Traceback", said, moment)
            if started.returncode == 0:
                # The call was at its end, sooner than the first one was: a call that loses an interrupt goes on for longer.
                self.assertLess(time.monotonic() - sent, whole / 4, moment)
            else:
                # (130 where Python is interrupted in its own start)
                self.assertIn(started.returncode, (-signal.SIGINT, 128 + signal.SIGINT), moment)
            self.is_tidy()
            self.assertEqual(list(self.work.iterdir()), [], moment)

    def test_an_interrupt_before_python_is_begun_is_not_lost(self) -> None:
        note, env = self.work / "note", self.at.bin / "env"
        whole = shutil.which("env")
        env.write_text(f'#!/bin/sh\n[ "$2" = true ] || exec {whole} "$@"\necho >{note}\nexec {whole} "$1" sleep 1\n', encoding="utf-8")
        env.chmod(0o755)
        started = self.at.start("screen")
        while not note.exists():
            time.sleep(0.01)
        time.sleep(0.2)
        os.killpg(started.pid, signal.SIGINT)
        self.assertEqual((*started.communicate(timeout=WAIT), started.returncode), ("", "", -signal.SIGINT))

    def test_two_calls_at_once_both_answer_and_compile_once(self) -> None:
        both = [self.at.start("screen", word) for word in ("one", "two")]
        for started, word in zip(both, ("one", "two")):
            self.assertEqual(started.communicate(timeout=WAIT)[0], f"gicstudy without proof: screen {word}\n")
            self.assertEqual(started.returncode, 0)
        self.assertEqual(self.at.noted("try"), ["make"])
        self.is_tidy()

    def test_another_source_or_toolchain_has_it_compiled_again(self) -> None:
        self.at.call("screen")
        self.at.write("low", "low again")
        self.assertEqual(self.at.call("screen")[2], FIRST)
        rt = self.at.bin / "rt"
        rt.write_text(rt.read_text(encoding="utf-8").replace("a toolchain of", "another toolchain of"), encoding="utf-8")
        self.assertEqual(self.at.call("screen")[2], FIRST)
        os.utime(rt)
        self.assertEqual(self.at.call("screen")[2], LATER)
        self.assertEqual(len(self.at.noted("try")), 3)
        self.is_tidy()

    def test_a_source_saved_while_another_call_compiles_is_not_mixed_up(self) -> None:
        self.at.out.mkdir()
        self.shelf.mkdir()
        lock = os.open(self.shelf, os.O_RDONLY)
        self.addCleanup(os.close, lock)
        fcntl.flock(lock, fcntl.LOCK_EX)
        started = self.at.start("screen")
        assert started.stderr is not None
        self.assertEqual((started.stderr.readline(), started.stderr.readline()), (FIRST, WAITS))
        self.at.write("gicstudy", "another program")
        fcntl.flock(lock, fcntl.LOCK_UN)
        self.assertEqual(started.communicate(timeout=WAIT)[0], "gicstudy without proof: screen\n")
        for _ in range(2):
            self.assertEqual(self.at.call("screen")[1], "another program without proof: screen\n")
        self.at.write("gicstudy", "gicstudy")
        self.assertEqual(self.at.call("screen")[1], "gicstudy without proof: screen\n")

    def test_a_kept_program_that_vanishes_is_compiled_again(self) -> None:
        self.at.call("screen")
        self.assertEqual(self.at.call_with(GONE, "screen"), (0, "gicstudy without proof: screen\n", LATER + FIRST))
        self.is_tidy()

    def test_a_kept_program_that_was_swapped_is_not_run(self) -> None:
        self.at.call("screen")
        before = self.kept().stat()
        text = self.kept().read_text(encoding="utf-8")
        self.kept().write_text(text.replace("without proof", "without truth"), encoding="utf-8")
        os.utime(self.kept(), ns=(before.st_atime_ns, before.st_mtime_ns))
        self.assertEqual(self.at.call("screen"), (0, "gicstudy without proof: screen\n", FIRST))
        copy = self.work / "copy"
        shutil.copy2(self.kept(), copy)
        shutil.move(copy, self.kept())
        for _ in range(2):
            self.assertEqual(self.at.call("screen")[2], LATER)

    def test_without_the_toolchain_only_a_kept_program_answers(self) -> None:
        status, out, said = self.at.call("screen", has_rt=False)
        self.assertEqual((status, out), (1, ""))
        self.assertRegex(said, r"\Agicstudy: there is no proved program, and the command rt, .* to the path\n\Z")
        self.at.call("screen")
        self.assertEqual(self.at.call("screen", has_rt=False), (0, "gicstudy without proof: screen\n", LATER))
        self.at.write("low", "low again")
        self.assertEqual(self.at.call("screen", has_rt=False)[0], 1)
        self.at.write("low", "low")
        self.at.prove()
        self.at.write("low", "low again")
        status, out, said = self.at.call("screen", has_rt=False)
        self.assertEqual((status, out), (1, ""))
        self.assertRegex(
            said,
            r"\Agicstudy: crates/low/src/lib.rt has changed since the program was built, and the command rt, .* to the path, "
            rf"or run the existing program, {self.at.out / 'gicstudy'}\n\Z",
        )

    def test_where_nothing_can_be_kept_it_answers_all_the_same(self) -> None:
        self.at.out.mkdir()
        self.shelf.write_bytes(b"")
        for _ in range(2):
            answer = self.at.call("show", f"--case={__file__}", TMPDIR=str(self.work))
            self.assertEqual(answer, (0, Path(__file__).read_text(encoding="utf-8"), FIRST))
            self.assertEqual(list(self.work.iterdir()), [])
        self.assertEqual(self.at.noted("try"), ["make", "make"])
        self.assertEqual(self.at.call("pipe", TMPDIR=str(self.work))[0], -signal.SIGPIPE)
        self.assertEqual(list(self.work.iterdir()), [])

    def test_a_toolchain_with_other_folders_answers_on_copies(self) -> None:
        self.at.write("gicstudy", "ELSEWHERE")
        name = self.work / "a b"
        name.write_text("of a file\n", encoding="utf-8")
        self.assertEqual(self.at.call("show", "--case=a b", cwd=self.work, TMPDIR=str(self.work)), (0, "of a file\n", FIRST))
        self.assertEqual(self.at.noted("try"), ["make", "show"])
        self.assertEqual(self.at.call("status", "6"), (6, "", f"{FIRST}gicstudy: line 6\n"))
        self.assertEqual(self.at.noted("try"), ["make", "show", "status"])
        self.at.forget()
        words = f"{self.at.top / 'gicstudy'} status 0 && {self.at.top / 'gicstudy'} screen >/dev/full"
        ran = subprocess.run(["bash", "-c", words], env=self.at.environment(), capture_output=True, text=True)
        self.assertEqual((ran.returncode, ran.stderr.splitlines()[-1]), (4, "gicstudy: cannot write"))
        status, out, said = self.at.call("big")
        self.assertEqual((status, out), (1, ""))
        self.assertRegex(said.removeprefix(FIRST), rf"\Agicstudy: no answer: .*1 MiB.*; {PROVE}\n\Z")
        self.assertEqual(list(self.work.iterdir()), [name])
        self.is_empty_but_for_the_mark()

    def test_on_copies_a_fault_is_no_answer_and_a_closed_pipe_ends_it(self) -> None:
        self.at.write("gicstudy", "ELSEWHERE")
        status, _, said = self.at.call("fault", TMPDIR=str(self.work))
        self.assertEqual(status, 1)
        why = "AddressSanitizer: stack-overflow on address 1"
        self.assertRegex(said.removeprefix(FIRST), rf"\Agicstudy: no answer: .* without proof \({why}\), .*; {PROVE}\n\Z")
        started = self.at.start("screen", TMPDIR=str(self.work))
        assert started.stdout is not None and started.stderr is not None
        started.stdout.close()
        self.assertEqual((started.stderr.read(), started.wait(WAIT)), (FIRST, -signal.SIGPIPE))
        started.stderr.close()
        self.assertEqual(list(self.work.iterdir()), [])

    def test_a_program_that_was_missed_is_looked_for_again(self) -> None:
        self.at.write("gicstudy", "MISSED")
        for _ in range(2):
            self.at.forget()
            self.assertEqual(self.at.call("status", "6"), (6, "", f"{FIRST}gicstudy: line 6\n"))
            self.assertEqual(self.at.noted("try"), ["make", "status"])
        self.is_tidy()

    def is_empty_but_for_the_mark(self) -> None:
        self.assertEqual([it.name for it in self.shelf.glob("*/*")], ["not-kept"])

    def test_copies_have_names_that_rt_takes(self) -> None:
        (self.work / "a b").write_text("text", encoding="utf-8")
        for words, wanted in (
            (["screen", f"--case={self.work}/a b"], ["screen", "--case=given-1"]),
            (["screen", "--case", f"{self.work}/a b"], ["screen", "--case", "given-2"]),
            (["--case", "--case", f"--storm={self.work}"], ["--case", "given-1", "--storm=given-2"]),
            (["--case=", "--case", "", "--width=9"], ["--case=", "--case", "", "--width=9"]),
        ):
            scratch = Path(tempfile.mkdtemp(dir=self.work))
            found, data = with_copies(words, scratch)
            self.assertEqual(found, wanted)
            copied = [it.name for it in scratch.iterdir()]
            self.assertEqual(data, [it for name in copied for it in ("--data", f"{name}={scratch / name}")])
            self.assertEqual(len(copied), sum(f"{self.work}/a b" in word for word in words))

    def test_proved_refuses_where_no_proof_is_there(self) -> None:
        status, out, said = self.at.call("--proved", "screen")
        self.assertEqual((status, out), (1, ""))
        self.assertRegex(said, rf"\Agicstudy: there is no proved program, .*; {PROVE} .*\n\Z")
        self.assertEqual(self.at.call("--prove")[:2], (0, ""))
        self.at.settle()
        for words in (["screen"], ["--proved", "screen"], ["--prove", "screen"]):
            self.assertEqual(self.at.call(*words, has_rt=False), (0, "gicstudy: screen\n", ""))
        self.assertEqual(self.at.call("--prove", has_rt=False)[2], "gicstudy: the program is already proved and built\n")
        self.assertEqual(self.at.noted(), [])

    def test_a_proof_says_when_it_is_done(self) -> None:
        self.assertRegex(self.at.call("--prove")[2].splitlines()[-1], r"\Agicstudy: the program is proved and built, 0 min\Z")
        self.assertEqual(self.at.noted("try"), [])

    def test_a_changed_source_is_answered_without_proof_until_it_is_proved(self) -> None:
        self.at.prove()
        self.at.settle()
        self.at.write("right", "right again")
        differs = "crates/right/src/lib.rt has changed since the program was built; "
        said = f"gicstudy: {differs}{COMPILES}{UNPROVED}\n"
        self.assertEqual(self.at.call("screen"), (0, "gicstudy without proof: screen\n", said))
        self.assertEqual(self.at.noted(), [])
        status, _, said = self.at.call("--proved", "screen")
        self.assertEqual(status, 1)
        self.assertRegex(said, r"\Agicstudy: crates/right/src/lib.rt has changed .*\n\Z")
        self.at.write("right", "right")
        self.assertEqual(self.at.call("screen"), (0, "gicstudy: screen\n", ""))

    def test_another_file_in_the_place_of_the_program_is_not_run(self) -> None:
        self.at.prove()
        self.at.settle()
        program = self.at.out / "gicstudy"
        right, other = self.work / "right", self.work / "other"
        shutil.copy2(program, right)
        shutil.copy2(program, other)
        other.write_text(program.read_text(encoding="utf-8").replace("gicstudy:", "gicother:"), encoding="utf-8")
        os.utime(other, (1, 1))
        ways: list[Callable[[Path, Path], object]] = [shutil.copy2, self.put_over]
        for puts in ways:
            puts(other, program)
            self.assertTrue(self.at.is_looked_at())
            self.assertEqual(self.at.call("--proved", "screen")[:2], (1, ""))
            self.assertEqual(self.at.call("screen")[1], "gicstudy without proof: screen\n")
            puts(right, program)
            self.assertEqual(self.at.call("--proved", "screen"), (0, "gicstudy: screen\n", ""))
            self.at.settle()
            self.assertFalse(self.at.is_looked_at())

    def put_over(self, file: Path, at: Path) -> None:
        shutil.copy2(file, self.work / "beside")
        shutil.move(self.work / "beside", at)

    def test_a_record_from_the_future_is_not_believed(self) -> None:
        self.at.prove()
        self.at.settle()
        self.assertFalse(self.at.is_looked_at())
        later = time.time() + 1000
        for name in ("gicstudy.sources", "gicstudy.proved"):
            os.utime(self.at.out / name, (later, later))
            self.assertTrue(self.at.is_looked_at())
            self.assertEqual(self.at.call("--proved", "screen")[1], "gicstudy: screen\n")
            self.assertFalse(self.at.is_looked_at())

    def test_a_record_from_the_future_is_not_believed_later_either(self) -> None:
        self.at.prove()
        self.at.settle()
        later = time.time() + 5
        os.utime(self.at.out / "gicstudy.sources", (later, later))
        self.at.write("right", "right again")
        for _ in range(2):
            self.assertEqual(self.at.call("screen")[:2], (0, "gicstudy without proof: screen\n"))
            self.assertEqual(self.at.call("--proved", "screen")[:2], (1, ""))
            time.sleep(max(later + 0.1 - time.time(), 0))
        self.at.write("right", "right")
        self.at.settle()
        self.assertFalse(self.at.is_looked_at())
        self.assertEqual(self.at.call("--proved", "screen"), (0, "gicstudy: screen\n", ""))

    def test_while_a_build_works_nothing_is_kept_for_the_script(self) -> None:
        self.at.prove()
        self.at.settle()
        os.utime(self.at.source("low"))
        time.sleep(1.1)
        lock = os.open(self.at.top / "crates", os.O_RDONLY)
        self.addCleanup(os.close, lock)
        fcntl.flock(lock, fcntl.LOCK_EX)
        before = self.record()
        for words in (["screen"], ["--proved", "screen"], ["--prove", "screen"]):
            self.assertEqual(self.at.call(*words), (0, "gicstudy: screen\n", ""))
            self.assertEqual(self.record(), before)
        fcntl.flock(lock, fcntl.LOCK_UN)
        self.assertEqual(self.at.call("screen"), (0, "gicstudy: screen\n", ""))
        self.assertNotEqual(self.record(), before)
        self.assertFalse(self.at.is_looked_at())

    def test_what_a_build_has_kept_since_a_look_stays(self) -> None:
        self.at.prove()
        sources = read_sources(self.at.top)
        found = look(self.at.top, sources)
        self.at.write("low", "low again")
        self.at.prove()
        before = self.record()
        keep_found(self.at.top, sources, found)
        self.assertEqual(self.record(), before)

    def record(self) -> list[tuple[bytes, int, int]]:
        """What the script looks at beside the program, and which files it is."""
        files = [self.at.out / f"gicstudy.{it}" for it in ("sources", "places", "proved")]
        return [(it.read_bytes(), it.stat().st_ino, it.stat().st_mtime_ns) for it in files]

    def test_an_older_find_sees_the_same(self) -> None:
        find = Path(self.at.path_without_python()) / "find"
        whole = os.readlink(find)
        find.unlink()
        older = f'#!/bin/sh\ncase $1 in -files0-from) exit 1 ;; esac\nexec {whole} "$@"\n'
        find.write_text(older, encoding="utf-8")
        find.chmod(0o755)
        self.at.prove()
        self.at.settle()
        self.assertFalse(self.at.is_looked_at())
        program = self.at.out / "gicstudy"
        self.put_over(program, program)
        self.assertTrue(self.at.is_looked_at())
        self.at.settle()
        self.at.write("low", "low again")
        self.assertTrue(self.at.is_looked_at())

    def test_no_words_need_no_program(self) -> None:
        self.assertEqual(self.at.call(), (2, "", f"{HINT}gicstudy: usage: words\n"))
        self.assertEqual(self.at.noted("try"), [])
        self.at.prove()
        self.at.settle()
        self.assertEqual(self.at.call(), (0, "gicstudy: \n", HINT))
        self.assertEqual(self.at.call(""), (0, "gicstudy: \n", ""))

    def test_help_needs_nothing(self) -> None:
        page = (TOP / "build/help.txt").read_text(encoding="utf-8")
        for word in ("--help", "-h"):
            ran = subprocess.run(
                [self.at.top / "gicstudy", word], env={"PATH": self.at.path_without_python()}, capture_output=True, text=True
            )
            self.assertEqual((ran.returncode, ran.stdout, ran.stderr), (0, page, ""))
        self.assertLess(page.count("\n"), 60)
        self.assertLessEqual(max(map(len, page.split("\n"))), 120)

    def test_version_tells_what_is_here(self) -> None:
        def told(**how: bool | str) -> list[str]:
            status, out, said = self.at.call("--version", **how)  # type: ignore[arg-type]
            self.assertEqual((status, said), (0, ""))
            return out.splitlines()

        none = ["commit unknown", "proved none: there is no proved program", "unproved none"]
        self.assertEqual(told(), none)
        self.assertEqual(told(has_rt=False), none)
        self.at.call("screen")
        unproved = f"unproved {self.sum(self.kept())}"
        self.assertEqual(told(), [*none[:2], unproved])
        self.at.prove()
        proved = f"proved {self.sum(self.at.out / 'gicstudy')}"
        self.assertEqual(told(has_rt=False), [none[0], proved, unproved])
        for words in (["init", "-q"], ["add", "crates.txt"], ["-c", "user.name=a", "-c", "user.email=a", "commit", "-qm", "a"]):
            subprocess.run(["git", "-C", str(self.at.top), *words], check=True)
        (self.at.top / ".gitignore").write_text("crates/\n", encoding="utf-8")
        self.assertRegex(told()[0], r"\Acommit [0-9a-f]{40}\Z")
        subprocess.run(["git", "init", "-q", self.work], check=True)
        self.assertEqual(told(GIT_DIR=str(self.work / ".git"))[0], told()[0])
        with open(self.at.top / "crates.txt", "a", encoding="utf-8") as file:
            file.write("more:\n")
        self.assertRegex(told()[0], r"\Acommit [0-9a-f]{40}, with changes\Z")
        self.at.write("low", "low again")
        self.assertEqual(told()[1:], ["proved none: crates/low/src/lib.rt has changed since the program was built", "unproved none"])

    def test_a_version_that_cannot_be_written_is_told(self) -> None:
        ran = subprocess.run(
            ["bash", "-c", f"{self.at.top / 'gicstudy'} --version >/dev/full"],
            env=self.at.environment(),
            capture_output=True,
            text=True,
        )
        self.assertEqual(ran.returncode, 1)
        self.assertRegex(ran.stderr, r"\Agicstudy: no answer: No space left on device.*\n\Z")

    def sum(self, file: Path) -> str:
        return sum_of(file.read_bytes())


if __name__ == "__main__":
    unittest.main()
