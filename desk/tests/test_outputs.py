"""What a command writes: all of a set or nothing, never over what isn't its own, and told at once where it can't be.

A disk that is full is a limit on the size of files here, or a call that is refused. What another process does at the worst
moment is done by a call that is put in front of one of the desk's.
"""

import contextlib
import errno
import json
import os
import pathlib
import shutil
import signal
import subprocess
import sys
import threading
import time
import unittest
from collections.abc import Callable, Iterable, Iterator
from unittest import mock

from shared import FAKE, REPORTS, TESTS, DeskTest, desk
from test_outages import HEADS, OutagesTest
from test_psse import GIC, RAW, ZONES
from test_study import StudyTest

from gicdesk import earlier, outputs, stops
from gicdesk.findings import Refused

SCREEN = REPORTS / "region_screen.txt"
DESK = TESTS.parent / "gicdesk"
LONG = 60  # seconds: no run of a test takes so long
WRITE = "gicdesk.outputs.write_file"
FULL = OSError(errno.ENOSPC, os.strerror(errno.ENOSPC))


def left(folder: pathlib.Path) -> list[str]:
    """The names in a folder, hidden ones too."""
    return sorted(path.name for path in folder.iterdir())


@contextlib.contextmanager
def failing(name: str, number: int, error: BaseException = FULL) -> Iterator[None]:
    """Within it the call of this name that has this number fails, from 1."""
    module, _, function = name.rpartition(".")
    real: Callable[..., object] = getattr(sys.modules[module], function)
    calls = 0

    def call(*words: object, **named: object) -> object:
        nonlocal calls
        calls += 1
        if calls == number:
            raise error
        return real(*words, **named)

    with mock.patch(name, call):
        yield


class Single(DeskTest):
    """One file, as `csv` writes it."""

    def setUp(self) -> None:
        super().setUp()
        self.place = self.folder / "place"
        self.place.mkdir()
        self.out = self.place / "table.csv"

    def words(self, *words: object) -> tuple[object, ...]:
        return ("csv", SCREEN, f"--out={self.out}", *words)

    def test_one_that_comes_meanwhile_is_kept(self) -> None:
        def come(*_: object, **__: object) -> None:
            self.out.write_text("mine")
            raise FileExistsError(errno.EEXIST, "File exists")

        with mock.patch("os.link", come):
            (line,) = self.refused(*self.words())
        told = "it is there already, and wasn't when the command began; choose another name"
        self.assertEqual(line, f"{self.out}: {told}")
        self.assertEqual((left(self.place), self.out.read_text()), (["table.csv"], "mine"))

    def test_by_force_one_that_comes_or_changes_meanwhile_is_kept(self) -> None:
        for stood, told in (
            (None, "it is there already, and wasn't when the command began; choose another name"),
            ("earlier", "it is another thing than it was when the command began; look at it"),
        ):
            for is_new in (True, False):
                with self.subTest(stood, is_new=is_new):
                    self.out.unlink(missing_ok=True)
                    if stood is not None:
                        self.out.write_text(stood)
                    with self.assertRaises(Refused) as refused, outputs.files_set([str(self.out)], True, []) as out:
                        if is_new:
                            self.out.unlink(missing_ok=True)
                        self.out.write_text("mine, which is longer")
                        out.publish({"table.csv": "new"})
                    self.assertEqual(refused.exception.lines(), [f"{self.out}: {told}"])
                    self.assertEqual(self.out.read_text(), "mine, which is longer")
                    self.assertEqual(left(self.place), ["table.csv"])

    def test_a_scratch_without_an_owner_is_taken_away_or_told(self) -> None:
        empty, begun, other = (self.place / f".gicdesk.{name}" for name in ("abcd_123", "abcd_124", "abcd_125"))
        for folder in (empty, begun, other):
            folder.mkdir()
        (begun / "owner").write_bytes(b"")
        (other / "mine").write_text("mine")
        status, _, err = desk(*self.words())
        told = "it has the name of a command's scratch, and isn't one (Directory not empty); look at it"
        self.assertEqual((status, err), (0, f"gicdesk: {other}: {told}\n"))
        self.assertEqual(left(self.place), [other.name, "table.csv"])
        self.assertEqual(left(other), ["mine"])

    def test_of_two_runs_at_once_one_is_done(self) -> None:
        words = [sys.executable, "-B", str(DESK), *map(str, self.words())]
        runs = [subprocess.Popen(words, stdout=subprocess.DEVNULL, stderr=subprocess.PIPE, text=True) for _ in range(4)]
        told = [run.communicate(timeout=LONG)[1] for run in runs]
        self.assertEqual(sorted(run.returncode for run in runs), [0, 1, 1, 1], told)
        self.assertEqual(self.out.read_text(), self.done("csv", SCREEN))

    @contextlib.contextmanager
    def another_at_work(self) -> Iterator[None]:
        """Within it a process of its own has the lock of the folder."""
        words = "import fcntl, os, sys; fcntl.flock(os.open(sys.argv[1], os.O_RDONLY), fcntl.LOCK_EX); print(flush=True); input()"
        other = subprocess.Popen(
            [sys.executable, "-c", words, self.place], stdin=subprocess.PIPE, stdout=subprocess.PIPE, text=True
        )
        with other:
            assert other.stdout is not None
            other.stdout.readline()
            yield
            other.communicate("\n", timeout=LONG)

    def test_nothing_is_written_while_another_command_is_at_work(self) -> None:
        with self.another_at_work(), mock.patch.object(outputs, "LONGEST_WAIT", 0.1):
            (line,) = self.refused(*self.words())
            self.assertEqual(
                line, f"{self.place}: another command writes in this folder, and doesn't end; run it again behind that"
            )
            with self.assertRaises(Refused), outputs.opened(outputs.Set(self.place, {"x": "x"}, False, False)):
                self.fail("it has begun")
        self.assertEqual(left(self.place), [])
        self.done(*self.words())

    def test_a_signal_ends_the_wait_for_another_command(self) -> None:
        with self.another_at_work():
            words = [sys.executable, "-B", str(DESK), *map(str, self.words())]
            waiting = subprocess.Popen(words, stderr=subprocess.PIPE, text=True)
            time.sleep(1)
            self.assertIsNone(waiting.poll())
            waiting.send_signal(signal.SIGTERM)
            self.assertEqual(waiting.communicate(timeout=5)[1], "gicdesk: stopped\n")
            self.assertEqual(waiting.returncode, 128 + signal.SIGTERM)
        self.assertEqual(left(self.place), [])

    def test_a_signal_just_before_the_end_leaves_nothing(self) -> None:
        real = signal.pthread_sigmask
        for number in range(1, 12):
            with self.subTest(number):
                count = 0

                def mask(how: int, signals: Iterable[int]) -> object:
                    nonlocal count
                    before = real(how, signals)
                    if how == signal.SIG_BLOCK and signals and threading.current_thread() is threading.main_thread():
                        count += 1
                        if count == number + 1:  # (the first is that of `taken`)
                            stops.stop(signal.SIGTERM, None)
                    return before

                with mock.patch("signal.pthread_sigmask", mask):
                    status, _, err = desk(*self.words())
                if count <= number:
                    self.assertEqual(status, 0)
                    break
                self.assertIn((status, err), ((143, "gicdesk: stopped\n"), (0, "")))
                self.assertIn(left(self.place), ([], ["table.csv"]))
                self.out.unlink(missing_ok=True)

    def test_where_there_are_no_links_nothing_is_overwritten_either(self) -> None:
        with mock.patch("os.link", side_effect=OSError(errno.EPERM, "Operation not permitted")):
            self.done(*self.words())
            self.assertEqual(self.out.read_text(), self.done("csv", SCREEN))
            self.out.write_text("mine")
            with mock.patch("gicdesk.outputs.file_fault", return_value=None):
                self.refused(*self.words())
        self.assertEqual(self.out.read_text(), "mine")
        self.assertEqual(left(self.place), ["table.csv"])

    def test_where_there_are_no_links_a_full_disk_leaves_what_stood_there(self) -> None:
        refused = OSError(errno.EPERM, "Operation not permitted")
        for stood in (None, "mine"):
            if stood is not None:
                self.out.write_text(stood)
            with self.subTest(stood), mock.patch("os.link", side_effect=refused), failing("os.replace", 1):
                (line,) = self.refused(*self.words("--force"))
                self.assertEqual(line, f"{self.out}: it can't be written (No space left on device); nothing of it was")
                self.assertEqual(left(self.place), [] if stood is None else ["table.csv"])
        self.assertEqual(self.out.read_text(), "mine")

    def test_links_that_lead_in_a_circle_are_told(self) -> None:
        loop = self.folder / "loop"
        loop.symlink_to("loop")
        (line,) = self.refused("csv", SCREEN, f"--out={loop}/x.csv")
        self.assertTrue(line.startswith(f"{loop}/x.csv: it can't be written (Too many levels of symbolic links"), line)
        (line,) = self.refused("study", loop, f"--program={FAKE}", f"--out={self.place}", "--force")
        self.assertTrue(line.startswith(f"{loop}: it can't be read (Too many levels of symbolic links"), line)
        for command in ("study", "outages"):
            (line,) = self.refused(command, SCREEN, f"--program={FAKE}", f"--out={loop}/x")
            self.assertIn("Too many levels of symbolic links", line)

    def test_a_symbolic_link_is_not_followed(self) -> None:
        other = self.folder / "other"
        self.out.symlink_to(other)
        for words in ((), ("--force",)):
            (line,) = self.refused(*self.words(*words))
            self.assertEqual(line, f"{self.out}: it is a symbolic link, and no plain file; choose another name")
        self.assertFalse(other.exists())

    def test_a_long_name_is_written_and_one_that_is_too_long_told(self) -> None:
        self.out = self.place / ("n" * 255)
        self.done(*self.words())
        self.out = self.place / ("n" * 256)
        (line,) = self.refused(*self.words())
        self.assertEqual(line, f"{self.out}: it can't be written (File name too long); nothing of it was")

    def test_a_folder_that_takes_nothing_is_told_before_the_report_is_read(self) -> None:
        refused = OSError(errno.EACCES, os.strerror(errno.EACCES))
        with (
            mock.patch("tempfile.mkdtemp", side_effect=refused),
            mock.patch("gicdesk.reports.read_report", side_effect=AssertionError),
        ):
            (line,) = self.refused(*self.words())
        self.assertEqual(line, f"{self.out}: it can't be written (Permission denied); nothing of it was")

    def test_a_disk_without_room_for_the_scratch_leaves_nothing(self) -> None:
        for name, number in (("tempfile.mkdtemp", 1), ("os.write", 1), ("os.mkdir", 2), ("os.mkdir", 3)):
            with self.subTest(name, number=number), failing(name, number):
                (line,) = self.refused(*self.words())
                self.assertEqual(line, f"{self.out}: it can't be written (No space left on device); nothing of it was")
                self.assertEqual(left(self.place), [])

    def test_a_full_disk_leaves_what_stood_there(self) -> None:
        self.out.write_text("mine")
        for name in (WRITE, "os.link", "os.rename"):
            with self.subTest(name), failing(name, 1):
                (line,) = self.refused(*self.words("--force"))
                self.assertEqual(line, f"{self.out}: it can't be written (No space left on device); nothing of it was")
                self.assertEqual((left(self.place), self.out.read_text()), (["table.csv"], "mine"))

    def test_a_file_that_is_read_is_not_written(self) -> None:
        report, other = self.file("report.txt", SCREEN.read_bytes()), self.folder / "other"
        os.link(report, other)
        told = "it is read by this command, too; choose another name"
        for out in (report, other, f"{self.folder}/place/../report.txt"):
            (line,) = self.refused("csv", report, f"--out={out}", "--force")
            self.assertEqual(line, f"{out}: {told}")
            (line,) = self.refused("compare", SCREEN, report, f"--out={out}", "--force")
            self.assertEqual(line, f"{out}: {told}")
        self.assertEqual(report.read_bytes(), SCREEN.read_bytes())

    def test_a_name_that_is_no_name(self) -> None:
        for out in (".", "..", "", "/", f"{self.folder}/.."):
            (line,) = self.refused("csv", SCREEN, f"--out={out}", "--force")
            self.assertEqual(line, f"{out}: it is there already, and no plain file; choose another name")


class Case(DeskTest):
    def test_a_table_that_is_read_is_not_written(self) -> None:
        tables = self.folder / "tables"
        shutil.copytree(TESTS.parents[1] / "examples" / "tables", tables)
        before = (tables / "zones.csv").read_bytes()
        (line,) = self.refused("case", tables, f"--out={tables / 'zones.csv'}", "--force")
        self.assertEqual(line, f"{tables / 'zones.csv'}: it is read by this command, too; choose another name")
        self.assertEqual((tables / "zones.csv").read_bytes(), before)


class Pair(DeskTest):
    """A case and its names, as `psse` writes them."""

    def setUp(self) -> None:
        super().setUp()
        self.place = self.folder / "place"
        self.place.mkdir()
        self.files = [self.file(name, text) for name, text in (("n.raw", RAW), ("n.gic", GIC), ("zones.csv", ZONES))]

    def words(self, *words: object) -> tuple[object, ...]:
        raw, gic, zones = self.files
        return ("psse", raw, gic, f"--zones={zones}", "--beyond=leave", f"--out={self.place / 'made.toml'}", *words)

    def texts(self) -> dict[str, str]:
        return {path.name: path.read_text() for path in self.place.iterdir()}

    def test_both_give_way_or_none(self) -> None:
        earlier_ones = {"made.toml": "an earlier case", "made.names.csv": "its names"}
        for name, text in earlier_ones.items():
            (self.place / name).write_text(text)
        for call in (WRITE, "os.link", "os.rename"):
            for number in (1, 2):
                with self.subTest(call, number=number), failing(call, number):
                    (line,) = self.refused(*self.words("--force"))
                    self.assertIn("it can't be written (No space left on device); nothing of it was", line)
                    self.assertEqual(self.texts(), earlier_ones)
        self.done(*self.words("--force"))
        self.assertFalse(set(self.texts().values()) & set(earlier_ones.values()))

    def test_both_come_or_none(self) -> None:
        for number in (1, 2):
            with self.subTest(number), failing("os.link", number):
                self.refused(*self.words())
                self.assertEqual(self.texts(), {})

    def test_what_another_puts_in_their_place_is_kept(self) -> None:
        real = os.link

        def link(source: pathlib.Path, target: pathlib.Path, **words: bool) -> None:
            if target.name == "made.names.csv":
                (self.place / "made.toml").unlink()
                (self.place / "made.toml").write_text("another's")
                raise FULL
            real(source, target, **words)

        for name in ("made.toml", "made.names.csv"):
            (self.place / name).write_text(f"the earlier {name}")
        with mock.patch("os.link", link):
            _, _, err = desk(*self.words("--force"))
        lines = err.splitlines()
        self.assertIn(f"{self.place / 'made.toml'}: something else is in its place; what stood there before lies in", lines[0])
        kept = pathlib.Path(lines[0].rpartition(" lies in ")[2])
        self.assertEqual(kept.read_text(), "the earlier made.toml")
        self.assertEqual((self.place / "made.toml").read_text(), "another's")
        self.assertEqual((self.place / "made.names.csv").read_text(), "the earlier made.names.csv")
        # Once the place is free, the next command puts it back.
        (self.place / "made.toml").unlink()
        _, _, err = desk("csv", SCREEN, f"--out={self.place / 'table.csv'}")
        self.assertIn(f"gicdesk: {self.place / 'made.toml'}: a command was ended before", err)
        self.assertEqual((self.place / "made.toml").read_text(), "the earlier made.toml")
        self.assertEqual(left(self.place), ["made.names.csv", "made.toml", "table.csv"])

    def killed(self, call: str, number: int, *words: object) -> None:
        """Runs the command in a process of its own that is killed just before the call of this number."""
        process = os.fork()
        if process == 0:
            real = getattr(os, call)
            count = 0

            def die(*given: object, **named: object) -> object:
                nonlocal count
                count += 1
                if count == number:
                    os.kill(os.getpid(), signal.SIGKILL)
                return real(*given, **named)

            setattr(os, call, die)
            desk(*words)
            os._exit(0)
        _, status = os.waitpid(process, 0)
        self.assertEqual(os.waitstatus_to_exitcode(status), -signal.SIGKILL)

    def test_what_a_killed_command_has_hidden_is_put_back_by_the_next(self) -> None:
        other = ("csv", SCREEN, f"--out={self.place / 'table.csv'}", "--force")
        for call, number in (("link", 1), ("link", 2), ("rename", 2)):
            with self.subTest(call, number=number):
                (self.place / "made.toml").write_text("an earlier case")
                (self.place / "made.names.csv").write_text("its names")
                self.killed(call, number, *self.words("--force"))
                self.assertNotEqual(left(self.place), ["made.names.csv", "made.toml"])
                status, _, err = desk(*other)
                self.assertEqual(status, 0)
                told = "a command was ended before all that it wrote was in its place; what stood there is put back"
                self.assertIn(f"gicdesk: {self.place / 'made.toml'}: {told}\n", err)
                self.assertEqual(left(self.place), ["made.names.csv", "made.toml", "table.csv"])
                self.assertEqual((self.place / "made.toml").read_text(), "an earlier case")
                self.assertEqual((self.place / "made.names.csv").read_text(), "its names")
                (self.place / "table.csv").unlink()

    def test_an_empty_file_that_a_killed_command_has_left_gives_way(self) -> None:
        def no_links(*_: object, **__: object) -> None:
            raise OSError(errno.EPERM, "Operation not permitted")

        made = self.place / "made.toml"
        made.write_text("an earlier case")
        with mock.patch("os.link", no_links):
            self.killed("replace", 1, *self.words("--force"))
        self.assertEqual(made.read_text(), "")
        _, _, err = desk("csv", SCREEN, f"--out={self.place / 'table.csv'}")
        self.assertIn(f"gicdesk: {made}: a command was ended before", err)
        self.assertEqual(made.read_text(), "an earlier case")
        self.assertEqual(left(self.place), ["made.toml", "table.csv"])

    def test_what_a_killed_command_has_written_is_taken_away_and_told(self) -> None:
        self.killed("link", 2, *self.words())
        _, _, err = desk("csv", SCREEN, f"--out={self.place / 'table.csv'}")
        told = "a command was ended before all that it wrote was in its place; it is taken away"
        self.assertEqual(err, f"gicdesk: {self.place / 'made.toml'}: {told}\n")
        self.assertEqual(left(self.place), ["table.csv"])

    def test_a_signal_while_they_come_to_their_places_waits(self) -> None:
        real = os.link

        def link(source: pathlib.Path, target: pathlib.Path, **words: bool) -> None:
            os.kill(os.getpid(), signal.SIGTERM)
            real(source, target, **words)

        with mock.patch("os.link", link):
            self.assertEqual(desk(*self.words())[0], 143)
        self.assertEqual(left(self.place), ["made.names.csv", "made.toml"])

    def test_what_somebody_has_changed_since_a_command_was_killed_stays(self) -> None:
        made, table = self.place / "made.toml", self.place / "table.csv"
        for force in ((), ("--force",)):
            with self.subTest(force):
                if force:
                    made.write_text("an earlier case")
                self.killed("link", 2, *self.words(*force))
                with open(made, "a") as file:
                    file.write("# my own line\n")
                _, _, err = desk("csv", SCREEN, f"--out={table}")
                self.assertTrue(made.read_text().endswith("# my own line\n"))
                if force:
                    told = f"gicdesk: {made}: something else is in its place; what stood there before lies in "
                    self.assertTrue(err.startswith(told), err)
                    kept = pathlib.Path(err.splitlines()[0].removeprefix(told))
                    self.assertEqual(kept.read_text(), "an earlier case")
                else:
                    told = "it was changed, so it stays; all else that came with it is taken away"
                    self.assertEqual(err, f"gicdesk: {made}: {told}\n")
                    self.assertEqual(left(self.place), ["made.toml", "table.csv"])
                made.unlink()
                table.unlink()

    def test_what_was_whole_and_was_changed_then_stays_whole(self) -> None:
        made = self.place / "made.toml"
        made.write_text("an earlier case")
        self.killed("unlink", 1, *self.words("--force"))
        with open(made, "a") as file:
            file.write("# my own line\n")
        self.done("csv", SCREEN, f"--out={self.place / 'table.csv'}")
        self.assertTrue(made.read_text().endswith("# my own line\n"))
        self.assertEqual(left(self.place), ["made.names.csv", "made.toml", "table.csv"])

    def test_what_was_whole_when_the_command_was_killed_stays(self) -> None:
        (self.place / "made.toml").write_text("an earlier case")
        self.killed("unlink", 1, *self.words("--force"))  # `publishing` is taken away behind all
        self.done("csv", SCREEN, f"--out={self.place / 'table.csv'}")
        self.assertEqual(left(self.place), ["made.names.csv", "made.toml", "table.csv"])
        self.assertIn("format = ", (self.place / "made.toml").read_text())

    def test_the_scratch_of_a_command_at_work_is_left_alone(self) -> None:
        with outputs.files_set([str(self.place / "one")], False, []) as out:
            self.done("csv", SCREEN, f"--out={self.place / 'table.csv'}")
            self.assertTrue(out.scratch.is_dir())
            out.publish({"one": "text"})
        self.assertEqual(left(self.place), ["one", "table.csv"])

    def test_a_folder_of_that_name_that_is_no_scratch_is_left_alone(self) -> None:
        for name in (".gicdesk.mine", ".gicdesk.yours"):
            (self.place / name).mkdir()
        (self.place / ".gicdesk.mine" / "owner").write_text("somebody")
        self.done("csv", SCREEN, f"--out={self.place / 'table.csv'}")
        self.assertEqual(left(self.place), [".gicdesk.mine", ".gicdesk.yours", "table.csv"])


class Laid(DeskTest):
    """A scratch that somebody else has laid beside an output."""

    def setUp(self) -> None:
        super().setUp()
        self.place = self.folder / "place"
        self.scratch = self.place / ".gicdesk.b"
        for name in ("new", "old", "victim"):
            (self.scratch / name).mkdir(parents=True)
        (self.scratch / "owner").write_bytes(outputs.HEAD)
        (self.scratch / "victim" / "planted").write_text("evil")
        (self.folder / "victim").mkdir()
        self.precious = self.file("victim/precious", "years of work")

    def run_beside(self, publishing: str) -> str:
        """What is told by a command whose output lies beside the scratch with this `publishing`."""
        (self.scratch / "publishing").write_text(publishing)
        status, _, err = desk("csv", SCREEN, f"--out={self.place / 'x.csv'}", "--force")
        self.assertEqual(status, 0, err)
        return err

    def test_nothing_outside_the_folder_is_planted_or_taken_away(self) -> None:
        found = os.lstat(self.precious)
        numbers = [found.st_dev, found.st_ino, found.st_size, found.st_mtime_ns]
        for count in (2, 4):
            for publishing in (
                {"../victim/planted": [1] * count},
                {"x": [1] * count, str(self.precious): numbers[:count]},
                {"x": [1] * count, "../victim/precious": numbers[:count]},
                {"..": [1] * count},
                {"": [1] * count},
                {"\ud800": [1] * count},
                {"a\0b": [1] * count},
            ):
                with self.subTest(publishing):
                    err = self.run_beside(json.dumps(publishing))
                    self.assertIn("its publishing isn't one of the desk", err)
                    self.assertEqual(left(self.folder / "victim"), ["precious"])
                    self.assertEqual(left(self.place), [".gicdesk.b", "x.csv"])

    def test_what_is_no_table_of_targets_is_told(self) -> None:
        for publishing in ("5", "null", "[1]", '"x"', '{"x": 1}', '{"x": [1, "2"]}', '{"x": [1, true]}', '{"x": null}'):
            with self.subTest(publishing):
                self.assertIn("its publishing isn't one of the desk", self.run_beside(publishing))

    def test_one_of_another_user_and_a_link_to_one_are_left_alone(self) -> None:
        with mock.patch("os.geteuid", return_value=os.geteuid() + 1):
            self.assertEqual(self.run_beside("{}"), "")
        self.scratch.rename(self.folder / "elsewhere")
        self.scratch.symlink_to(self.folder / "elsewhere")
        self.assertEqual(self.run_beside("{}"), "")
        self.assertTrue((self.folder / "elsewhere" / "owner").exists())


class Tables(OutagesTest):
    """The three tables of `outages`."""

    def setUp(self) -> None:
        super().setUp()
        self.place = self.folder / "place"
        self.place.mkdir()
        self.out = self.place / "out"
        self.given = self.events("one,K,open\n")

    def run_words(self, *words: object) -> tuple[object, ...]:
        return self.words(self.given, f"--out={self.out}", *words)

    def texts(self) -> dict[str, str]:
        return {path.name: path.read_text() for path in self.out.iterdir()}

    def test_all_three_give_way_or_none(self) -> None:
        self.done(*self.run_words())
        before = self.texts()
        self.prints("screen", (self.reports / "screen+K.txt").read_text())
        for call in (WRITE, "os.link", "os.rename"):
            for number in (1, 2, 3):
                with self.subTest(call, number=number), failing(call, number):
                    self.refused(*self.run_words("--force"))
                    self.assertEqual(self.texts(), before)
        self.done(*self.run_words("--force"))
        self.assertNotEqual(self.texts(), before)
        self.assertEqual(len(self.texts()), 3)

    def test_a_disk_that_is_full_for_large_files(self) -> None:
        rows = "".join(f"event {number},K,open\n" for number in range(40))
        self.given = self.events(rows)
        self.done(*self.run_words())
        before = self.texts()
        limit = "import resource, signal, sys; signal.signal(signal.SIGXFSZ, signal.SIG_IGN); "
        limit += "resource.setrlimit(resource.RLIMIT_FSIZE, (8192, 8192)); sys.argv = sys.argv[1:]; "
        limit += "import os; os.execv(sys.argv[0], sys.argv)"
        self.assertGreater(max(map(len, before.values())), 8192)
        words = [sys.executable, "-c", limit, sys.executable, "-B", str(DESK), *map(str, self.run_words("--force"))]
        ran = subprocess.run(words, capture_output=True, text=True, timeout=LONG)
        self.assertEqual((ran.returncode, ran.stdout), (1, ""))
        self.assertIn("it can't be written (File too large); nothing of it was", ran.stderr)
        self.assertEqual((self.texts(), left(self.place)), (before, ["out"]))

    def test_an_output_that_cannot_be_written_is_told_before_any_run(self) -> None:
        self.reports.rename(self.folder / "none")
        for out, told in (
            (self.place / ("n" * 256), "it can't be written (File name too long); nothing of it was"),
            (self.place / "none" / "out", "there is no folder to make it in; make that first"),
            (".", "it is the folder that you are in, or one above it; choose another name"),
            ("..", "it is the folder that you are in, or one above it; choose another name"),
            ("", "it is the folder that you are in, or one above it; choose another name"),
        ):
            for force in ((), ("--force",)):
                (line,) = self.refused(*self.words(self.given, f"--out={out}", *force))
                self.assertEqual(line, f"{out}: {told}")

    def test_a_folder_that_comes_meanwhile_is_kept(self) -> None:
        real = outputs.locked

        def come(folder: pathlib.Path, shown: str) -> contextlib.AbstractContextManager[bool]:
            if list(folder.glob(".gicdesk.*")):
                self.out.mkdir(exist_ok=True)
            return real(folder, shown)

        with mock.patch.object(outputs, "locked", come):
            (line,) = self.refused(*self.run_words())
        self.assertEqual(line, f"{self.out}: it is there already, and wasn't when the command began; choose another name")
        self.assertEqual((left(self.place), left(self.out)), (["out"], []))

    def test_a_table_that_is_read_is_not_written(self) -> None:
        self.out.mkdir()
        (self.out / "events.csv").write_text(f"{HEADS}one,K,open\n")
        self.given = f"--events={self.out / 'events.csv'}"
        (line,) = self.refused(*self.run_words("--force"))
        self.assertEqual(line, f"{self.out / 'events.csv'}: it is read by this command, too; choose another name")


class Whole(StudyTest):
    """The folder of a study."""

    def setUp(self) -> None:
        super().setUp()
        self.place = self.folder / "place"
        self.place.mkdir()
        self.out = self.place / "out"

    def force(self) -> list[str]:
        before = self.tree()
        lines = self.refused(*self.words("--force"))
        self.assertEqual(self.tree(), before)
        self.assertEqual(left(self.place), ["out"])
        return [line.removeprefix(f"{self.out}/").removeprefix(f"{self.out}") for line in lines]

    def tree(self) -> dict[str, bytes | None]:
        return {str(path): path.read_bytes() if path.is_file() else None for path in sorted(self.out.rglob("*"))}

    def test_a_folder_of_somebody_else_with_its_own_sums_is_kept(self) -> None:
        self.out.mkdir()
        (self.out / "thesis.tex").write_text("years of work")
        (self.out / "checksums.txt").write_text(f"{earlier.digest_of(b'years of work')}  thesis.tex\n")
        (line,) = self.force()
        other = "choose another name"
        told = "so it is no earlier study, or one of an earlier desk, and --force doesn't replace it"
        self.assertEqual(line, f": it has no .gicdesk, {told}; {other}")
        (self.out / ".gicdesk").write_text("a study of gicdesk\n")
        (line,) = self.force()
        self.assertEqual(line, f": its .gicdesk isn't that of its checksums.txt, so --force doesn't replace it; {other}")

    def test_all_that_is_not_of_the_study_is_told_and_kept(self) -> None:
        self.page()
        (self.out / "empty").mkdir()
        (self.out / "mine").mkdir()
        (self.out / "mine" / "notes.txt").write_text("mine")
        (self.out / "reports" / "link.txt").symlink_to("screen.txt")
        (self.out / "tables" / "link").symlink_to(self.reports)
        os.mkfifo(self.out / "pipe")
        (self.out / "units.csv").write_text("changed")
        (self.out / "losses.csv").write_text("a file that another study would have")
        more, moved = "isn't of the earlier study", "; move it elsewhere"
        self.assertEqual(
            sorted(self.force()),
            sorted(
                [
                    f"empty: it is a folder that {more}{moved}",
                    f"mine: it is a folder that {more}{moved}",
                    f"mine/notes.txt: it {more}{moved}",
                    f"reports/link.txt: it is no plain file, so it {more}{moved}",
                    f"tables/link: it is no plain file, so it {more}{moved}",
                    f"pipe: it is no plain file, so it {more}{moved}",
                    f"units.csv: it has changed since the earlier study was made{moved}",
                    f"losses.csv: it {more}{moved}",
                ]
            ),
        )

    def test_what_replaces_a_study_is_on_the_disk_before_that_goes(self) -> None:
        with mock.patch("os.sync", side_effect=KeyboardInterrupt):
            self.page()
            self.assertEqual(desk(*self.words("--force"))[0], 130)
        self.assertEqual(left(self.place), ["out"])

    def test_a_study_that_lost_a_file_gives_way(self) -> None:
        self.page()
        (self.out / "reports" / "screen.txt").unlink()
        self.page("--force")
        self.assertTrue((self.out / "reports" / "screen.txt").exists())
        self.assertEqual(left(self.place), ["out"])

    def test_a_study_that_was_being_taken_away_is_taken_away_from_any_moment_on(self) -> None:
        self.page()
        whole = self.folder / "whole"
        shutil.copytree(self.out, whole)
        count = len(list(whole.rglob("*")))
        for call in ("os.unlink", "os.rmdir"):
            for number in range(1, count + 1):
                with self.subTest(call, number=number):
                    rest = self.folder / "rest"
                    shutil.copytree(whole, rest)
                    with failing(call, number), contextlib.suppress(OSError):
                        earlier.take_away(rest, "rest")
                    if rest.exists():
                        earlier.take_away(rest, "rest")
                    self.assertFalse(rest.exists())

    def test_a_study_that_was_killed_while_the_earlier_one_was_cleared_away(self) -> None:
        self.page()
        with failing("os.unlink", 4, KeyboardInterrupt()):
            self.assertEqual(desk(*self.words("--force"))[0], 130)
        self.assertEqual(len(left(self.place)), 2)
        (scratch,) = self.place.glob(".gicdesk.*")
        self.assertNotEqual(left(scratch / "old"), [])
        self.assertEqual(desk("csv", SCREEN, f"--out={self.place / 't.csv'}"), (0, "", ""))
        self.assertEqual(left(self.place), ["out", "t.csv"])

    def test_what_comes_into_the_earlier_study_as_it_is_cleared_away_is_kept(self) -> None:
        self.page()
        real = os.rename

        def rename(source: pathlib.Path, target: pathlib.Path) -> None:
            real(source, target)
            if pathlib.Path(target) == self.out:
                ((scratch,),) = (list(self.place.glob(".gicdesk.*")),)
                (scratch / "old" / "out" / "mine.txt").write_text("mine")

        with mock.patch("os.rename", rename):
            status, _, err = desk(*self.words("--force"))
        self.assertEqual(status, 0)
        (scratch,) = self.place.glob(".gicdesk.*")
        self.assertIn(f"gicdesk: {scratch}: something of what gave way is left there", err)
        self.assertEqual((scratch / "old" / "out" / "mine.txt").read_text(), "mine")

    def test_a_study_that_was_killed_between_its_renames_is_put_back_by_the_next(self) -> None:
        self.page()
        before = self.tree()
        process = os.fork()
        if process == 0:
            real, count = os.rename, 0

            def die(source: pathlib.Path, target: pathlib.Path) -> None:
                nonlocal count
                count += 1
                if count == 2:
                    os.kill(os.getpid(), signal.SIGKILL)
                real(source, target)

            os.rename = die  # type: ignore[assignment]
            desk(*self.words("--force"))
            os._exit(0)
        self.assertEqual(os.waitstatus_to_exitcode(os.waitpid(process, 0)[1]), -signal.SIGKILL)
        self.assertFalse(self.out.exists())
        status, _, err = desk(*self.words())
        self.assertEqual(status, 1)
        self.assertIn(f"gicdesk: {self.out}: a command was ended before all that it wrote was in its place", err)
        self.assertEqual((self.tree(), left(self.place)), (before, ["out"]))

    def test_many_folders_one_in_another_are_told(self) -> None:
        self.page()
        deep = self.out
        for _ in range(1200):
            deep /= "d"
            os.mkdir(deep)
        lines = self.refused(*self.words("--force"))
        self.assertIn("/d: it is a folder that isn't of the earlier study; move it elsewhere", lines[0])
        while deep != self.out:
            os.rmdir(deep)
            deep = deep.parent

    def test_a_link_to_a_study_is_kept(self) -> None:
        self.page()
        study, self.out = self.out, self.place / "link"
        self.out.symlink_to(study)
        (line,) = self.refused(*self.words("--force"))
        self.assertEqual(line, f"{self.out}: it is there already, and no folder; choose another name")
        self.assertTrue((study / "study.html").exists())

    def test_what_comes_into_the_earlier_study_meanwhile_is_kept(self) -> None:
        self.page()
        real = os.rename

        def rename(source: pathlib.Path, target: pathlib.Path) -> None:
            if pathlib.Path(source) == self.out:
                (self.out / "mine.txt").write_text("mine")
            real(source, target)

        with mock.patch("os.rename", rename):
            (line,) = self.refused(*self.words("--force"))
        self.assertTrue(line.endswith("mine.txt: it isn't of the earlier study; move it elsewhere"), line)
        self.assertEqual((self.out / "mine.txt").read_text(), "mine")
        self.assertEqual(left(self.place), ["out"])

    def test_a_full_disk_leaves_the_earlier_study(self) -> None:
        self.page()
        before = self.tree()
        for name, number in ((WRITE, 1), (WRITE, 9), ("os.rename", 1), ("os.rename", 2)):
            with self.subTest(name, number=number), failing(name, number):
                self.refused(*self.words("--force"))
                self.assertEqual((self.tree(), left(self.place)), (before, ["out"]))

    def test_a_folder_that_a_file_is_read_of_is_kept(self) -> None:
        self.page()
        inside = self.out / "reports" / "case.toml"
        (line,) = self.refused("study", inside, f"--program={FAKE}", f"--out={self.out}", "--force")
        self.assertEqual(line, f"{self.out}: {inside}, which this command reads, lies in it; choose another name")

    def test_the_folder_where_it_runs_is_kept(self) -> None:
        self.page()
        with contextlib.chdir(self.out):
            for out in (".", "", self.out, "..", f"{self.out}/reports/.."):
                (line,) = self.refused("study", self.case, f"--program={FAKE}", f"--out={out}", "--force")
                self.assertIn("it is the folder that you are in, or one above it; choose another name", line)


if __name__ == "__main__":
    unittest.main()
