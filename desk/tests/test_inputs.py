"""Files that change while a command runs: all that comes of it is of what each held when it was read, once."""

import hashlib
import os
import pathlib
import subprocess
import threading
import unittest
from unittest import mock

from shared import BUILT, EXAMPLES, FAKE, DeskTest
from test_outages import ONE, OutagesTest, screen
from test_study import CASE, STORM, StudyTest

from gicdesk import files, program
from gicdesk.findings import Refused
from gicdesk.inputs import copied, scratch
from gicdesk.program import commit_of, find_program, is_recorded, taken_program

# A program that changes the file CHANGED for others, and itself takes the text of the case into account: with another text
# each current is 0.
CHANGING = """\
#!/bin/sh
for word; do case $word in --case=*) file=${word#--case=} ;; esac; done
[ -z "$file" ] || cmp -s "$file" FIRST || { echo "another case was given to a run" >&2; exit 9; }
echo changed >CHANGED
FAKE "$@"
status=$?
BACK
exit $status
"""


class Changes(StudyTest):
    """Each run changes the case, and perhaps takes the change back."""

    def changing(self, back: bool) -> pathlib.Path:
        first = self.file("first.toml", CASE)
        self.case.write_text(CASE)
        text = CHANGING.replace("FIRST", str(first)).replace("CHANGED", str(self.case)).replace("FAKE", str(FAKE))
        other = self.file("changing", text.replace("BACK", f"cp {first} {self.case}" if back else ""))
        other.chmod(0o755)
        return other

    def test_outages_are_of_the_case_as_it_was_read(self) -> None:
        expected = self.done("outages", self.case, f"--program={FAKE}")
        for back in (False, True):
            with self.subTest(back=back):
                self.assertEqual(self.done("outages", self.case, f"--program={self.changing(back)}"), expected)

    def test_a_study_is_of_the_case_as_it_was_read(self) -> None:
        for back in (False, True):
            with self.subTest(back=back):
                self.out = self.folder / f"out{back}"
                self.done("study", self.case, f"--program={self.changing(back)}", f"--out={self.out}")
                page = (self.out / "study.html").read_text()
                self.assertIn(hashlib.sha256(CASE.encode()).hexdigest(), page)
                self.assertIn(f"--case={self.case}", page)
                self.assertNotIn("gicdesk.", (self.out / "commands.txt").read_text())

    def test_pipes_are_read_once(self) -> None:
        def pipe(name: str, text: str) -> pathlib.Path:
            path = self.folder / name
            os.mkfifo(path)
            threading.Thread(target=path.write_text, args=(text,)).start()
            return path

        expected = self.page(f"--storm={self.file('storm.csv', STORM)}")
        self.out, self.case = self.folder / "again", pipe("case.fifo", CASE)
        page = self.page(f"--storm={pipe('storm.fifo', STORM)}")
        for words in ("out", "case.toml", "storm.csv"):
            expected = expected.replace(f"{self.folder}/{words}", "X")
        self.assertIn("case.fifo", page)
        self.assertEqual(len(expected.splitlines()), len(page.splitlines()))


class Given(OutagesTest):
    def test_the_switchings_and_the_events_are_of_one_reading(self) -> None:
        self.prints("screen+K", screen(ONE, ONE))
        switch = self.file("switch.csv", "time,item,action\n5,L,close\n")
        events = self.events("one,K,open\n")
        expected = self.done(*self.words(events, f"--switch={switch}"))
        other = self.file("other", f"#!/bin/sh\necho bad >{switch}; echo bad >{self.folder}/events.csv\nexec {FAKE} \"$@\"\n")
        other.chmod(0o755)
        self.assertEqual(self.done("outages", "case.toml", f"--program={other}", events, f"--switch={switch}"), expected)

    def test_one_file_for_two_options_is_read_once(self) -> None:
        with copied({"case": "case.toml", "switch": "case.toml"}) as copies, mock.patch("builtins.open"):
            self.assertEqual(copies.inputs["case"].data, copies.inputs["switch"].data)
            words = ("screen", "--case=case.toml", "--switch=case.toml", "--case=other", "--width=5")
            folder = copies.folder
            expected = ["screen", f"--case={folder}/case", f"--switch={folder}/switch", "--case=other", "--width=5"]
            self.assertEqual(copies.words(words), expected)
        self.assertFalse(os.path.exists(folder))

    def test_a_file_that_is_written_while_it_is_read_is_refused(self) -> None:
        path = self.file("case.toml", "a" * 1000)

        class Growing:
            def __init__(self) -> None:
                self.file = open(path, "rb")

            def fileno(self) -> int:
                return self.file.fileno()

            def read(self, most: int) -> bytes:
                half = self.file.read(500)
                path.write_bytes(b"b" * 1001)
                return half + self.file.read(most)

        with self.assertRaises(Refused) as refused:
            growing = Growing()
            self.addCleanup(growing.file.close)
            files.read_at_once("case.toml", growing)  # type: ignore[arg-type]
        words = "case.toml: it changed while it was read; run it again once it stays as it is"
        self.assertEqual(refused.exception.lines(), [words])

    def test_a_copy_that_has_no_room_is_told(self) -> None:
        with mock.patch("gicdesk.inputs.open", side_effect=OSError(28, "No space left on device"), create=True):
            (line,) = self.refused(*self.words())
        told = "a copy of case.toml can't be written there (No space left on device); look at TMPDIR"
        self.assertEqual(line, f"the temporary folder: {told}")


class Programs(DeskTest):
    """Which program is run, and of which commit it is."""

    def setUp(self) -> None:
        super().setUp()
        self.program = self.file("elf", pathlib.Path("/bin/echo").read_bytes())
        self.program.chmod(0o755)
        self.sum = hashlib.sha256(self.program.read_bytes()).hexdigest()

    def test_a_program_is_copied_and_a_script_is_not(self) -> None:
        with scratch() as folder:
            found = taken_program(str(self.program), folder)
            self.assertEqual((found.path, found.file, found.checksum), (str(self.program), f"{folder}/gicstudy", self.sum))
            self.program.write_bytes(b"another")
            self.assertEqual(found.run("hello").report, b"hello\n")
            found.look_for_change()
            script = taken_program(str(FAKE), folder)
            self.assertEqual((script.path, script.file), (str(FAKE), str(FAKE)))
            with mock.patch("os.access", return_value=False):
                self.assertEqual(taken_program("/bin/echo", folder).file, "/bin/echo")

    def repository(self) -> pathlib.Path:
        """A repository with a source, a program and the record of its build."""
        top = self.folder / "top"
        built = top / "crates" / "gicstudy" / "out" / "gicstudy"
        built.parent.mkdir(parents=True)
        (top / "source").write_text("source")
        (top / ".gitignore").write_text("out/\n")
        built.write_bytes(self.program.read_bytes())
        lines = [f"{'0' * 64}  crates.txt, the lines of these crates"]
        lines += [f"{hashlib.sha256(b'source').hexdigest()}  source", f"{self.sum}  crates/gicstudy/out/gicstudy"]
        built.with_name("gicstudy.sources").write_text("\n".join(lines) + "\n")
        for words in (("init", "-q"), ("add", "-A"), ("-c", "user.name=n", "-c", "user.email=e", "commit", "-qm", "m")):
            subprocess.run(["git", "-C", top, *words], check=True, capture_output=True)
        for name, place in (("TOP", top), ("RECORD", built.with_name("gicstudy.sources")), ("BUILT", built)):
            patch = mock.patch.object(program, name, place)
            patch.start()
            self.addCleanup(patch.stop)
        return top

    @unittest.skipIf(subprocess.run(["which", "git"], capture_output=True).returncode, "no git is here")
    def test_a_commit_is_that_of_the_record_alone(self) -> None:
        top = self.repository()
        self.assertRegex(commit_of(self.sum) or "", "^[0-9a-f]{40}$")
        self.assertIsNone(commit_of("0" * 64), "another program")
        (top / ".gitignore").write_text("out/\n\n")
        self.assertRegex(commit_of(self.sum) or "", "^[0-9a-f]{40}, with changes$")
        (top / "source").write_text("another source")
        self.assertIsNone(commit_of(self.sum), "another source")
        (top / "source").unlink()
        self.assertIsNone(commit_of(self.sum), "no source")
        self.assertEqual((is_recorded(self.sum), is_recorded("0" * 64)), (True, False))
        (top / "source").write_text("source")
        program.RECORD.write_bytes(b"\xff")
        self.assertIsNone(commit_of(self.sum), "a record that is none")
        program.RECORD.unlink()
        self.assertIsNone(commit_of(self.sum), "no record")
        self.assertFalse(is_recorded(self.sum))

    def test_where_there_is_no_proved_program_it_is_told_how_to_prove_one(self) -> None:
        script = self.file("gicstudy", '#!/bin/sh\n[ "$1" = --proved ] && exit 1\n')
        script.chmod(0o755)
        told = "there is no proved program of these sources; run ./gicstudy --prove, or give the path of one by --program"
        for built in (self.program, self.folder / "none"):
            with mock.patch.object(program, "SCRIPT", script), mock.patch.object(program, "BUILT", built):
                with self.assertRaises(Refused) as refused:
                    find_program(None, str(self.folder))
                self.assertEqual(refused.exception.lines(), [f"{built}: {told}"])
                script.write_text('#!/bin/sh\n[ "$1" = --proved ]\n')
        with mock.patch.object(program, "SCRIPT", script), mock.patch.object(program, "BUILT", self.program):
            self.assertEqual(find_program(None, str(self.folder)).checksum, self.sum)

    @unittest.skipUnless(BUILT.is_file(), "no program is built")
    def test_the_program_takes_the_copies(self) -> None:
        words = ("outages", EXAMPLES / "valley.toml", f"--program={BUILT}", f"--switch={EXAMPLES / 'outage.csv'}")
        shown = self.done(*words)
        self.assertTrue(shown.startswith(f"case {EXAMPLES / 'valley.toml'}, switchings {EXAMPLES / 'outage.csv'}, "), shown)


if __name__ == "__main__":
    unittest.main()
