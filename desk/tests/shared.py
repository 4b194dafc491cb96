"""What the tests share: the desk's command in this process, files of their own, and the program where one is built."""

import contextlib
import io
import os
import pathlib
import sys
import tempfile
import unittest
from unittest import mock

TESTS = pathlib.Path(__file__).resolve().parent
TOP = TESTS.parents[1]
sys.path.insert(0, str(TESTS.parent / "lib"))

from gicdesk import command  # noqa: E402

EXAMPLES = TOP / "examples"
REPORTS = EXAMPLES / "reports"
BUILT = pathlib.Path(os.environ.get("GICSTUDY") or TOP / "crates" / "gicstudy" / "out" / "gicstudy")
FAKE = TESTS / "fake"


class Stream(io.TextIOWrapper):
    """A stream in memory, as the system's are."""

    def __init__(self, errors: str = "strict") -> None:
        self.written = io.BytesIO()
        super().__init__(self.written, encoding="utf-8", errors=errors, write_through=True)

    def text(self) -> str:
        self.flush()
        return self.written.getvalue().decode()


def desk(*words: object, stdin: bytes = b"") -> tuple[int, str, str]:
    """Runs the command with these words: its status, and what it writes on its two streams."""
    out, err, given = Stream(), Stream("backslashreplace"), io.TextIOWrapper(io.BytesIO(stdin))
    kept, sys.stdin = sys.stdin, given
    try:
        with contextlib.redirect_stdout(out), contextlib.redirect_stderr(err):
            try:
                status = command.main([str(word) for word in words])
            except SystemExit as ended:
                status = int(ended.code or 0)
    finally:
        sys.stdin = kept
    return status, out.text(), err.text()


class DeskTest(unittest.TestCase):
    """A test with a folder of its own."""

    maxDiff = None

    def setUp(self) -> None:
        scratch = tempfile.TemporaryDirectory()
        self.addCleanup(scratch.cleanup)
        self.folder = pathlib.Path(scratch.name)
        # (a disk at work takes seconds for it)
        for name in ("os.fsync", "os.sync"):
            synced = mock.patch(name)
            synced.start()
            self.addCleanup(synced.stop)

    def file(self, name: str, text: str | bytes) -> pathlib.Path:
        """A file of the folder with this text."""
        path = self.folder / name
        path.write_bytes(text if isinstance(text, bytes) else text.encode())
        return path

    def done(self, *words: object, stdin: bytes = b"") -> str:
        """What the command prints, which must be done."""
        status, out, err = desk(*words, stdin=stdin)
        self.assertEqual((status, err), (0, ""))
        return out

    def refused(self, *words: object, stdin: bytes = b"") -> list[str]:
        """The lines of the command's refusal, behind its name."""
        status, out, err = desk(*words, stdin=stdin)
        self.assertEqual((status, out), (1, ""), err)
        lines = err.splitlines()
        for line in lines:
            self.assertTrue(line.startswith("gicdesk: "), line)
        return [line.removeprefix("gicdesk: ") for line in lines]
