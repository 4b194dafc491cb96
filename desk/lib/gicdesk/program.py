"""The program `gicstudy`: where it is, and what comes of running it."""

import dataclasses
import hashlib
import os
import pathlib
import re
import shutil

from .findings import refuse, shown
from .inputs import put
from .running import run_process

TOP = pathlib.Path(__file__).resolve().parents[3]
SCRIPT = TOP / "gicstudy"  # tells whether there is a proved program
RECORDED = "crates/gicstudy/out/gicstudy"
BUILT = TOP / RECORDED
RECORD = TOP / f"{RECORDED}.sources"  # the sums of the sources and of the program of the last build
LISTED = "crates.txt,"
RECORD_LINE = re.compile(r"([0-9a-f]{64})  (.+)")
ELF = b"\x7fELF"
NETWORK_FAULT = re.compile(r"gicstudy: (unearthed|unresolved): step [0-9]+ node (\S+)")
FILE_FAULT = re.compile(r"gicstudy: (?:cannot read |too long: )?([a-z]+)\b")
SWITCH_FAULT = re.compile(r"gicstudy: switch: .* in row ([0-9]+)")


@dataclasses.dataclass(frozen=True)
class Run:
    """How a run ended: its status, its report and the line of its error stream."""

    status: int
    report: bytes
    line: str

    @property
    def network_fault(self) -> tuple[str, str] | None:
        """Why the network can't be solved, as the word unearthed or unresolved, and a node."""
        found = NETWORK_FAULT.fullmatch(self.line)
        return (found[1], found[2]) if found and self.status in (8, 9) else None

    @property
    def file(self) -> str | None:
        """The file that the line speaks of, by its option's name; another word or None where it speaks of none."""
        found = FILE_FAULT.match(self.line)
        return found[1] if found else None

    @property
    def switch_row(self) -> int | None:
        """The row of the switchings that was refused, from 1."""
        found = SWITCH_FAULT.match(self.line)
        return int(found[1]) if found and self.status == 7 else None


# What the first line of a file has to be, where the program tells that it isn't that.
HEADS = {
    "gicstudy: storm: shape in row 0": "a storm begins with time,north,east or time,zone,north,east, and ",
    "gicstudy: switch: shape in row 0": "switchings begin with time,item,action, and ",
}


@dataclasses.dataclass(frozen=True)
class Program:
    """The program under the name by which it is known, and the file that is run: a copy of it, where it can be one."""

    path: str
    file: str
    checksum: str

    def run(self, *words: str) -> Run:
        try:
            status, report, line = run_process([self.path, *words], self.file)
        except OSError as error:
            raise refuse(self.path, f"it can't be run ({error.strerror}); name the program by --program") from None
        return Run(status, report, line.decode("utf-8", "replace").strip())

    def look_for_change(self) -> None:
        """Refuses what was run where it isn't what it was when the command began; a copy stays as it is."""
        if self.file == self.path and checksum_of(self.path) != self.checksum:
            words = "it has changed while the command ran, so its reports are of several programs; run it again"
            raise refuse(self.path, words)


def checksum_of(path: str) -> str:
    return hashlib.sha256(read_program(path)).hexdigest()


def read_program(path: str) -> bytes:
    try:
        return pathlib.Path(path).read_bytes()
    except OSError as error:
        raise refuse(path, f"it can't be read ({error.strerror}); name the program by --program") from None


def taken_program(path: str, folder: str) -> Program:
    """The program at a path, with its sum. What is run is a copy in the folder, so that it stays the same whatever becomes
    of the file; but a script is run where it lies, since it may look for what lies beside it, and so is a program of which
    a copy in that folder can't be run."""
    data = read_program(path)
    checksum = hashlib.sha256(data).hexdigest()
    if not data.startswith(ELF):
        return Program(path, path, checksum)
    copy = pathlib.Path(folder, "gicstudy")
    put(copy, data, f"a copy of {path}")
    copy.chmod(0o700)
    return Program(path, str(copy) if os.access(copy, os.X_OK) else path, checksum)


def ending(run: Run) -> str:
    """How a run without a report ended, in words."""
    if run.status < 0:
        return f"the program was ended by the signal {-run.status}; is there too little memory?"
    line = shown(run.line) if run.line else "no line"
    heads = HEADS.get(run.line, "")
    return f"the program ended with status {run.status} and {line}; {heads}docs/FAULTS.md says what it comes from"


def find_program(given: str | None, folder: str) -> Program:
    """The program that --program names, or else the proved one of this repository; a copy of it lies in the folder."""
    if given is not None:
        path = shutil.which(given)
        if path is None:
            raise refuse(given, "there is no such program that can be run; give its path by --program")
        return taken_program(os.path.abspath(path), folder)
    if not SCRIPT.exists():
        raise refuse(str(SCRIPT), "the program isn't there; give its path by --program")
    # A run without files: why there is no proved program of these sources is told on the error stream.
    status, _, _ = run_process([str(SCRIPT), "--proved", "make", "--seed=1", "--size=2"], error=None)
    if status != 0 or not BUILT.exists():
        words = "there is no proved program of these sources; run ./gicstudy --prove, or give the path of one by --program"
        raise refuse(str(BUILT), words)
    return taken_program(str(BUILT), folder)


def commit_of(checksum: str) -> str | None:
    """The commit of this repository of which the program with this sum was built, told where files are changed; None where
    the record of the last build is of another program or of other sources, or where there is no commit or no record."""
    sums = recorded_sums()
    if sums.pop(RECORDED, None) != checksum or not all(is_source(path, digest) for path, digest in sums.items()):
        return None
    if not (TOP / ".git").exists():
        return None
    commit, changes = git("rev-parse", "HEAD"), git("status", "--porcelain", "--untracked-files=no")
    if not commit or changes is None:
        return None
    return f"{commit}, with changes" if changes else commit


def is_recorded(checksum: str) -> bool:
    """Whether the record of the last build is of the program with this sum, whatever its sources."""
    return recorded_sums().get(RECORDED) == checksum


def recorded_sums() -> dict[str, str]:
    """The sums of the record that a build leaves beside its program, by the paths of the sources and of the program."""
    try:
        lines = map(RECORD_LINE.fullmatch, RECORD.read_text(encoding="utf-8").splitlines())
    except (OSError, UnicodeDecodeError):
        return {}
    return {line[2]: line[1] for line in lines if line}


def is_source(path: str, digest: str) -> bool:
    """Whether a source is as it was recorded. The lines of the list of crates have a sum of their own, which isn't looked
    at: `git status` tells whether that file has changed."""
    if path.startswith(LISTED):
        return True
    try:
        return hashlib.sha256((TOP / path).read_bytes()).hexdigest() == digest
    except OSError:
        return False


def git(*words: str) -> str | None:
    """What git says of this repository; None where it says nothing."""
    try:
        status, out, _ = run_process(["git", "-C", str(TOP), *words])
    except OSError:
        return None
    return out.decode("utf-8", "replace").strip() if status == 0 else None
