"""Answers by the program compiled without proof, where no proved one of these sources is there.

It is checked code: it stops at an index out of bounds, an overflow or a bad access, and is some hundred times slower than
the proved program. Nothing is promised of its answers. It is compiled once for its sources and its toolchain, and kept in
crates/gicstudy/out/unproved; where that can't be written it is compiled for one call in the folder for what is temporary."""

import json
import os
import re
import shutil
import signal
import subprocess
import tempfile
from collections.abc import Iterator
from contextlib import contextmanager, suppress
from dataclasses import asdict, dataclass
from pathlib import Path

from copies import with_copies
from crates import PROGRAM, Fault
from locks import locked
from record import identity_of, no_toolchain, put, read_program
from snapshot import out_of
from sources import Sources, sum_of
from stops import STOPS, Stopped, held_back, let_in, running
from teller import Teller
from trial import TRIAL, copy_in, run_trial

PROVE = "./gicstudy --prove proves and builds it"
# What a first build takes, as bench/README.md has it.
TAKES = "10 to 40 minutes on four processors, twice as long on two"
UNPROVED = f"this answer comes from the program compiled without proof, and nothing is guaranteed; {PROVE} ({TAKES})"
COMPILES = "compiling the program first, a minute or two; "

PARTS = ("src",)
RECORD = "record"
TOOLCHAIN = "toolchain"
# In place of a kept program: of these sources and this toolchain none can be kept.
NOT_KEPT = "not-kept"
SCRATCH = "scratch-"
LAST_LINES = 20
# A call of a moment, and the seconds that it may have.
SMALL = ("make", "--seed=1", "--size=2")
LONGEST = 60.0
# The program's line, with status 4, where its output takes no more.
CANNOT_WRITE = b"gicstudy: cannot write\n"
# The statuses of the program.
ANSWERS = (0, *range(2, 14))
SANITIZER = re.compile(rb"^==[0-9]+==\s*(?:ERROR: )?(.*Sanitizer.*)$", re.M)


class Gone(Exception):
    """The kept program was removed before it could be run."""


def shelf_of(top: Path) -> Path:
    """The folder in which a program compiled without proof is kept."""
    return out_of(top, PROGRAM) / "unproved"


@dataclass(frozen=True)
class Toolchain:
    """The toolchain by what its `rt version` says, and the file `rt` that said so."""

    path: str
    inode: int
    size: int
    changed: int
    version: str


def kept_toolchain(shelf: Path) -> Toolchain | None:
    try:
        return Toolchain(**json.loads((shelf / TOOLCHAIN).read_text(encoding="utf-8")))
    except (OSError, ValueError, TypeError):
        return None


def find_toolchain(shelf: Path, rt: str | None) -> Toolchain | None:
    """The toolchain on the path; where there is none, the one that was there last. It is asked only where `rt` is another
    file than then, since that takes a third of a second."""
    last = kept_toolchain(shelf)
    if rt is None:
        return last
    path = os.path.realpath(rt)
    identity = identity_of(Path(path))
    if last is not None and (last.path, last.inode, last.size, last.changed) == (path, *asdict(identity).values()):
        return last
    said = subprocess.run([rt, "version"], stdin=subprocess.DEVNULL, capture_output=True)
    return Toolchain(path, **asdict(identity), version=said.stdout.decode(errors="replace").strip())


def key_of(sources: Sources, toolchain: Toolchain) -> str:
    """The sum of what a compiled program depends on."""
    files = [(it.line, [(path, sum_of(text)) for path, text in sources.of(it.name, PARTS).items()]) for it in sources.crates]
    return sum_of(repr((toolchain.version, files)).encode())


def kept_program(folder: Path) -> Path | None:
    """The program in a folder of the shelf, where it is the file that was put there, or one with its contents."""
    program, record = folder / PROGRAM, folder / RECORD
    try:
        kept = record.read_text(encoding="utf-8")
        if kept != record_text(program, kept.split()[0]):
            content, _ = read_program(program)
            if sum_of(content) != kept.split()[0]:
                return None
            with suppress(OSError):
                put(record, record_text(program, sum_of(content)).encode())
        return program if os.access(program, os.X_OK) else None
    except (OSError, ValueError, IndexError):
        return None


def record_text(program: Path, sum: str) -> str:
    it = identity_of(program)
    return f"{sum} {it.inode} {it.size} {it.changed}\n"


@contextmanager
def scratch_in(place: Path | None) -> Iterator[Path]:
    """A folder that is there for a while, in this place or among what is temporary."""
    with held_back():
        folder = Path(tempfile.mkdtemp(prefix=SCRATCH if place else "gicstudy-", dir=place))
        try:
            with let_in():
                yield folder
        finally:
            shutil.rmtree(folder, ignore_errors=True)


def can_write(shelf: Path) -> bool:
    try:
        shelf.mkdir(parents=True, exist_ok=True)
        with scratch_in(shelf):
            return True
    except OSError:
        return False


@dataclass(frozen=True)
class Compiler:
    """Compiles the program of these sources by this toolchain without proof."""

    top: Path
    sources: Sources
    rt: str
    teller: Teller

    def compile(self, scratch: Path) -> tuple[Path | None, bool]:
        """The compiled program in the scratch, where `rt try` lets it be caught; and whether another try may catch it."""
        trial = run_trial(self.rt, self.sources, scratch, list(TRIAL), [], catches=True)
        if trial.status is None:
            raise self.refusal(trial.told, copy_in(scratch))
        if trial.program is None:
            return None, trial.has_place
        program = scratch / "kept" / PROGRAM
        program.parent.mkdir()
        program.write_bytes(trial.program)
        program.chmod(0o755)
        return program if runs(program) else None, True

    def refusal(self, told: list[str], copy: Path) -> Fault:
        for line in told[-LAST_LINES:]:
            self.teller.say(f"| {line.replace(str(copy), str(self.top))}")
        return Fault("no answer: rt try can't compile and run the program; its last lines are above")

    def answer(self, words: list[str]) -> int:
        """Answers by a run of `rt try` itself, on copies of the files."""
        with scratch_in(None) as scratch:
            with_copy, data = with_copies(words, scratch)
            trial = run_trial(self.rt, self.sources, scratch, with_copy, data)
        if trial.status is None:
            last = trial.told[-2:-1] or trial.told
            why = f" ({last[0]})" if last else ""
            raise Fault(f"no answer: rt try can't handle a long run or a report above 1 MiB{why}; {PROVE}")
        try:
            write(1, trial.out)
        except BrokenPipeError:
            raise Stopped(signal.SIGPIPE) from None
        except OSError:
            pass_on(CANNOT_WRITE)
            return 4
        return answered(trial.status, trial.err)


def runs(program: Path) -> bool:
    """Whether a program that was taken out of its folder runs by itself."""
    streams = {"stdin": subprocess.DEVNULL, "stdout": subprocess.DEVNULL, "stderr": subprocess.DEVNULL}
    try:
        with running([program, *SMALL], env=environment(), **streams) as ran:
            return ran.wait(LONGEST) == 0
    except (OSError, subprocess.TimeoutExpired):
        return False


def environment() -> dict[str, str]:
    """The environment of a run, without what changes how checked code tells its faults."""
    return {name: value for name, value in os.environ.items() if not name.endswith("SAN_OPTIONS")}


def write(stream: int, content: bytes) -> None:
    while content:
        content = content[os.write(stream, content) :]


def pass_on(told: bytes) -> None:
    """Writes to the error stream; what nobody reads ends nothing."""
    with suppress(OSError):
        write(2, told)


def run(program: Path, words: list[str]) -> int:
    """Runs the program compiled without proof with the words, the streams and in the folder of the caller."""
    try:
        with running([program, *words], stderr=subprocess.PIPE, env=environment(), close_fds=False) as ran:
            told = ran.communicate()[1]
    except FileNotFoundError:
        raise Gone from None
    return answered(ran.returncode, told)


def answered(status: int, told: bytes) -> int:
    """The status of an answer, whose line is passed on; a program that a fault has stopped has none."""
    if status in ANSWERS and not SANITIZER.search(told):
        pass_on(told)
        return status
    if -status in (*STOPS, signal.SIGPIPE, signal.SIGXFSZ):
        pass_on(told)
        raise Stopped(-status)
    found = SANITIZER.search(told)
    why = found[1].decode(errors="replace") if found else f"status {status}" if status > 0 else f"signal {-status}"
    raise Fault(f"no answer: a fault stopped the program compiled without proof ({why}), and the output may be cut short; {PROVE}")


def publish(program: Path, folder: Path) -> Path:
    """Puts a compiled program on the shelf at once with its record, in the place of all others."""
    record = record_text(program, sum_of(program.read_bytes()))
    (program.parent / RECORD).write_text(record, encoding="utf-8")
    for it in folder.parent.iterdir():
        if it.is_dir() and program.parent.parent != it:
            shutil.rmtree(it, ignore_errors=True)
    os.rename(program.parent, folder)
    return folder / PROGRAM


def answer(top: Path, teller: Teller, sources: Sources, words: list[str], why: str | None = None) -> int:
    """Answers the words without proof, and says so in a line, which begins with what has changed. A call of other sources
    may take the program from the shelf before it runs; it is looked for, and compiled, once more then."""
    for _ in range(2):
        with suppress(Gone):
            return answer_once(top, teller, sources, words, why)
    raise Fault(f"no answer: calls with other sources keep removing the program compiled without proof; {PROVE}")


def answer_once(top: Path, teller: Teller, sources: Sources, words: list[str], why: str | None) -> int:
    shelf, rt = shelf_of(top), shutil.which("rt")
    head = f"{why}; " if why else ""
    lacking = no_toolchain(top, why or "there is no proved program")
    toolchain = find_toolchain(shelf, rt)
    if toolchain is None:
        raise lacking
    folder = shelf / key_of(sources, toolchain)
    program = kept_program(folder)
    if program is not None:
        teller.say(head + UNPROVED)
        return run(program, words)
    if rt is None:
        raise lacking
    teller.say(head + COMPILES + UNPROVED)
    compiler = Compiler(top, sources, rt, teller)
    if can_write(shelf):
        return answer_by(compiler, compile_kept(compiler, shelf, folder, toolchain), words)
    with scratch_in(None) as scratch:
        return answer_by(compiler, compiler.compile(scratch)[0], words)


def answer_by(compiler: Compiler, program: Path | None, words: list[str]) -> int:
    """Answers by a compiled program, or by a run of `rt try` where none can be kept."""
    return compiler.answer(words) if program is None else run(program, words)


def compile_kept(compiler: Compiler, shelf: Path, folder: Path, toolchain: Toolchain) -> Path | None:
    """The program on the shelf, which another call may have put there meanwhile; None where none can be kept."""
    with locked(shelf, compiler.teller, "waiting for another call to compile the program"):
        program = kept_program(folder)
        if program is not None:
            return program
        if (folder / NOT_KEPT).is_file():
            return None
        for it in shelf.glob(f"{SCRATCH}*"):
            shutil.rmtree(it, ignore_errors=True)
        put(shelf / TOOLCHAIN, json.dumps(asdict(toolchain)).encode())
        with scratch_in(shelf) as scratch:
            program, may_be_caught = compiler.compile(scratch)
            if program is not None:
                return publish(program, folder)
        if not may_be_caught:
            folder.mkdir(exist_ok=True)
            (folder / NOT_KEPT).write_bytes(b"")
        return None
