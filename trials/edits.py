"""Tries the wrong edits of the crates over a scratch clone, several crates side by side; edits.sh tells how it is called.

A crate is proved before its edits are tried, since of one that isn't any edit is refused."""

import argparse
import os
import shutil
import subprocess
import sys
import tempfile
import time
from collections.abc import Iterator, Sequence
from contextlib import AbstractContextManager, contextmanager, nullcontext
from dataclasses import dataclass, field
from datetime import datetime, timezone
from pathlib import Path

from paths import HERE, TOP  # which finds the modules below

import machine
from crates import Crate, Fault, below, read_crates, read_text
from edit_kit import FAILED, PASSED
from edit_state import Key, Refusal, key_of, oldest, read_state, record
from kit import UNKNOWN_TOOLCHAIN
from locks import locked
from plan import chains, read_table, weigh
from runs import Ended, Run
from sources import read_sources
from stops import Stopped, end_by, stop_on_signals
from teller import Teller

# The folders of a crate with its wrong edits: what the gate leaves out, and what it tries.
ON_DEMAND, GATE = "wrong", "must-fail"
# What the build of the program leaves beside a library: the sum of the sources that it was built of.
MARK = "out/rlib/sources.sum"
WORKER = HERE / "edit_kit.py"
LOOK = 0.1
# An edit weighs about as much as this number of seconds of a proof.
EDIT_SECONDS = 30.0


@dataclass(frozen=True)
class Task:
    """A crate that is to be proved, or its edits that are to be tried once it is."""

    verb: str
    name: str


@dataclass
class Counts:
    passed: int = 0
    failed: int = 0


def edits_of(top: Path, name: str, folders: Sequence[str]) -> list[Path]:
    """The wrong edits of a crate in these folders, by their paths."""
    return sorted(it for folder in folders for it in (top / "crates" / name / folder).glob("*.edit"))


def say(text: str) -> None:
    print(text, flush=True)


@dataclass
class Trial:
    """The edits of some crates, over a clone of the repository."""

    clone: Path
    rt: str
    crates: dict[str, Crate]
    edits: dict[str, list[Path]]
    proved: set[str]
    lanes: int
    # The checkout that keeps what became of each edit.
    top: Path
    counts: Counts = field(default_factory=Counts)

    def __post_init__(self) -> None:
        needed = {it.name for name in self.edits for it in [*below(self.crates, name), self.crates[name]]}
        self.left = [Task("prove", name) for name in self.crates if name in needed and name not in self.proved]
        self.left += [Task("try", name) for name in self.edits]
        self.running: list[tuple[Task, Run]] = []
        self.lost: set[str] = set()
        lines = {name: sum(file.read_bytes().count(b"\n") for file in self.files(name)) for name in self.crates}
        weights = weigh(lines, read_table(read_text(self.clone / "build/seconds.txt")))
        chained = chains(list(self.crates.values()), weights)
        self.weights = {task: chained[task.name] if task.verb == "prove" else self.weight(task.name) for task in self.left}

    def weight(self, name: str) -> float:
        return EDIT_SECONDS * len(self.edits[name])

    def files(self, name: str) -> list[Path]:
        return [it for it in (self.clone / "crates" / name / "src").rglob("*") if it.is_file()]

    def run(self) -> None:
        """Proves and tries all that there is."""
        try:
            while self.left or self.running:
                self.begin()
                time.sleep(LOOK)
                for task, run in list(self.running):
                    ended = run.poll()
                    if ended is not None:
                        self.running.remove((task, run))
                        self.end(task, run, ended)
        finally:
            for task, run in self.running:
                run.stop()
                self.record(task, run)

    def can_begin(self, task: Task) -> bool:
        own = [task.name] if task.verb == "try" else []
        return self.proved.issuperset([*own, *(it.name for it in below(self.crates, task.name))])

    def begin(self) -> None:
        """Begins as much as there is room for; proofs come first, those with the most above them before others."""
        self.give_up()
        ready = sorted(filter(self.can_begin, self.left), key=lambda it: (it.verb == "try", -self.weights[it]))
        for task in ready[: max(self.lanes - len(self.running), 0)]:
            self.left.remove(task)
            words = [sys.executable, "-B", str(WORKER), self.rt, task.verb, task.name]
            words += map(str, self.edits[task.name]) if task.verb == "try" else []
            self.running.append((task, Run(words, self.clone, self.log(task))))

    def log(self, task: Task) -> Path:
        return self.clone / f"{task.verb}-{task.name}.log"

    def give_up(self) -> None:
        """Counts the edits that can't be tried, since their crate or one below it isn't proved."""
        for task in list(self.left):
            missing = sorted(self.lost.intersection([task.name, *(it.name for it in below(self.crates, task.name))]))
            if missing:
                self.left.remove(task)
                self.lost.add(task.name)
                if task.verb == "try":
                    self.counts.failed += len(self.edits[task.name])
                    say(f"{task.name}: its {len(self.edits[task.name])} edits aren't tried, since {missing[0]} isn't proved")

    def told(self, run: Run) -> list[str]:
        """The lines in which a run tells what became of an edit."""
        lines = run.log.read_text(encoding="utf-8", errors="replace").splitlines()
        return [it for it in lines if it.startswith((PASSED, FAILED))]

    def record(self, task: Task, run: Run) -> None:
        """Keeps what became of the edits of a crate, as far as they were tried."""
        if task.verb != "try":
            return
        refused: list[Key] = []
        others: list[Key] = []
        for edit, line in zip(self.edits[task.name], self.told(run)):
            (refused if line.startswith(PASSED) else others).append(key_of(edit))
        there = [key_of(it) for name in self.crates for it in edits_of(self.clone, name, [ON_DEMAND, GATE])]
        record(self.top, there, refused, others, Refusal(commit_of(self.clone), today()))

    def end(self, task: Task, run: Run, ended: Ended) -> None:
        if ended.status == UNKNOWN_TOOLCHAIN:
            raise Fault(run.last_lines()[-1])
        if task.verb == "prove":
            self.end_proof(task, run, ended)
        else:
            self.end_edits(task, run, ended)

    def end_proof(self, task: Task, run: Run, ended: Ended) -> None:
        if ended.status == 0:
            self.proved.add(task.name)
            say(f"{task.name} is proved, {ended.seconds:.0f} s of processor time")
            return
        self.lost.add(task.name)
        say("\n".join([f"{task.name} is not proved; the last lines of what was said:", *run.last_lines()]))

    def end_edits(self, task: Task, run: Run, ended: Ended) -> None:
        told = self.told(run)
        self.record(task, run)
        passed = sum(it.startswith(PASSED) for it in told)
        failed = len(self.edits[task.name]) - passed
        self.counts.passed += passed
        self.counts.failed += failed
        for line in told:
            say(line.removeprefix(PASSED))
        if len(told) != len(self.edits[task.name]):
            say("\n".join([f"{task.name}: not all edits were tried; the last lines of what was said:", *run.last_lines()]))
        say(f"{task.name}: {passed} edits refused, {failed} not, {ended.seconds:.0f} s of processor time")


def take_libraries(clone: Path, built: Path, rt: str) -> set[str]:
    """Has the clone use the libraries that stand in a checkout and were built of the clone's sources; their crates."""
    said = subprocess.run([rt, "version"], stdin=subprocess.DEVNULL, capture_output=True, text=True)
    sources = read_sources(clone)
    sums = sources.sums(said.stdout.strip())
    found: set[str] = set()
    for crate in sources.crates:
        mark = built / "crates" / crate.name / MARK
        is_right = mark.is_file() and mark.read_text(encoding="utf-8", errors="replace") == sums[crate.name]
        # (statements fit only the libraries that they were built over)
        if is_right and found.issuperset(crate.names):
            (clone / "crates" / crate.name / "out").symlink_to((built / "crates" / crate.name / "out").resolve())
            found.add(crate.name)
    return found


def make_clone(top: Path, clone: Path) -> None:
    """Clones what is committed."""
    ran = subprocess.run(["git", "clone", "--quiet", str(top), str(clone)], stdin=subprocess.DEVNULL, capture_output=True, text=True)
    if ran.returncode != 0:
        raise Fault(f"{top} can't be cloned: {' '.join(ran.stderr.split())}")


def commit_of(clone: Path) -> str:
    """The commit that a clone has, in short."""
    words = ["git", "-C", str(clone), "rev-parse", "--short=8", "HEAD"]
    ran = subprocess.run(words, stdin=subprocess.DEVNULL, capture_output=True, text=True)
    if ran.returncode != 0:
        raise Fault(f"the commit of {clone} can't be read: {' '.join(ran.stderr.split())}")
    return ran.stdout.strip()


def today() -> str:
    return datetime.now(timezone.utc).date().isoformat()


def lanes_for(jobs: int | None) -> int:
    """How many crates may be at work side by side."""
    most = min(machine.processors(), machine.free_memory() // machine.PROOF_MEMORY)
    return max(most, 1) if jobs is None else jobs


@contextmanager
def scratch() -> Iterator[Path]:
    """A folder that is gone behind the trial, however that ends, with what the toolchain keeps for a while. The first signal
    ends the trial, and no further one its cleaning up."""
    stop_on_signals()
    folder, before = Path(tempfile.mkdtemp(prefix="edits-")), os.environ.get("TMPDIR")
    os.environ["TMPDIR"] = str(folder)
    try:
        yield folder
    finally:
        shutil.rmtree(folder, ignore_errors=True)
        if before is None:
            del os.environ["TMPDIR"]
        else:
            os.environ["TMPDIR"] = before


class Waiting(Teller):
    """Says that others are at work in a folder."""

    def say(self, text: str) -> None:
        self.said = self.clock()
        print(f"edits.sh: {text}", file=sys.stderr, flush=True)


def held(top: Path | None) -> AbstractContextManager[None]:
    """Keeps builds from a checkout while its libraries are used."""
    if top is None:
        return nullcontext()
    return locked(top / "crates", Waiting(), f"others are at work in {top}; this waits for them")


def chosen(clone: Path, crates: dict[str, Crate], names: list[str], folders: list[str]) -> dict[str, list[Path]]:
    """The edits of the named crates that have some, or of all."""
    for name in names:
        if name not in crates:
            raise Fault(f"crates.txt doesn't list {name}")
        if not edits_of(clone, name, folders):
            raise Fault(f"{name} has no edit in {' or '.join(folders)}")
    found = {name: edits_of(clone, name, folders) for name in crates if not names or name in names}
    return {name: edits for name, edits in found.items() if edits}


def longest_untried(top: Path, edits: dict[str, list[Path]], count: int) -> dict[str, list[Path]]:
    """Of these edits as many as are asked for, those that were tried longest ago, and before them those that never were."""
    taken = {*oldest([it for some in edits.values() for it in some], read_state(top), count)}
    found = {name: [it for it in some if it in taken] for name, some in edits.items()}
    return {name: some for name, some in found.items() if some}


def read_words(words: list[str]) -> argparse.Namespace:
    reader = argparse.ArgumentParser(prog="edits.sh", description="Tries the wrong edits that the gate leaves out.")
    reader.add_argument("--all", action="store_true", help="those of the gate too")
    reader.add_argument("--oldest", type=int, metavar="N", help="no more than N, those that were tried longest ago")
    reader.add_argument("--jobs", type=int, metavar="N", help="how many crates are at work side by side")
    reader.add_argument("--top", type=Path, metavar="FOLDER", help="a checkout whose proved libraries are taken")
    reader.add_argument("names", nargs="*", metavar="NAME", help="the crates, or all")
    found = reader.parse_args(words)
    if found.jobs is not None and found.jobs < 1:
        reader.error("--jobs takes a number from 1 on")
    if found.oldest is not None and found.oldest < 1:
        reader.error("--oldest takes a number from 1 on")
    if found.top is not None and not (found.top / "crates.txt").is_file():
        reader.error(f"{found.top} has no crates.txt")
    return found


def trial_of(said: argparse.Namespace, top: Path, clone: Path) -> Trial:
    rt = shutil.which("rt")
    if rt is None:
        raise Fault("rt isn't on the path: the toolchain is needed")
    make_clone(top, clone)
    crates = read_crates(read_text(clone / "crates.txt"))
    edits = chosen(clone, crates, said.names, [ON_DEMAND, GATE] if said.all else [ON_DEMAND])
    if said.oldest is not None:
        edits = longest_untried(top, edits, said.oldest)
    proved = take_libraries(clone, said.top, rt) if said.top else set()
    return Trial(clone, rt, crates, edits, proved, lanes_for(said.jobs), top)


def main(words: list[str], top: Path = TOP) -> int:
    said = read_words(words)
    try:
        with scratch() as folder, held(said.top):
            trial = trial_of(said, top, folder / "clone")
            count = sum(map(len, trial.edits.values()))
            say(f"{count} edits in {len(trial.edits)} crates, {trial.lanes} at a time; {len(trial.proved)} libraries are there")
            trial.run()
    except Stopped as stopped:
        end_by(stopped.number)
    except Fault as fault:
        print(f"edits.sh: {fault}", file=sys.stderr)
        say("0 passed, 1 failed")
        return 2
    except OSError as error:
        print(f"edits.sh: {error.filename or 'the trial'}: {error.strerror or error}", file=sys.stderr)
        say("0 passed, 1 failed")
        return 2
    say(f"{trial.counts.passed} passed, {trial.counts.failed} failed")
    return 0 if trial.counts.failed == 0 else 1


if __name__ == "__main__":
    os.environ.pop("GIT_DIR", None)
    sys.exit(main(sys.argv[1:]))
