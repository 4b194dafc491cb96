"""Proves the crates, each as soon as those below it are built, and links the program."""

import os
import subprocess
import sys
import time
from dataclasses import dataclass, field
from pathlib import Path

import machine
from crates import PROGRAM, Crate, Fault, below, read_text
from kit import UNKNOWN_TOOLCHAIN
from plan import Start, chains, read_table, starts, weigh
from runs import Ended, Run, was_interrupted, was_killed
from snapshot import Snapshot, is_library_there, is_proved, out_of, put_mark, remove_mark
from sources import Sources
from teller import Teller

LOG = "build.log"
TIMES = "build.times"
PROVER = Path(__file__).with_name("prove_crate.py")
# A run of the program that ends with status 0: what is linked takes the program's place only behind it.
TRIED = ("volts", "--case=data/p.toml", "--north=1000")
# The most seconds that it may take.
TRIED_FOR = 60
# Each job of a proof loads all libraries below the crate: above this number of them, one job is as fast as several.
MANY_LIBRARIES = 40
# How long the builder sleeps before it looks again at what runs.
LOOK = 0.1


@dataclass
class Work:
    """A crate at work, and its run."""

    start: Start
    crate: Crate
    run: Run


@dataclass
class Builder:
    """What is to be built where, and how far it is."""

    top: Path
    rt: str
    toolchain: str
    sources: Sources
    teller: Teller
    table: dict[str, float] = field(default_factory=dict)
    processors: int = 1
    proofs: float = 1.0

    def __post_init__(self) -> None:
        self.crates = {it.name: it for it in self.sources.crates}
        self.sums = self.sources.sums(self.toolchain)
        weights = weigh({name: self.sources.lines(name) for name in self.crates}, self.table)
        self.behind = chains(self.sources.crates, weights)
        self.single = {name for name in self.crates if len(below(self.crates, name)) > MANY_LIBRARIES}
        self.proved: set[str] = set()
        for name, crate in self.crates.items():
            # (statements fit only the libraries that they were built over)
            if name != PROGRAM and self.proved.issuperset(crate.names) and is_proved(self.top, name, self.sums[name]):
                self.proved.add(name)
        self.before = len(self.proved)
        self.work: list[Work] = []
        self.snapshot = Snapshot(self.top)
        self.failed: Work | None = None
        # Crates whose run was killed: each is tried once more, with nothing beside it.
        self.killed: list[str] = []
        self.ended: dict[str, tuple[Start, Ended]] = {}

    def left(self) -> int:
        """How many crates aren't proved yet."""
        return len(self.crates) - len(self.proved)

    def build(self) -> None:
        """Proves all that isn't proved, and links the program."""
        try:
            self.snapshot.fill(self.sources)
            self.go_on()
        finally:
            for it in self.work:
                it.run.stop()
            self.snapshot.remove()
            for made in (f"{PROGRAM}.o", f"{PROGRAM}.new"):
                (out_of(self.top, PROGRAM) / made).unlink(missing_ok=True)
            self.write_times()

    def go_on(self) -> None:
        self.teller.progress(len(self.proved), len(self.crates), [])
        while len(self.proved) < len(self.crates):
            self.begin()
            if not self.work:
                break
            time.sleep(LOOK)
            for it in list(self.work):
                ended = it.run.poll()
                if ended is not None:
                    self.work.remove(it)
                    self.end(it, ended)
            if self.teller.is_due():
                self.teller.progress(len(self.proved), len(self.crates), self.at_work())
        if self.failed is not None:
            raise Fault(f"the build failed; its log is {self.failed.run.log}")

    def at_work(self) -> list[str]:
        return [it.crate.name for it in self.work]

    def ready(self) -> list[str]:
        """The crates that can be proved now, those with the longest chain above them first."""
        at_work = {*self.at_work(), *self.killed}
        found = [
            it.name
            for it in self.crates.values()
            if it.name not in self.proved and it.name not in at_work and self.proved.issuperset(it.names)
        ]
        return sorted(found, key=lambda it: -self.behind[it])

    def begin(self) -> None:
        if self.failed is not None:
            return
        at_work = [it.start for it in self.work]
        begun = starts(self.ready(), at_work, self.processors, self.proofs, self.behind, self.single)
        if not begun and not self.work and self.killed:
            begun = [Start(self.killed[0], 1)]
        for start in begun:
            self.start(start)

    def start(self, start: Start) -> None:
        crate = self.crates[start.name]
        remove_mark(self.top, crate.name)
        words = [sys.executable, "-B", str(PROVER), self.rt, crate.name, str(start.jobs)]
        self.work.append(Work(start, crate, Run(words, self.snapshot.at, out_of(self.top, crate.name) / LOG)))
        if crate.name == PROGRAM:
            self.teller.say(f"proving and linking the program itself, {self.teller.minutes()}")

    def end(self, work: Work, ended: Ended) -> None:
        name = work.crate.name
        why = self.fault_of(work, ended)
        if why is None:
            work.run.log.unlink(missing_ok=True)
            self.proved.add(name)
            self.killed = [it for it in self.killed if it != name]
            self.ended[name] = (work.start, ended)
            self.teller.progress(len(self.proved), len(self.crates), self.at_work(), f"{name} is proved; ")
            return
        if was_interrupted(ended.status):
            raise KeyboardInterrupt
        if was_killed(ended.status) and name not in self.killed:
            self.killed.append(name)
            self.teller.say(f"the proof of {name} was killed, probably for lack of memory; it is repeated later, alone")
            return
        self.failed = self.failed or work
        self.teller.say(f"{name} {why}; the last lines of {work.run.log}:")
        for line in work.run.last_lines():
            self.teller.say(f"| {line}")
        if self.work:
            self.teller.say(f"proofs at work are finished first ({', '.join(self.at_work())}); Ctrl-C stops them")

    def fault_of(self, work: Work, ended: Ended) -> str | None:
        """Why the crate doesn't count as proved, or None where it does: its library is there, or its program runs."""
        if ended.status == UNKNOWN_TOOLCHAIN:
            return f"can't be built with {self.toolchain}"
        if ended.status != 0:
            return "was not proved"
        if work.crate.name == PROGRAM:
            return self.fault_of_program(work.run.log)
        if not is_library_there(self.top, work.crate.name):
            return "was reported as proved, but its library is missing"
        put_mark(self.top, work.crate.name, self.sums[work.crate.name])
        return None

    def fault_of_program(self, log: Path) -> str | None:
        """Tries what was linked, and puts it in the place of the program. Why it can't be, if so."""
        out = out_of(self.top, PROGRAM)
        linked = out / f"{PROGRAM}.new"
        with open(log, "ab") as told:
            try:
                ran = subprocess.run(
                    [linked, *TRIED],
                    cwd=self.snapshot.folder(self.crates[PROGRAM]),
                    stdin=subprocess.DEVNULL,
                    stdout=subprocess.DEVNULL,
                    stderr=told,
                    timeout=TRIED_FOR,
                )
            except (OSError, subprocess.TimeoutExpired) as error:
                told.write(f"{error}\n".encode(errors="backslashreplace"))
                return "was linked, but doesn't run"
        if ran.returncode != 0:
            return f"was linked, but its trial run ended with status {ran.returncode}"
        os.replace(linked, out / PROGRAM)
        return None

    def write_times(self) -> None:
        """Keeps when the proof of each crate began and ended, its jobs and its processor seconds."""
        if not self.ended:
            return
        first = min(ended.began for _, ended in self.ended.values())
        rows = [f"# crate began ended jobs processor-seconds; {self.before} of {len(self.crates)} were proved before\n"]
        for name, (start, it) in sorted(self.ended.items(), key=lambda row: row[1][1].began):
            rows.append(f"{name} {it.began - first:.1f} {it.ended - first:.1f} {start.jobs} {it.seconds:.1f}\n")
        try:
            (out_of(self.top, PROGRAM) / TIMES).write_text("".join(rows), encoding="utf-8")
        except OSError:
            pass


def builder_for(top: Path, rt: str, toolchain: str, sources: Sources, teller: Teller) -> Builder:
    """A builder with what the machine has."""
    table = Path(__file__).with_name("seconds.txt")
    return Builder(
        top,
        rt,
        toolchain,
        sources,
        teller,
        read_table(read_text(table)) if table.is_file() else {},
        machine.processors(),
        max(machine.free_memory() / machine.PROOF_MEMORY, 1.0),
    )
