#!/usr/bin/env python3
"""Attacks the desk at its edges: files that change while it runs, runs at once, full disks, signals at any moment, and folders
that aren't its own.

    python3 trials/desk_attacks.py PROGRAM [--minutes M] [--seed S] [--jobs N] [--runs N] [--only KIND] [--desk DESK]

Each kind of attack is made N times (40). Before it the desk has made, in peace, what it makes of the sample network and of
another one; behind it there must be one of these as a whole, or what stood there before, with a status that fits and no
traceback, and nothing else: no hidden file, no process, nothing in the folder for what is passing.
"""

from __future__ import annotations

import contextlib
import dataclasses
import hashlib
import os
import pathlib
import random
import re
import resource
import shlex
import shutil
import signal
import subprocess
import sys
import time
from collections.abc import Callable, Iterator, Sequence

import shared
from paths import TOP

PAIR = TOP / "desk" / "tests" / "pair"
STOPS = (signal.SIGINT, signal.SIGTERM, signal.SIGHUP)
MARK = "DESK_ATTACK"  # the variable by which processes of an attack are found
SLOW = 120.0  # seconds: no command takes so long
SOON = 2.0  # seconds, in which a process that was killed is gone
LARGEST = 60_000  # bytes that a disk has room for, where it is full sooner or later
COMMANDS = ("csv", "psse", "outages", "study")
# Runs a desk, and kills it before the call of a number, from 1; the count of the calls goes into a file.
KILLER = """\
import atexit, os, pathlib, runpy, signal, sys

number, counted, count = int(sys.argv[1]), pathlib.Path(sys.argv[2]), 0
atexit.register(lambda: counted.write_text(str(count)))


def dying(real):
    def call(*given, **named):
        global count
        count += 1
        if count == number:
            os.kill(os.getpid(), signal.SIGKILL)
        return real(*given, **named)

    return call


for name in ("rename", "replace", "link", "unlink", "rmdir", "mkdir"):
    setattr(os, name, dying(getattr(os, name)))
sys.argv = sys.argv[3:]
runpy.run_path(sys.argv[0], run_name="__main__")
"""
DATE = re.compile(rb"<td>[0-9]{2} [A-Z][a-z]+ [0-9]{4}, [0-9:]{5} [+-][0-9]{4}</td>")
Tree = dict[str, str]  # the sums of files by their names; folders have the sum of nothing


@dataclasses.dataclass(frozen=True)
class Ran:
    status: int
    told: str


@dataclasses.dataclass(frozen=True)
class Desk:
    """The desk, the program, and a folder with two cases and what is made of each in peace."""

    desk: pathlib.Path
    program: str
    top: pathlib.Path

    @property
    def passing(self) -> pathlib.Path:
        return self.top / "passing"

    @property
    def place(self) -> pathlib.Path:
        return self.top / "place"

    def case(self, number: int) -> pathlib.Path:
        return self.top / f"case{number}"

    def words(self, command: str, number: int, out: pathlib.Path) -> list[str]:
        """The words that make an output of one of the two cases."""
        words = {
            "csv": ["csv", str(self.top / f"report{number}")],
            "psse": ["psse", str(PAIR / "region.raw"), str(PAIR / "region.gic"), f"--lines={PAIR / 'lines.csv'}"]
            + [f"--zones={self.top / f'zones{number}'}"],
            "outages": ["outages", str(self.case(number)), f"--program={self.program}"],
            "study": ["study", str(self.case(number)), f"--program={self.program}"],
        }[command]
        return [str(self.desk), *words, f"--out={out}"]

    def start(self, words: Sequence[str], limit: int | None = None) -> subprocess.Popen[str]:
        """Starts a command of which no file may become larger than a limit."""

        def begin() -> None:
            for number in STOPS:
                signal.signal(number, signal.SIG_DFL)
            if limit is not None:
                signal.signal(signal.SIGXFSZ, signal.SIG_IGN)
                resource.setrlimit(resource.RLIMIT_FSIZE, (limit, limit))

        return subprocess.Popen(
            words,
            env=os.environ | {"TMPDIR": str(self.passing), MARK: str(self.top)},
            cwd=self.top,
            stdin=subprocess.DEVNULL,
            stdout=subprocess.DEVNULL,
            stderr=subprocess.PIPE,
            text=True,
            preexec_fn=begin,
            start_new_session=True,
        )

    def run(self, words: Sequence[str], limit: int | None = None) -> Ran:
        return ended(self.start(words, limit))

    def hidden(self) -> list[str]:
        """What an attack has left: hidden files beside an output, passing ones, and processes."""
        left = [str(path) for path in self.place.iterdir() if path.name.startswith(".")]
        left += [str(path) for path in self.passing.iterdir()]
        end = time.monotonic() + SOON
        while (processes := marked(str(self.top))) and time.monotonic() < end:
            time.sleep(0.02)
        return left + [f"the process {process}" for process in processes]

    def clear(self) -> None:
        for folder in (self.place, self.passing):
            shutil.rmtree(folder, ignore_errors=True)
            folder.mkdir()


def ended(process: subprocess.Popen[str]) -> Ran:
    try:
        _, told = process.communicate(timeout=SLOW)
    except subprocess.TimeoutExpired:
        process.kill()
        _, told = process.communicate()
        return Ran(-1000, f"no end in time; {told}")
    return Ran(process.returncode, told)


def marked(mark: str) -> list[int]:
    """The processes of an attack."""
    found = []
    for path in pathlib.Path("/proc").glob("[0-9]*/environ"):
        with contextlib.suppress(OSError):
            if f"{MARK}={mark}\0".encode() in path.read_bytes():
                found.append(int(path.parent.name))
    return found


def sum_of(data: bytes) -> str:
    return hashlib.sha256(data).hexdigest()


def tree_of(place: pathlib.Path) -> Tree:
    """What lies in a folder, without what is different in each run: the page tells its time, and files of sums have its
    sum, which `unsummed` looks at."""
    found = {}
    for path in sorted(place.rglob("*")):
        name = str(path.relative_to(place))
        if path.name in ("checksums.txt", ".gicdesk"):
            found[name] = "there"
        elif path.is_file() and not path.is_symlink():
            data = path.read_bytes()
            found[name] = sum_of(DATE.sub(b"", data, count=1) if path.name == "study.html" else data)
        else:
            found[name] = "a link" if path.is_symlink() else "a folder"
    return found


def unsummed(place: pathlib.Path) -> list[str]:
    """The files of the studies in a folder that don't have the sums that a study has of them."""
    wrong = []
    for sums in place.rglob("checksums.txt"):
        study = sums.parent
        lines = [line.partition("  ") for line in sums.read_text().splitlines()]
        told = {study / name: digest for digest, _, name in lines}
        there = {path for path in study.rglob("*") if path.is_file()} - {sums, study / ".gicdesk"}
        wrong += [str(path) for path in there | set(told) if path not in there or told.get(path) != sum_of(path.read_bytes())]
        marker = study / ".gicdesk"
        if not marker.is_file() or sum_of(sums.read_bytes()) not in marker.read_text():
            wrong.append(str(marker))
    return sorted(wrong)


def furnish(desk: Desk) -> None:
    """Two cases that differ in a number, and what else the commands read."""
    desk.clear()
    text = (TOP / "examples" / "valley.toml").read_text()
    other = re.sub(r"resistance = ([0-9]+)", lambda found: f"resistance = {int(found[1]) + 100000}", text)
    for number, case in ((1, text), (2, other)):
        desk.case(number).write_text(case)
        zones = (PAIR / "zones.csv").read_text().splitlines()
        rows = [row.rpartition(",")[0] + f",0.{60 + number}" for row in zones[1:]]
        (desk.top / f"zones{number}").write_text("\n".join([zones[0], *rows]) + "\n")
        done = subprocess.run([desk.program, "screen", f"--case={desk.case(number)}"], capture_output=True, check=True)
        (desk.top / f"report{number}").write_bytes(done.stdout)


def expected(desk: Desk, command: str, number: int, case: pathlib.Path | None = None) -> Tree:
    """What a command makes of one of the cases in peace, under the name of another file where one is given."""
    desk.clear()
    words = desk.words(command, number, desk.place / "out")
    if case is not None:
        shutil.copy(desk.case(number), case)
        words[2] = str(case)
    ran = desk.run(words)
    if ran.status != 0:
        raise SystemExit(f"{command} in peace: status {ran.status}, {ran.told}")
    return tree_of(desk.place)


@dataclasses.dataclass
class Trial:
    desk: Desk
    draw: random.Random
    clock: shared.Clock
    runs: int
    made: int = 0
    faults: shared.Faults = dataclasses.field(default_factory=shared.Faults)

    def times(self) -> Iterator[int]:
        for number in range(self.runs):
            if self.clock.is_over():
                return
            self.made += 1
            yield number

    def look(
        self, what: str, ran: Ran, allowed: Sequence[Tree], statuses: Sequence[int], are_summed: bool = True
    ) -> None:
        """Looks at what is there behind an attack, and at the sums of a study in it, where they are to hold."""
        if "Traceback" in ran.told or "Exception ignored" in ran.told:
            self.faults.add(what, "a traceback:", ran.told)
        if ran.status not in statuses:
            self.faults.add(what, f"status {ran.status}:", ran.told)
        if are_summed and (wrong := unsummed(self.desk.place)):
            self.faults.add(what, "it hasn't the sums that are told:", wrong)
        hidden = self.desk.hidden()
        if hidden:
            self.faults.add(what, "there is left:", hidden)
        there = tree_of(self.desk.place)
        if there not in allowed:
            self.faults.add(what, f"status {ran.status}, and there is:", sorted(there), ran.told)

    def earlier(self, command: str) -> Tree:
        """Lays an earlier output into the place."""
        self.desk.clear()
        self.desk.run(self.desk.words(command, 1, self.desk.place / "out"))
        return tree_of(self.desk.place)


def changing(trial: Trial) -> None:
    """The case changes while it is read: written over, or put in its place, with its time or not, and back again."""
    desk = trial.desk
    case = desk.top / "case"
    for command in ("outages", "study"):
        whole = [expected(desk, command, number, case) for number in (1, 2)]
        for _ in trial.times():
            desk.clear()
            shutil.copy(desk.case(1), case)
            words = desk.words(command, 1, desk.place / "out")
            words[2] = str(case)
            process = desk.start(words)
            while process.poll() is None:
                time.sleep(0.2 * trial.draw.random())
                change(case, desk.case(trial.draw.choice((1, 2))), trial.draw)
            ran = ended(process)
            nothing: list[Tree] = [{}] if ran.status == 1 and "it changed while it was read" in ran.told else []
            trial.look(f"changing {command}", ran, [*whole, *nothing], (0, 1) if nothing else (0,))


def change(case: pathlib.Path, other: pathlib.Path, draw: random.Random) -> None:
    """Gives a case the text of another."""
    before = os.stat(case)
    if draw.random() < 0.5:
        case.write_bytes(other.read_bytes())
    else:
        beside = case.with_name("beside")
        shutil.copy(other, beside)
        os.replace(beside, case)
    if draw.random() < 0.5:
        os.utime(case, ns=(before.st_atime_ns, before.st_mtime_ns))


def at_once(trial: Trial) -> None:
    """Several runs write the same output at once: one is done, or by force one after another."""
    desk = trial.desk
    for command in COMMANDS:
        whole = [expected(desk, command, number) for number in (1, 2)]
        for _ in trial.times():
            force = trial.draw.random() < 0.5
            desk.clear()
            if force:
                desk.run(desk.words(command, 1, desk.place / "out"))
            words = [desk.words(command, number, desk.place / "out") for number in (1, 2, 1)]
            begun = [desk.start([*it, "--force"] if force else it) for it in words]
            ran = [ended(process) for process in begun]
            many = sum(one.status == 0 for one in ran)
            if many != 1 and not (force and many > 1):
                trial.faults.add(f"{command} at once, force {force}: {many} are done:", [one.told for one in ran])
            done = [whole[number] for number, one in zip((0, 1, 0), ran) if one.status == 0]
            for one in ran:
                trial.look(f"{command} at once, force {force}", one, done, (0, 1))


def full(trial: Trial) -> None:
    """The disk is full, by a limit on the size of files. The program is called by a script, which the desk doesn't copy."""
    script = trial.desk.top / "script"
    script.write_text(f'#!/bin/sh\nexec {shlex.quote(trial.desk.program)} "$@"\n')
    script.chmod(0o755)
    desk = dataclasses.replace(trial.desk, program=str(script))
    for command in COMMANDS:
        whole = [expected(desk, command, number) for number in (1, 2)]
        for _ in trial.times():
            force = trial.draw.random() < 0.7
            before: Tree = {}
            if force:
                before = trial.earlier(command)
            else:
                desk.clear()
            words = desk.words(command, 2, desk.place / "out")
            largest = int(LARGEST ** trial.draw.random())
            ran = desk.run([*words, "--force"] if force else words, largest)
            allowed = [whole[1]] if ran.status == 0 else [before]
            trial.look(f"{command} with files of {largest} bytes at most, force {force}", ran, allowed, (0, 1))


def small_disk(trial: Trial) -> None:
    """The same by a disk in memory that has room for some of the files, where the system lets one be made."""
    desk = trial.desk
    for command in COMMANDS:
        whole = [expected(desk, command, number) for number in (1, 2)]
        for _ in trial.times():
            desk.clear()
            pages = trial.draw.randint(2, 120)
            mounted = ["mount", "-t", "tmpfs", "-o", f"size={pages * 4}k", "tmpfs", str(desk.place)]
            if subprocess.run(mounted, capture_output=True).returncode != 0:
                print("small_disk: the system lets no disk be made, so this kind is left out", flush=True)
                trial.made -= 1
                return
            try:
                first = desk.run(desk.words(command, 1, desk.place / "out"))
                before = tree_of(desk.place)
                trial.look(f"{command} on {pages} pages", first, [whole[0] if first.status == 0 else {}], (0, 1))
                words = [*desk.words(command, 2, desk.place / "out"), "--force"]
                ran = desk.run(words)
                trial.look(f"{command} by force on {pages} pages", ran, [whole[1] if ran.status == 0 else before], (0, 1))
            finally:
                subprocess.run(["umount", str(desk.place)], check=True)


def signals(trial: Trial) -> None:
    """A signal at a moment of the first half of a second, or of the whole run."""
    desk = trial.desk
    for command in COMMANDS:
        whole = [expected(desk, command, number) for number in (1, 2)]
        begun = time.monotonic()
        expected(desk, command, 2)
        length = time.monotonic() - begun
        for _ in trial.times():
            before = trial.earlier(command)
            number = trial.draw.choice(STOPS)
            process = desk.start([*desk.words(command, 2, desk.place / "out"), "--force"])
            wait = trial.draw.random() * trial.draw.choice((0.05, 0.5, 1.2 * length))
            time.sleep(wait)
            process.send_signal(number)
            ran = ended(process)
            # (before Python has begun a signal ends the shell, and behind all work it comes too late)
            statuses = (128 + number, -number, 0)
            what = f"{command} and the signal {number} after {wait:.3f} s"
            allowed = [whole[1]] if ran.status == 0 else [before, whole[1]]
            trial.look(what, ran, allowed, statuses)
            told = {128 + number: "gicdesk: stopped\n", -number: "", 0: ""}.get(ran.status)
            if told is not None and ran.told != told:
                trial.faults.add(what, f"status {ran.status}, and it told:", ran.told)


def killed(trial: Trial) -> None:
    """The command is killed before one of the calls that make, move and take away files, and the next one finds what stood
    there or all of the new."""
    desk = trial.desk
    killer, counted = desk.top / "killer.py", desk.top / "counted"
    killer.write_text(KILLER)

    def words(command: str, number: int) -> list[str]:
        begin = [sys.executable, "-B", str(killer), str(number), str(counted)]
        return [*begin, *desk.words(command, 2, desk.place / "out"), "--force"]

    for command in COMMANDS:
        whole = [expected(desk, command, number) for number in (1, 2)]
        trial.earlier(command)
        ran = desk.run(words(command, 0))
        if ran.status != 0:
            raise SystemExit(f"{command} under {killer.name}: status {ran.status}, {ran.told}")
        calls = int(counted.read_text())
        for _ in trial.times():
            before = trial.earlier(command)
            number = trial.draw.randint(1, calls)
            first = ended(desk.start(words(command, number)))
            for process in marked(str(desk.top)):
                with contextlib.suppress(OSError):
                    os.kill(process, signal.SIGKILL)
            shutil.rmtree(desk.passing)
            desk.passing.mkdir()
            what = f"{command} killed before the call {number} of {calls}, status {first.status}"
            if command == "outages":
                # (its scratch lies in the folder, where the next command with the same output looks)
                ran, statuses = desk.run(desk.words(command, 1, desk.place / "out")), (1,)
            else:
                ran, statuses = desk.run(desk.words("csv", 1, desk.place / "next")), (0,)
                (desk.place / "next").unlink(missing_ok=True)
            trial.look(what, ran, [before, whole[1]], statuses)


def folders(trial: Trial) -> None:
    """A study that is to replace a folder in which something isn't its own."""
    desk = trial.desk
    makers: list[Callable[[pathlib.Path], object]] = [
        lambda place: (place / "mine.txt").write_text("mine"),
        lambda place: (place / "tables" / "mine.csv").write_text("mine"),
        lambda place: (place / "empty").mkdir(),
        lambda place: (place / "reports" / "link").symlink_to("screen.txt"),
        lambda place: (place / "link").symlink_to(desk.top),
        lambda place: os.mkfifo(place / "pipe"),
        lambda place: (place / "units.csv").write_text("mine"),
        lambda place: (place / "checksums.txt").write_text(""),
        lambda place: (place / ".gicdesk").unlink(missing_ok=True),
        lambda place: of_somebody_else(place),
    ]
    for _ in trial.times():
        trial.earlier("study")
        trial.draw.choice(makers)(desk.place / "out")
        before = tree_of(desk.place)
        ran = desk.run([*desk.words("study", 2, desk.place / "out"), "--force"])
        trial.look("study over a folder that isn't all its own", ran, [before], (1,), are_summed=False)


def of_somebody_else(place: pathlib.Path) -> None:
    """A folder with the sums of its own files."""
    shutil.rmtree(place)
    place.mkdir()
    (place / "thesis.tex").write_text("years of work")
    (place / "checksums.txt").write_text(f"{sum_of(b'years of work')}  thesis.tex\n")


def unwritable(trial: Trial) -> None:
    """Outputs that can't be written or are read: told before the program is run once."""
    desk = trial.desk
    never = desk.top / "never"
    never.write_text(f"#!/bin/sh\ntouch {desk.top}/was_run\nexit 1\n")
    never.chmod(0o755)
    inside = desk.place / "folder"
    for _ in trial.times():
        desk.clear()
        inside.mkdir()
        shutil.copy(desk.case(1), inside / "case")
        (desk.place / "link").symlink_to("nothing")
        before = tree_of(desk.place)
        out = trial.draw.choice(
            [desk.place / ("n" * 256), desk.place / "link", inside, inside / "case", ".", "..", "", inside / "none" / "out"]
        )
        command = trial.draw.choice(("outages", "study"))
        ran = desk.run([str(desk.desk), command, str(inside / "case"), f"--program={never}", f"--out={out}", "--force"])
        statuses = (1,)
        if (desk.top / "was_run").exists():
            if not (command == "outages" and out == inside):
                trial.faults.add(f"{command} to {out}: the program was run")
            (desk.top / "was_run").unlink()
        trial.look(f"{command} to {out}", ran, [before], statuses)


KINDS = {
    "changing": changing,
    "at_once": at_once,
    "full": full,
    "small_disk": small_disk,
    "signals": signals,
    "killed": killed,
    "folders": folders,
    "unwritable": unwritable,
}


def attacked(asked: tuple[str, str, str, int, int, shared.Clock]) -> tuple[str, int, int]:
    """Makes all attacks of a kind: its name, how many there were, and how many faults."""
    name, desk, program, seed, runs, clock = asked
    with shared.scratch() as folder:
        trial = Trial(Desk(pathlib.Path(desk), program, pathlib.Path(folder)), random.Random(f"{seed} {name}"), clock, runs)
        furnish(trial.desk)
        KINDS[name](trial)
    print(f"{name}: {trial.made} attacks, {trial.faults.count} faults", flush=True)
    return name, trial.made, trial.faults.count


def main() -> None:
    extra = (("runs", 40), ("only", ""), ("desk", str(TOP / "desk" / "gicdesk")))
    given = shared.arguments(__doc__, 30, extra)
    clock, faults = shared.Clock(given.minutes), shared.Faults()
    desk, program = os.path.realpath(given.desk), os.path.abspath(given.program)
    names = [name for name in KINDS if given.only in ("", name)]
    asked = [(name, desk, program, given.seed, given.runs, clock) for name in names]
    counts = {}
    for name, made, count in shared.side_by_side(given.jobs, attacked, asked, clock):
        counts[name] = made
        faults.count += count
    shared.finish(faults, *(f"{counts[name]} {name}" for name in names if name in counts))


if __name__ == "__main__":
    main()
