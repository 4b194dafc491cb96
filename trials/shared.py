"""What the trials share: the arguments, the clock, runs of the program, and words for each mode."""

from __future__ import annotations

import argparse
import concurrent.futures
import multiprocessing
import os
import random
import select
import signal
import sys
import tempfile
import time
from collections.abc import Callable, Iterable, Iterator, Mapping, Sequence
from multiprocessing.sharedctypes import Synchronized
from typing import NamedTuple, NoReturn, Optional, TypeVar, Union

import paths  # noqa: F401 - it finds the modules below

from generators.networks import made_files, sample_files
from referee.words import EVENTS, MODES, RANGES

MEMORY = "/dev/shm"
# How long a run may take where a trial says nothing else, in seconds.
RUN_SECONDS = 120.0
MOST_SHOWN = 20
# The values of a mode's options. Files are `p`, `t`, `s` and `c`.
VALUES: dict[str, Union[int, str]] = {
    "case": "p",
    "storm": "t",
    "switch": "s",
    "north": "8000",
    "east": "-500",
    "width": "100",
    "detail": "2",
    "seed": "7",
    "size": "12",
    "event": "benchmark",
    "cert": "c",
    "transformer": "T1",
    "tolerance": "20",
}
Values = dict[str, Union[int, str]]
Item = TypeVar("Item")
Result = TypeVar("Result")


class Answer(NamedTuple):
    """How a run ended: its status, below 0 for a signal and None where it didn't end in time, its output, and what it told
    on the error stream."""

    status: Optional[int]
    output: bytes
    told: bytes


class Clock:
    """The minutes that a trial has."""

    def __init__(self, minutes: float) -> None:
        self.end = time.monotonic() + 60 * minutes

    def left(self) -> float:
        return max(0.0, self.end - time.monotonic())

    def is_over(self) -> bool:
        return self.left() == 0


class Faults:
    """What went wrong; the first of them are printed."""

    def __init__(self) -> None:
        self.count = 0

    def add(self, *words: object) -> None:
        self.count += 1
        if self.count <= MOST_SHOWN:
            print("fault:", *words, flush=True)


def arguments(
    description: Optional[str],
    minutes: float,
    extra: Iterable[tuple[str, Union[int, str]]] = (),
    has_program: bool = True,
    files: Optional[str] = None,
) -> argparse.Namespace:
    """The words of a trial: PROGRAM, --minutes, --seed, --jobs, `extra` options with their defaults, and any number of files,
    where these have a name."""
    parser = argparse.ArgumentParser(
        description=description, formatter_class=argparse.RawDescriptionHelpFormatter, allow_abbrev=False
    )
    if has_program:
        parser.add_argument("program")
    parser.add_argument("--minutes", type=float, default=minutes)
    parser.add_argument("--seed", type=int, default=int(time.time()))
    parser.add_argument("--jobs", type=int, default=os.cpu_count())
    for name, default in extra:
        parser.add_argument("--" + name, type=type(default), default=default)
    if files is not None:
        parser.add_argument("files", metavar=files, nargs="*")
    given = parser.parse_intermixed_args()
    signal.signal(signal.SIGTERM, lambda *_: sys.exit("ended by a signal"))
    print(f"seed {given.seed}, {given.minutes:g} minutes at most, {given.jobs} side by side", flush=True)
    return given


def command_of(program: str) -> list[str]:
    """The command of a program, or of a Python script in its place."""
    path = os.path.abspath(program)
    return [sys.executable, path] if path.endswith(".py") else [path]


def start(command: Sequence[str], folder: str, environment: Optional[Mapping[str, str]], streams: Sequence[int]) -> int:
    """Starts a command in a folder, with these files as its streams; the number of its process."""
    here = os.open(".", os.O_PATH)
    os.chdir(folder)
    try:
        actions = [(os.POSIX_SPAWN_DUP2, stream, number) for number, stream in enumerate(streams)]
        variables = os.environ if environment is None else environment
        defaults = [signal.SIGPIPE, signal.SIGXFSZ]
        return os.posix_spawnp(command[0], [*command], variables, file_actions=actions, setsigdef=defaults)
    finally:
        os.fchdir(here)
        os.close(here)


def wait(process: int, seconds: float) -> Optional[int]:
    """The status of a process; None where it doesn't end in time."""
    handle, poll = os.pidfd_open(process), select.poll()
    poll.register(handle, select.POLLIN)
    has_ended = bool(poll.poll(1000 * seconds))
    os.close(handle)
    if not has_ended:
        os.kill(process, signal.SIGKILL)
    _, status = os.waitpid(process, 0)
    return os.waitstatus_to_exitcode(status) if has_ended else None


def run(
    command: Sequence[str], folder: str, environment: Optional[Mapping[str, str]] = None, seconds: float = RUN_SECONDS
) -> Answer:
    """Runs a command in a folder.

    Its output goes to files in memory. Pipes would have to be looked after while it runs, and beside other work of the
    machine each turn of that costs more than the run.
    """
    streams = os.open(os.devnull, os.O_RDONLY), os.memfd_create("output"), os.memfd_create("told")
    try:
        status = wait(start(command, folder, environment, streams), seconds)
        output, told = (os.pread(stream, os.fstat(stream).st_size, 0) for stream in streams[1:])
        return Answer(status, output, told)
    finally:
        for stream in streams:
            os.close(stream)


def ending(status: Optional[int]) -> str:
    """How a run ended, in words."""
    if status is None:
        return "no end in time"
    return f"status {status}" if status >= 0 else signal.Signals(-status).name


def words_of(mode: str, optional: bool = True, /, **values: Union[int, str]) -> list[str]:
    """The words of a run of a mode, with its options at the values of VALUES but for `values`."""
    row = MODES[mode]
    options = row.required + (row.allowed if optional else [])
    return [mode] + [f"--{option}={values.get(option, VALUES[option])}" for option in options]


def random_values(draw: random.Random) -> Values:
    """Values of options by chance; names of files stay as they are."""
    least, most = RANGES["north"]
    return {
        "north": draw.choice([draw.randint(least, most), 8000, 0]),
        "east": draw.choice([draw.randint(least, most), most, 0]),
        "width": draw.choice([10, 11, 100, 1000, 10000]),
        "detail": draw.randint(1, 13),
        "event": draw.choice([*EVENTS]),
        "seed": draw.randint(*RANGES["seed"]),
        "size": draw.randint(2, 20),
        "transformer": f"T{draw.randint(0, 3)}",
        "tolerance": draw.choice([*RANGES["tolerance"], 20, 50, draw.randint(*RANGES["tolerance"])]),
    }


def in_bytes(words: Sequence[str]) -> list[bytes]:
    """Words as the referee takes them."""
    return [os.fsencode(word) for word in words]


def write(folder: str, name: str, content: Union[bytes, str]) -> None:
    with open(os.path.join(folder, name), "wb") as file:
        file.write(content if isinstance(content, bytes) else content.encode())


def write_all(folder: str, files: Mapping[str, bytes]) -> None:
    for name, content in files.items():
        write(folder, name, content)


def read(*path: str) -> bytes:
    with open(os.path.join(*path), "rb") as file:
        return file.read()


def certify(command: Sequence[str], folder: str) -> Answer:
    """Writes the certificate `c` of the case and the switchings of a folder, and tells how that ended."""
    answer = run([*command, *words_of("certify")], folder)
    write(folder, "c", answer.output)
    return answer


def two_folders(command: Sequence[str], top: str, sites: int) -> list[str]:
    """Folders in `top` with the files of the sample and of a made network, and their certificates."""
    folders = []
    for name, files in (("sample", sample_files()), ("made", made_files(sites))):
        folder = os.path.join(top, name)
        os.mkdir(folder)
        write_all(folder, files)
        if certify(command, folder).status != 0:
            sys.exit(f"no certificate of the network {name}")
        folders.append(folder)
    return folders


def stay(workers: Synchronized[int]) -> None:
    """Keeps a worker, and so the runs that it waits for, on one processor: beside other work of the machine they hand
    over to one another the quicker. `workers` counts the workers."""
    processors = sorted(os.sched_getaffinity(0))
    with workers.get_lock():
        place, workers.value = workers.value, workers.value + 1
    os.sched_setaffinity(0, {processors[place % len(processors)]})


def side_by_side(jobs: int, work: Callable[[Item], Result], items: Iterable[Item], clock: Clock) -> Iterator[Result]:
    """Hands out the results of `work` of each item, in any order, until there are no more or the time is over."""
    running: set[concurrent.futures.Future[Result]] = set()
    workers = multiprocessing.Value("i", 0)
    with concurrent.futures.ProcessPoolExecutor(jobs, initializer=stay, initargs=(workers,)) as pool:
        try:
            for item in items:
                running.add(pool.submit(work, item))
                if len(running) >= 2 * jobs:
                    done, running = concurrent.futures.wait(running, return_when=concurrent.futures.FIRST_COMPLETED)
                    for future in done:
                        yield future.result()
                if clock.is_over():
                    break
            for future in concurrent.futures.as_completed(running):
                yield future.result()
        finally:
            pool.shutdown(cancel_futures=True)


def scratch() -> tempfile.TemporaryDirectory[str]:
    """A folder for files that are written again and again: in memory, where the system has a place for such."""
    return tempfile.TemporaryDirectory(prefix="trial_", dir=MEMORY if os.path.isdir(MEMORY) else None)


def finish(faults: Faults, *figures: str) -> NoReturn:
    """Prints the line of figures, and ends with status 1 where there are faults."""
    print(", ".join([*figures, f"{faults.count} faults"]), flush=True)
    sys.exit(faults.count > 0)
