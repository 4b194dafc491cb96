#!/usr/bin/env python3
"""Refuses, cuts short, interrupts and stalls each read and write in turn, in a run of every mode.

    python3 trials/calls.py PROGRAM [--minutes M] [--seed S] [--jobs N] [--sites N]

The runs are over the sample network with its outage, and over a made network of SITES sites (200), in every mode, and
over files that are refused, whose line goes to the error stream. What has to come of the call with each number:

- opened or read with an error: status 3, the line of one of the run's files, and nothing on the output;
- written with an error: status 4, its line, and a prefix of the report on the output;
- told on the error stream with an error: the status of the refusal, and nothing on the output;
- short (one byte at that call, or at each call from it on), stalled, or interrupted once or 9999 times in a row:
  the same bytes and the same status as of a run that nothing happens to;
- read or written with an interruption at each call from it on: as with an error. Opening is left out of that: Rattle's
  std opens a file again as long as it is interrupted (`open_path`, in `std/src/fs/options.rt`), so such a run has no
  end.

Then come streams of the system: a full one, a closed one, a pipe without a reader, a slow reader and a slow writer.
"""

from __future__ import annotations

import errno
import functools
import os
import random
import subprocess
import threading
import time
from collections.abc import Callable, Iterator, Sequence
from typing import NamedTuple, Optional

import preload
import shared
from preload import Counts, Refusal
from referee.words import MODES

FOREVER = 2**63
# An interrupted call is made again so often, and has failed only then.
MOST_INTERRUPTIONS = 9999
ERRORS = {
    "open": (errno.EIO, errno.EMFILE, errno.EACCES, errno.ENOMEM),
    "read": (errno.EIO, errno.EAGAIN, errno.EISDIR, errno.ENOMEM),
    "write": (errno.EIO, errno.ENOSPC, errno.EAGAIN, errno.EPIPE, errno.ENOMEM),
    "tell": (errno.EIO, errno.ENOSPC, errno.EAGAIN, errno.EPIPE),
}
WRITE_LINE = b"gicstudy: cannot write\n"
FILE_OPTIONS = {"--case", "--storm", "--switch", "--cert"}


class Job(NamedTuple):
    """A run: its folder, its words, and what comes of it where nothing happens to it."""

    folder: str
    words: list[str]
    whole: shared.Answer


class Ended(NamedTuple):
    """How a run ended whose output isn't looked at: its status, None where it didn't end in time, and what it told."""

    status: Optional[int]
    told: bytes


def read_lines(words: Sequence[str]) -> set[bytes]:
    """The lines that may tell that a file can't be read."""
    files = [word[2:].split("=")[0] for word in words if word.split("=")[0] in FILE_OPTIONS]
    return {f"gicstudy: cannot read {name}\n".encode() for name in files}


def is_failed(job: Job, call: str, answer: shared.Answer) -> bool:
    """Whether a run ended as it has to where this call failed."""
    if call in ("open", "read"):
        return answer.status == 3 and not answer.output and answer.told in read_lines(job.words)
    if call == "write":
        prefix = job.whole.output[: len(answer.output)]
        is_prefix = answer.output == prefix and len(prefix) < len(job.whole.output)
        return answer.status == 4 and answer.told == WRITE_LINE and is_prefix
    return answer.status == job.whole.status and not answer.output and job.whole.told.startswith(answer.told)


def attempt(library: str, command: Sequence[str], job_and_refusal: tuple[Job, Refusal]) -> tuple[Job, Refusal, Optional[str]]:
    """The refusal, and what is wrong of the run or None."""
    job, refusal = job_and_refusal
    answer, counts = preload.run(library, [*command, *job.words], job.folder, refusal)
    if counts.refused == 0:
        is_right = answer == job.whole and refusal.first > counts.of(refusal.call)
    elif is_mild(refusal):
        is_right = answer == job.whole
    else:
        is_right = is_failed(job, refusal.call, answer)
    if is_right:
        return job, refusal, None
    return job, refusal, f"{shared.ending(answer.status)}, {len(answer.output)} bytes, told {answer.told[:80]!r}"


def is_mild(refusal: Refusal) -> bool:
    """Whether the program has to go on as if nothing had happened."""
    is_interrupted = refusal.how == str(errno.EINTR)
    return refusal.how in ("short", "stall") or (is_interrupted and refusal.length <= MOST_INTERRUPTIONS)


def refusals(counts: Counts) -> Iterator[Refusal]:
    """What is tried of a run with these counts."""
    interrupted = str(errno.EINTR)
    for call, errors in ERRORS.items():
        for first in range(1, counts.of(call) + 2):
            yield from (Refusal(call, first, 1, str(error)) for error in errors)
            yield from (Refusal(call, first, length, interrupted) for length in (1, MOST_INTERRUPTIONS))
            if call != "open":
                yield Refusal(call, first, FOREVER, interrupted)
                yield from (Refusal(call, first, length, "short") for length in (1, FOREVER))
            yield Refusal(call, first, 1, "stall")


def words_of_runs() -> Iterator[tuple[list[str], int]]:
    """The words of each run and its status: of every mode, and of runs that are refused."""
    yield from ((shared.words_of(mode), 0) for mode in MODES)
    yield from (([mode], 2) for mode in ("volts", "fly"))
    yield shared.words_of("check", case="t"), 5
    yield shared.words_of("study", storm="s"), 6
    yield shared.words_of("field", switch="p"), 7
    yield shared.words_of("recheck", cert="p"), 13


def jobs_of(library: str, command: Sequence[str], folder: str, faults: shared.Faults) -> Iterator[tuple[Job, Counts]]:
    """Each run with its counts."""
    for words, status in words_of_runs():
        whole, counts = preload.run(library, [*command, *words], folder)
        if whole.status != status:
            faults.add(words, "ends with", shared.ending(whole.status), whole.told)
        yield Job(folder, words, whole), counts


# Streams of the system.


def with_output(command: Sequence[str], job: Job, make_output: Callable[[], int]) -> Ended:
    """How a run ends whose output is what `make_output` opens."""
    output = make_output()
    try:
        return ended([*command, *job.words], job.folder, subprocess.DEVNULL, output)
    finally:
        os.close(output)


def ended(words: Sequence[str], folder: str, given: Optional[int] = None, output: Optional[int] = None) -> Ended:
    """How a run ends with these streams as its input and its output, or with ours."""
    try:
        ran = subprocess.run(
            words,
            cwd=folder,
            stdin=given,
            stdout=output,
            stderr=subprocess.PIPE,
            check=False,
            timeout=shared.RUN_SECONDS,
        )
    except subprocess.TimeoutExpired:
        return Ended(None, b"")
    return Ended(ran.returncode, ran.stderr)


def pipe_without_reader() -> int:
    reader, writer = os.pipe()
    os.close(reader)
    return writer


def closed_output(command: Sequence[str], job: Job) -> Ended:
    """A run that has no output at all."""
    return ended(["sh", "-c", 'exec "$@" >&-', "sh", *command, *job.words], job.folder)


def slow_reader(command: Sequence[str], job: Job) -> shared.Answer:
    """What a reader gets that takes a byte, sleeps, and then takes little by little."""
    process = subprocess.Popen(
        [*command, *job.words],
        bufsize=0,
        cwd=job.folder,
        stdin=subprocess.DEVNULL,
        stdout=subprocess.PIPE,
        stderr=subprocess.PIPE,
    )
    timer = threading.Timer(shared.RUN_SECONDS, process.kill)
    timer.start()
    output, told_on = process.stdout, process.stderr
    assert output is not None and told_on is not None
    got: bytes = output.read(1)
    time.sleep(0.2)
    while part := output.read(977):
        got += part
    told = told_on.read()
    timer.cancel()
    return shared.Answer(process.wait(), got, told)


def feed(path: str, content: bytes) -> None:
    """Writes a file into a pipe that is named, little by little."""
    with open(path, "wb", buffering=0) as pipe:
        for place in range(0, len(content), 4096):
            pipe.write(content[place : place + 4096])
            time.sleep(0.001)


def slow_writer(command: Sequence[str], job: Job) -> shared.Answer:
    """A run whose files are pipes that fill slowly."""
    with shared.scratch() as folder:
        threads = []
        for name in "ptsc":
            if any(word.endswith("=" + name) for word in job.words):
                os.mkfifo(os.path.join(folder, name))
                content = shared.read(job.folder, name)
                threads.append(threading.Thread(target=feed, args=(os.path.join(folder, name), content), daemon=True))
        for thread in threads:
            thread.start()
        answer = shared.run([*command, *job.words], folder)
        for thread in threads:
            thread.join(1)
        return answer


def try_streams(command: Sequence[str], job: Job, faults: shared.Faults) -> int:
    """Runs a job over streams of the system; how many runs that were."""
    name = job.words[0]
    for stream, end in (
        ("a full stream", with_output(command, job, lambda: os.open("/dev/full", os.O_WRONLY))),
        ("a pipe without a reader", with_output(command, job, pipe_without_reader)),
        ("no output", closed_output(command, job)),
    ):
        if end != (4, WRITE_LINE):
            faults.add(name, "with", stream, "ends with", shared.ending(end.status), end.told)
    for stream, answer in (("a slow reader", slow_reader(command, job)), ("slow files", slow_writer(command, job))):
        if answer != job.whole:
            faults.add(name, "with", stream, "ends with", shared.ending(answer.status), answer.told)
    return 5


def main() -> None:
    given = shared.arguments(__doc__, 15, [("sites", 200)])
    command, faults, done, made = shared.command_of(given.program), shared.Faults(), 0, 0
    clock = shared.Clock(given.minutes)
    with shared.scratch() as top:
        library = preload.build(top)
        streams = 0
        tried: list[tuple[Job, Refusal]] = []
        for folder in shared.two_folders(command, top, given.sites):
            for job, counts in jobs_of(library, command, folder, faults):
                made += sum(counts.of(call) for call in ERRORS)
                tried += [(job, refusal) for refusal in refusals(counts)]
                streams += try_streams(command, job, faults) if job.whole.status == 0 else 0
        random.Random(given.seed).shuffle(tried)
        work = functools.partial(attempt, library, command)
        for job, refusal, fault in shared.side_by_side(given.jobs, work, tried, clock):
            done += 1
            if fault:
                faults.add(os.path.basename(job.folder), *job.words, refusal, fault)
    changed = f"{done} of {len(tried)} runs with a call that was changed"
    shared.finish(faults, f"{made} calls", changed, f"{streams} runs over streams")


if __name__ == "__main__":
    main()
