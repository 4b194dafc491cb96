"""What the script `gicstudy` is asked for: a proof, an answer, or what is here.

The script calls this where a proved program isn't there, where it can't see that no source and no folder of sources has
changed since the program's sources were read, and where a word in front of MODE asks for it. Whether sources differ is told
by their contents; a checkout whose files are only newer has its proved program."""

import errno
import os
import shutil
import signal
from pathlib import Path
from typing import NoReturn

import unproved
from crates import Fault
from proving import build
from record import Look, is_there, keep_found, look, program_of
from sources import read_sources
from stops import Stopped, end_by, go_on_without, stop_on_signals
from teller import Teller
from version import version

USAGE = "usage: words"


def become(program: Path, words: list[str]) -> NoReturn:
    """Runs the program in the place of this process."""
    # (Python ignores these, and the program would inherit it)
    for it in (signal.SIGPIPE, signal.SIGXFSZ):
        signal.signal(it, signal.SIG_DFL)
    os.execv(program, [str(program), *words])


def looked_at(top: Path) -> Look:
    """A look at the proved program, which is kept for the script."""
    sources = read_sources(top)
    found = look(top, sources)
    keep_found(top, sources, found)
    return found


def prove(top: Path, teller: Teller, words: list[str]) -> int:
    """Proves and builds the program where it isn't, and runs it where there are words for it."""
    sources = read_sources(top)
    found = look(top, sources)
    keep_found(top, sources, found)
    if found.identity is None:
        build(top, teller, found.why or "", sources)
    elif not words:
        teller.say("the program is already proved and built")
    if words:
        become(program_of(top), words)
    return 0


def proved(top: Path, words: list[str]) -> NoReturn:
    """Runs the proved program, or refuses."""
    found = looked_at(top)
    if found.identity is None:
        raise Fault(f"{found.why}, and --proved refuses an answer without proof; {unproved.PROVE} ({unproved.TAKES})")
    become(program_of(top), words)


def answer(top: Path, teller: Teller, words: list[str]) -> int:
    """Answers by the proved program, or else by one compiled without proof."""
    why = None
    if is_there(top):
        found = looked_at(top)
        if found.identity is not None:
            become(program_of(top), words)
        why = found.why
    if not words:
        # (which needs no program)
        teller.say(USAGE)
        return 2
    return unproved.answer(top, teller, read_sources(top, unproved.PARTS), words, why)


def words_of(error: OSError) -> str:
    """What is the matter, in a line. Of a folder that can't be copied it is the first file of it."""
    if isinstance(error, shutil.Error):
        return str(error.args[0][0][2])
    return f"{error.strerror}: {error.filename}" if error.filename else str(error.strerror)


def called(top: Path, teller: Teller, words: list[str]) -> int:
    first, behind = words[:1], words[1:]
    if first == ["--version"]:
        unproved.write(1, "".join(f"{line}\n" for line in version(top)).encode())
        return 0
    if first == ["--prove"]:
        return prove(top, teller, behind)
    if first == ["--proved"]:
        proved(top, behind)
    return answer(top, teller, words)


def told(top: Path, teller: Teller, words: list[str]) -> int:
    """The status of a call; where there is no answer, a line says why."""
    try:
        return called(top, teller, words)
    except Fault as fault:
        teller.say(str(fault))
    except OSError as error:
        why = words_of(error)
        space = " (free some space, and call again)" if os.strerror(errno.ENOSPC) in why else ""
        head = "the build failed" if words[:1] == ["--prove"] else "no answer"
        teller.say(f"{head}: {why}{space}")
    return 1


def main(words: list[str]) -> int:
    top = Path(__file__).resolve().parent.parent
    try:
        stop_on_signals()
        status = told(top, Teller(), words)
        go_on_without()
        return status
    except Stopped as stopped:
        number = stopped.number
    # (behind the block, so that what the stop has cut off on its way into a block of its own is left and removed too)
    end_by(number)
