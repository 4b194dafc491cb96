"""The record of the proved program: of which sources it was built, and which file it is.

Four files lie beside one another in crates/gicstudy/out. `gicstudy` is the program. `gicstudy.sources` has the sums of its
sources and of itself, and the time at which these sources were read. `gicstudy.places` lists what the script looks at: these
three other files, and each place whose change is one of the sources. `gicstudy.proved` has the program's inode and size, and
the time of its last change: a file that takes its place, also one with an old time or from a copy of itself, has another."""

import os
from contextlib import suppress
from dataclasses import dataclass
from pathlib import Path

from crates import PROGRAM, Fault
from locks import locked_if_free
from snapshot import out_of
from sources import Sources, first_difference, sum_of


def program_of(top: Path) -> Path:
    return out_of(top, PROGRAM) / PROGRAM


def record_of(top: Path) -> Path:
    return out_of(top, PROGRAM) / f"{PROGRAM}.sources"


def places_of(top: Path) -> Path:
    return out_of(top, PROGRAM) / f"{PROGRAM}.places"


def stamp_of(top: Path) -> Path:
    return out_of(top, PROGRAM) / f"{PROGRAM}.proved"


@dataclass(frozen=True)
class Identity:
    """Which file it is: its inode, its size in bytes, and when it was changed, in nanoseconds."""

    inode: int
    size: int
    changed: int


def identity_of(file: Path) -> Identity:
    found = os.stat(file)
    return Identity(found.st_ino, found.st_size, found.st_ctime_ns)


def read_program(file: Path) -> tuple[bytes, Identity]:
    """A program, and which file it was before it was read: what changes it meanwhile changes it later."""
    identity = identity_of(file)
    return file.read_bytes(), identity


@dataclass(frozen=True)
class Look:
    """What a look at the proved program tells: why it isn't that of the sources, or which file it is and its sum."""

    why: str | None
    identity: Identity | None = None
    sum: str | None = None


def is_there(top: Path) -> bool:
    """Whether there is a program that may be a proved one."""
    return os.access(program_of(top), os.X_OK) and program_of(top).is_file()


def look(top: Path, sources: Sources) -> Look:
    if not is_there(top):
        return Look("there is no proved program")
    kept = text_of(record_of(top))
    if kept is None:
        return Look("there is no record of the sources of the program")
    content, identity = read_program(program_of(top))
    differs = first_difference(kept, sources.record(content))
    if differs is not None:
        return Look(f"{differs} has changed since the program was built")
    return Look(None, identity, sum_of(content))


def no_toolchain(top: Path, why: str) -> Fault:
    """What is told where something has to be compiled or built, for this reason, and the toolchain isn't there."""
    other = f", or run the existing program, {program_of(top)}" if is_there(top) else ""
    return Fault(
        f"{why}, and the command rt, which compiles and proves it, is not on the path: "
        f"add the folder bin of the Rattle toolchain to the path{other}"
    )


def text_of(record: Path) -> str | None:
    """The record that is kept, or None where there is none, or another file in its place."""
    try:
        return record.read_text(encoding="utf-8") if record.is_file() else None
    except UnicodeDecodeError:
        return None


def put(file: Path, content: bytes, at: int | None = None) -> None:
    """Puts a file there whole, and with its time in nanoseconds where one is given: another beside it takes its place."""
    beside = file.with_name(f"{file.name}.{os.getpid()}")
    try:
        beside.write_bytes(content)
        if at is not None:
            os.utime(beside, ns=(at, at))
        os.replace(beside, file)
    except BaseException:
        beside.unlink(missing_ok=True)
        raise


def keep(top: Path, sources: Sources, identity: Identity, record: str | None = None) -> None:
    """Keeps beside the program what the script looks at. The record, which is another one where it is given, gets the time
    at which the sources were read. What tells which file the program is comes last: until then the script looks further."""
    beside = (program_of(top), stamp_of(top), record_of(top))
    places = [*(str(it.relative_to(top)) for it in beside), *sources.places(top)]
    put(places_of(top), b"".join(os.fsencode(it) + b"\0" for it in places))
    read_at = int(sources.read_at * 1e9)
    if record is None:
        os.utime(record_of(top), ns=(read_at, read_at))
    else:
        put(record_of(top), record.encode(), read_at)
    put(stamp_of(top), f"{identity.inode} {identity.size}\n".encode(), identity.changed)


def keep_found(top: Path, sources: Sources, found: Look) -> None:
    """Keeps for the script what a look has found. Where the program isn't that of the sources, the script has to look each
    time: without this it would believe a record from the future once that time has come. Where it is, what the script looks
    at is kept anew, unless a build is at work, or has put another program there since the look."""
    with suppress(OSError):
        if found.identity is None:
            stamp_of(top).unlink()
            return
        with locked_if_free(top / "crates") as is_free:
            if is_free and identity_of(program_of(top)) == found.identity:
                keep(top, sources, found.identity)
