"""An earlier study: whether a folder is one, all of it, and how it is taken away.

A study has a file that nothing but the desk writes, `MARKER`, with the sum of the file of sums, which has those of all
other files. A folder is an earlier study where all that lies in it is of one: what is more, what has changed, a symbolic
link, an empty folder of another name or a device isn't, and then nothing of the folder gives way. What is left of a study
that was being taken away is one, too.
"""

import hashlib
import os
import pathlib
import re
import stat
from collections.abc import Iterator

from .findings import Finding, Refused, refuse

MARKER, SUMS = ".gicdesk", "checksums.txt"
MARKER_TEXT = re.compile(rb"a study of gicdesk\n[0-9a-f]{64}  checksums\.txt\n")
MOVE = "move it elsewhere"


def digest_of(data: bytes) -> str:
    return hashlib.sha256(data).hexdigest()


def marker_text(sums: bytes) -> str:
    """What the marker of a study holds whose file of sums holds this."""
    return f"a study of gicdesk\n{digest_of(sums)}  {SUMS}\n"


def entries(folder: pathlib.Path) -> Iterator[tuple[str, os.stat_result]]:
    """All that lies in a folder, each with its name from there; a folder comes behind what lies in it."""
    waiting = [(name, False) for name in sorted(os.listdir(folder), reverse=True)]
    while waiting:
        name, is_read = waiting.pop()
        found = os.lstat(folder / name)
        if is_read or not stat.S_ISDIR(found.st_mode):
            yield name, found
        else:
            below = sorted(os.listdir(folder / name), reverse=True)
            waiting += [(name, True), *((f"{name}/{under}", False) for under in below)]


def sums_of(folder: pathlib.Path, shown: str) -> dict[str, str]:
    """The sums of the files of a study by their names, those of the marker and of the file of sums among them; refused
    where the folder has no marker that fits."""
    read = {}
    for name in (MARKER, SUMS):
        try:
            is_plain = stat.S_ISREG(os.lstat(folder / name).st_mode)
            read[name] = (folder / name).read_bytes() if is_plain else b""
        except FileNotFoundError:
            words = f"it has no {name}, so it is no earlier study, or one of an earlier desk, and --force doesn't replace it"
            raise refuse(shown, f"{words}; choose another name") from None
    if read[MARKER] != marker_text(read[SUMS]).encode():
        words = f"its {MARKER} isn't that of its {SUMS}, so --force doesn't replace it; choose another name"
        raise refuse(shown, words)
    lines = [line.partition("  ") for line in read[SUMS].decode("utf-8", "replace").splitlines()]
    return {name: digest for digest, _, name in lines} | {name: digest_of(data) for name, data in read.items()}


def is_marker_alone(folder: pathlib.Path) -> bool:
    """Whether a marker is all that is left of a study."""
    if os.listdir(folder) != [MARKER] or not stat.S_ISREG(os.lstat(folder / MARKER).st_mode):
        return False
    return MARKER_TEXT.fullmatch((folder / MARKER).read_bytes()) is not None


def refuse_other(folder: pathlib.Path, shown: str) -> list[str]:
    """What lies in an earlier study, each folder behind what lies in it, and its sums and its marker last. Refused where
    any of it isn't of the study; an empty folder is as good as one."""
    if not os.listdir(folder):
        return []
    if is_marker_alone(folder):
        return [MARKER]
    sums = sums_of(folder, shown)
    folders = {str(above) for name in sums for above in pathlib.PurePath(name).parents}
    there, findings = [], []
    for name, found in entries(folder):
        there.append(name)
        words = None
        if stat.S_ISDIR(found.st_mode):
            words = None if name in folders else "is a folder that isn't of the earlier study"
        elif not stat.S_ISREG(found.st_mode):
            words = "is no plain file, so it isn't of the earlier study"
        elif name not in sums:
            words = "isn't of the earlier study"
        elif digest_of((folder / name).read_bytes()) != sums[name]:
            words = "has changed since the earlier study was made"
        if words is not None:
            findings.append(Finding(os.path.join(shown, name), f"it {words}; {MOVE}"))
    if findings:
        raise Refused(findings)
    return [*(name for name in there if name not in (SUMS, MARKER)), SUMS, MARKER]


def take_away(folder: pathlib.Path, shown: str) -> None:
    """Takes an earlier study away, name by name: what came into its folder meanwhile stays, which is an error. Since its
    sums and its marker go last, what a kill leaves of it is known as of a study."""
    for name in refuse_other(folder, shown):
        path = folder / name
        if path.is_dir():
            path.rmdir()
        else:
            path.unlink()
    folder.rmdir()
