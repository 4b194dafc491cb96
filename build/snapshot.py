"""The snapshot of the sources, in which crates are proved.

A build takes many minutes, and a source may be saved meanwhile. So what is proved is a copy of all sources as
they were read at one time. What is made of a crate goes into the crate's own folder out/, to which the snapshot links."""

import os
import shutil
from dataclasses import dataclass
from pathlib import Path

from crates import PROGRAM, Crate
from sources import LIST, Sources

# The file beside a built library that tells of which sources it was built. It is written last.
MARK = "sources.sum"
LIBRARY = "rlib"


def out_of(top: Path, name: str) -> Path:
    return top / "crates" / name / "out"


def snapshot_of(top: Path) -> Path:
    return out_of(top, PROGRAM) / "snapshot"


def remove(path: Path) -> None:
    if path.is_dir() and not path.is_symlink():
        shutil.rmtree(path)
    else:
        path.unlink(missing_ok=True)


def is_library_there(top: Path, name: str) -> bool:
    return (out_of(top, name) / LIBRARY / f"{name}.rlib").is_dir()


def is_proved(top: Path, name: str, sum: str) -> bool:
    """Whether the library that stands there was built of the sources with this sum."""
    mark = out_of(top, name) / LIBRARY / MARK
    return is_library_there(top, name) and mark.is_file() and mark.read_bytes() == sum.encode()


def put_mark(top: Path, name: str, sum: str) -> None:
    """Says that the library that stands there was built of the sources with this sum."""
    (out_of(top, name) / LIBRARY / MARK).write_text(sum, encoding="utf-8")


def remove_mark(top: Path, name: str) -> None:
    (out_of(top, name) / LIBRARY / MARK).unlink(missing_ok=True)


@dataclass(frozen=True)
class Snapshot:
    """A copy of the sources, in which all proofs of a build go on."""

    top: Path

    @property
    def at(self) -> Path:
        return snapshot_of(self.top)

    def fill(self, sources: Sources) -> None:
        """Writes the sources, in the place of what a build that was killed has left."""
        self.remove()
        for path, content in sources.files.items():
            file = self.at / path
            file.parent.mkdir(parents=True, exist_ok=True)
            file.write_bytes(content)
        for crate in sources.crates:
            self.folder(crate).mkdir(parents=True, exist_ok=True)
            os.symlink(out_of(self.top, crate.name).resolve(), self.folder(crate) / "out")
        lines = "".join(f"{it.line}\n" for it in sources.crates)
        (self.at / LIST).write_text(lines, encoding="utf-8")

    def folder(self, crate: Crate) -> Path:
        return self.at / "crates" / crate.name

    def remove(self) -> None:
        remove(self.at)
