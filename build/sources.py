"""The sources: what the program is built of, read at one time, and the record of it that is kept beside the program."""

import hashlib
import os
import time
from dataclasses import dataclass
from pathlib import Path

from crates import PROGRAM, Crate, below, read_crates, read_text

LIST = "crates.txt"
PARTS = ("src", "specs", "proofs")
# How libraries are built: one that was built in another form is built again.
FORM = "as statements"
# What a run of the program in its crate's folder reads.
TRIED_ON = ("data", "args", "status")


def sum_of(content: bytes) -> str:
    return hashlib.sha256(content).hexdigest()


def is_of_an_editor(name: str) -> bool:
    """Whether it is a file that an editor keeps beside one that it has open."""
    return name.startswith((".", "#")) or name.endswith("~")


def files_of(place: Path) -> list[Path]:
    """The files below a folder, or the file itself, or none."""
    walked = [Path(at) / name for at, _, names in os.walk(place) for name in names if not is_of_an_editor(name)]
    return [place] if place.is_file() else sorted(walked)


def folders_of(place: Path) -> list[Path]:
    """The folder and those below it."""
    return sorted(Path(at) for at, _, _ in os.walk(place))


@dataclass(frozen=True)
class Sources:
    """The program's crates, the lowest first, and the contents of their files, as they were read at one time."""

    read_at: float
    crates: tuple[Crate, ...]
    files: dict[str, bytes]

    def of(self, name: str, parts: tuple[str, ...] = PARTS) -> dict[str, bytes]:
        """The crate's files, by their paths from the top of the repository."""
        heads = tuple(f"crates/{name}/{part}/" for part in parts)
        return {path: content for path, content in self.files.items() if path.startswith(heads)}

    def lines(self, name: str) -> int:
        return sum(content.count(b"\n") for content in self.of(name).values())

    def sums(self, toolchain: str) -> dict[str, str]:
        """For each crate the sum of all that its proof stands on: the toolchain, its files, and the crates below it."""
        found: dict[str, str] = {}
        for crate in self.crates:
            own = [(path, sum_of(content)) for path, content in self.of(crate.name).items()]
            told = (FORM, toolchain, crate.line, own, [found[it] for it in crate.names])
            found[crate.name] = sum_of(repr(told).encode())
        return found

    def record(self, program: bytes) -> str:
        """The sums of the sources and of the program that was built of them, as sha256sum writes them."""
        lines = [f"{sum_of(' '.join(it.line for it in self.crates).encode())}  {LIST}, the lines of these crates"]
        for crate in self.crates:
            # (a name that isn't UTF-8 is shown)
            shown = {os.fsencode(path).decode(errors="backslashreplace"): it for path, it in self.of(crate.name).items()}
            lines += [f"{sum_of(content)}  {path}" for path, content in shown.items()]
        lines.append(f"{sum_of(program)}  crates/{PROGRAM}/out/{PROGRAM}")
        return "".join(f"{line}\n" for line in lines)

    def places(self, top: Path) -> list[str]:
        """Each file that a change of the sources changes, and each folder: that of a file that is added or taken away."""
        found = [LIST]
        for crate in self.crates:
            folder = top / "crates" / crate.name
            parts = [it for part in PARTS for it in folders_of(folder / part)]
            found += [str(it.relative_to(top)) for it in (folder, *parts)]
            found += self.of(crate.name)
        return found


def read_sources(top: Path, parts: tuple[str, ...] = PARTS) -> Sources:
    """Reads the sources of the program's crates, or these parts of them alone."""
    # A save within the last moments may bear the time of now: one second back it counts as later, and is looked at.
    read_at = time.time() - 1
    listed = read_crates(read_text(top / LIST))
    crates = (*below(listed, PROGRAM), listed[PROGRAM])
    files: dict[str, bytes] = {}
    for crate in crates:
        tried_on = TRIED_ON if crate.name == PROGRAM and parts == PARTS else ()
        for part in (*parts, *tried_on):
            for path in files_of(top / "crates" / crate.name / part):
                files[str(path.relative_to(top))] = path.read_bytes()
    return Sources(read_at, crates, files)


def first_difference(record: str, now: str) -> str | None:
    """The path of the first file that two records tell differently, if there is one."""
    before, after = ({line[66:]: line[:64] for line in text.splitlines()} for text in (record, now))
    for path in sorted({*before, *after}):
        if before.get(path) != after.get(path):
            return path
    return None
