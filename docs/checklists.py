#!/usr/bin/env python3
"""Lists the files that name a mode or a kind of transformer, and checks two checklists of docs/MAP.md by them.

    python3 docs/checklists.py [WORD]

With the word of a mode (`check`) or of a kind of transformer (`wye-wye`) this prints each file of the repository that
names it, outside of the mode's own crate. Behind a file that names all words of its group stands `all`: all modes over
the network of a case, or all kinds.

Without a word this checks the checklists *A new mode* and *A new kind of transformer*. A file that names all words of a
group needs a line for a new one, so the checklist must name that file, or a folder above it. A file of a crate is named
where the same numbered point names the crate. Files that a script makes (MADE), what tests are given (GIVEN) and samples
are left out. The last line is `N files, M faults`, and the status is 0 only where M is 0.
"""

from __future__ import annotations

import re
import sys
from dataclasses import dataclass
from fnmatch import fnmatch
from pathlib import Path
from typing import Optional

from links import files_below

TOP = Path(__file__).resolve().parent.parent
MAP = "docs/MAP.md"
MODES = "crates/gic_words/src/mode.rt"
KINDS = "crates/gic_case_reader/src/transformer.rt"
# files that a script makes
MADE = {"docs/CLAIM.txt", "docs/INDEX.md", "build/seconds.txt"}
# folders of what tests are given or want, and the endings of samples
GIVEN = ("trials/referee/cases/", "crates/gic_examples/data/")
SAMPLES = (".toml", ".csv")
ROW = re.compile(r"mode: (?:Mode::Network\((NetworkMode::\w+)\)|(Mode::\w+)),\s+word: \"([\w-]+)\"")
KIND = re.compile(r"\"([\w-]+)\" => Some\(KindWord::(\w+)\)")
TOKEN = re.compile(r"`([^`\s]+)`")
POINT = re.compile(r"^\d+\. ", re.MULTILINE)


@dataclass(frozen=True)
class Named:
    """A mode or a kind: its word, its variant in Rattle, and its own crate, where it has one."""

    word: str
    variant: str
    crate: Optional[str] = None

    def pattern(self) -> re.Pattern[str]:
        """What names it in a text."""
        names = [rf"[\"'`]{re.escape(self.word)}[\"'`]", self.variant]
        if self.crate:
            names.append(rf"\b{self.crate}\b")
        return re.compile("|".join(names))


@dataclass(frozen=True)
class Group:
    """What one checklist is for: its heading, and those that are there."""

    heading: str
    members: tuple[Named, ...]


def crate_of(top: Path, word: str) -> Optional[str]:
    """The crate of a mode."""
    names = (f"gic_{word}", f"gic_{word}_mode")
    return next((name for name in reversed(names) if (top / "crates" / name).is_dir()), None)


def modes(top: Path) -> list[tuple[bool, Named]]:
    """All modes, each with whether it is one over the network of a case."""
    rows = ROW.findall((top / MODES).read_text())
    found = []
    for network, other, word in rows:
        variant = (network or other).rpartition("::")[2]
        pattern = rf"\b(?:NetworkMode::|Mode::|mode\.|network\.){variant}\b"
        found.append((bool(network), Named(word, pattern, crate_of(top, word))))
    return found


def kinds(top: Path) -> list[Named]:
    """All kinds of transformers."""
    return [Named(word, rf"\b{variant}\b") for word, variant in KIND.findall((top / KINDS).read_text())]


def groups(top: Path) -> tuple[Group, Group]:
    """The groups that have a checklist."""
    over_network = tuple(mode for is_network, mode in modes(top) if is_network)
    return Group("A new mode", over_network), Group("A new kind of transformer", tuple(kinds(top)))


def texts(top: Path) -> dict[str, str]:
    """The text of each file, by its path, without those that a script makes, those of tests and samples."""
    found = {}
    for path in files_below(top):
        name = path.as_posix()
        if name in MADE or name.startswith(GIVEN) or name.endswith(SAMPLES):
            continue
        try:
            found[name] = (top / path).read_text()
        except UnicodeDecodeError:
            continue
    return found


def naming(named: Named, files: dict[str, str]) -> set[str]:
    """The files that name one, outside of its own crate."""
    own = f"crates/{named.crate}/"
    pattern = named.pattern()
    return {name for name, text in files.items() if not (named.crate and name.startswith(own)) and pattern.search(text)}


def naming_all(group: Group, files: dict[str, str]) -> set[str]:
    """The files that name all of a group."""
    found = [naming(named, files) for named in group.members]
    return set.intersection(*found) if found else set()


def points(heading: str, text: str) -> list[list[str]]:
    """The names between backticks in each numbered point of a checklist."""
    start = text.find(f"**{heading}**")
    if start < 0:
        return []
    end = re.search(r"^\*\*", text[start + 2 :], re.MULTILINE)
    section = text[start : start + 2 + end.start()] if end else text[start:]
    return [TOKEN.findall(point) for point in POINT.split(section)[1:]]


def is_end(token: str, parts: tuple[str, ...]) -> bool:
    """Whether a name is that of a file with these parts, or of a folder above that file."""
    wanted = tuple(token.rstrip("/").split("/"))
    places = range(len(parts) - len(wanted) + 1)
    found = (all(fnmatch(part, want) for part, want in zip(parts[place:], wanted)) for place in places)
    in_folder = len(wanted) > 1
    return any(holds and (in_folder or place + len(wanted) == len(parts)) for place, holds in zip(places, found))


def is_named(name: str, checklist: list[list[str]]) -> bool:
    """Whether a checklist names a file."""
    parts = tuple(name.split("/"))
    crate = parts[1] if parts[0] == "crates" and len(parts) > 2 else None
    for tokens in checklist:
        crates = {token.partition("/")[0] for token in tokens}
        if crate and crate not in crates:
            continue
        if any(is_end(token, parts) for token in tokens):
            return True
    return False


def faults(top: Path) -> tuple[int, list[str]]:
    """How many files name all of a group, and which of them a checklist leaves out."""
    files = texts(top)
    text = (top / MAP).read_text()
    count = 0
    told = []
    for group in groups(top):
        if not group.members:
            told.append(f"{group.heading}: nothing is found that it is for")
        checklist = points(group.heading, text)
        if not checklist:
            told.append(f"{MAP}: no checklist **{group.heading}**")
            continue
        for name in sorted(naming_all(group, files) - {MAP}):
            count += 1
            if not is_named(name, checklist):
                told.append(f"{name}: not in the checklist **{group.heading}** of {MAP}")
    return count, told


def listed(top: Path, word: str) -> Optional[list[str]]:
    """The files that name a mode or a kind, or None where none has the word."""
    files = texts(top)
    of_word = {mode.word: mode for _, mode in modes(top)} | {kind.word: kind for kind in kinds(top)}
    if word not in of_word:
        return None
    named = of_word[word]
    shared = {name for group in groups(top) if named in group.members for name in naming_all(group, files)}
    return [f"{name}  all" if name in shared else name for name in sorted(naming(named, files))]


def main(words: list[str]) -> int:
    if len(words) > 1 or any(word.startswith("-") for word in words):
        print(__doc__, file=sys.stderr)
        return 2
    if words:
        lines = listed(TOP, words[0])
        if lines is None:
            print(f"no mode and no kind of transformer is called {words[0]}", file=sys.stderr)
            return 2
        print("\n".join(lines))
        return 0
    count, told = faults(TOP)
    for line in told:
        print(line)
    print(f"{count} files, {len(told)} faults")
    return 1 if told else 0


if __name__ == "__main__":
    sys.exit(main(sys.argv[1:]))
