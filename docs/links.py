#!/usr/bin/env python3
"""Looks for dead links in the documents.

    python3 docs/links.py

Each file `*.md` of the repository is read. A link to a file must lead to one that is there, and a link to a part of a
document to one of its headings. A file that is named between backticks with its ending (`.antt`, `.rt`, `.edit`, `.py`,
`.sh`, `.md`, `.c`, `.m`, `.h`) must be there under that name, in some folder; only the parts of a path that are named
are compared. Names with `NAME`, `CRATE`, `FILE` or `gic_x` in them, and fenced blocks, aren't looked at. The last line
is `N links and names, M dead`, and the status is 0 only where M is 0.
"""

from __future__ import annotations

import re
import sys
from pathlib import Path
from typing import Iterator

TOP = Path(__file__).resolve().parent.parent
LINK = re.compile(r"\[[^\]]*\]\(([^)\s]+)\)")
NAME = re.compile(r"`((?:[\w.-]+/)*[\w-]+\.(?:antt|rt|edit|py|sh|md|c|m|h))`")
FENCE = re.compile(r"^```.*?^```$", re.MULTILINE | re.DOTALL)
PLACEHOLDER = re.compile(r"NAME|CRATE|FILE|gic_x")
LEFT_OUT = {"out", "target", "__pycache__", ".git"}


def files_below(top: Path) -> list[Path]:
    """All files of the repository but what is built, relative to its top."""
    return [
        path.relative_to(top)
        for path in sorted(top.rglob("*"))
        if path.is_file() and not LEFT_OUT & set(path.relative_to(top).parts)
    ]


def anchor(heading: str) -> str:
    """The name by which a link reaches a heading."""
    kept = re.sub(r"[^\w\- ]", "", heading.strip().lower())
    return kept.replace(" ", "-")


def anchors(text: str) -> set[str]:
    """The names of all headings of a document."""
    return {anchor(heading) for heading in re.findall(r"^#+ (.*)$", FENCE.sub("", text), re.MULTILINE)}


def endings(files: list[Path]) -> set[str]:
    """Each path, and each end of it that begins at a folder."""
    return {"/".join(path.parts[start:]) for path in files for start in range(len(path.parts))}


def dead(document: Path, text: str, top: Path, ends: set[str]) -> Iterator[tuple[str, bool]]:
    """Each link and each named file of a document, with whether it is dead."""
    plain = FENCE.sub("", text)
    for link in LINK.findall(plain):
        if re.match(r"[a-z]+:", link):
            continue
        place, _, part = link.partition("#")
        target = (top / document).parent / place if place else top / document
        is_dead = not target.exists()
        if part and not is_dead:
            is_dead = part not in anchors(target.read_text(encoding="utf-8"))
        yield link, is_dead
    for name in NAME.findall(plain):
        if not PLACEHOLDER.search(name):
            yield name, name not in ends


def main(words: list[str]) -> int:
    if words:
        print(__doc__.strip(), file=sys.stdout if words in (["--help"], ["-h"]) else sys.stderr)
        return 0 if words in (["--help"], ["-h"]) else 2
    try:
        files = files_below(TOP)
        ends = endings(files)
        documents = [path for path in files if path.suffix == ".md"]
        looked = [(path, found) for path in documents for found in dead(path, (TOP / path).read_text(encoding="utf-8"), TOP, ends)]
    except (OSError, UnicodeDecodeError) as error:
        print(f"links.py: {error}", file=sys.stderr)
        return 1
    faults = [f"{path}: {name}" for path, (name, is_dead) in looked if is_dead]
    for fault in faults:
        print(fault)
    print(f"{len(looked)} links and names, {len(faults)} dead")
    return 1 if faults else 0


if __name__ == "__main__":
    sys.exit(main(sys.argv[1:]))
