#!/usr/bin/env python3
"""Looks whether each library that the work was asked to stand on is listed, used and named.

    python3 docs/libraries.py

The case is read by `toml`, storms and switchings by `csv`, the command line by `clap`; numbers are printed by `itoa`, and the refusals
of the readers are error types by `thiserror`. Each of these must stand in `crates.txt` for some crate; each crate that lists one must
use it in its `src`, by `use NAME`, a path `NAME::` or a derive; and `README.md`, `ARCHITECTURE.md`, `docs/PROMISES.md` and
`CONTRIBUTING.md` must name it between backticks. The last line is `N libraries, M faults`, and the status is 0 only where M is 0.
"""

from __future__ import annotations

import re
import sys
from pathlib import Path

TOP = Path(__file__).resolve().parent.parent
LIBRARIES = ("toml", "csv", "clap", "itoa", "thiserror")
DOCUMENTS = ("README.md", "ARCHITECTURE.md", "docs/PROMISES.md", "CONTRIBUTING.md")
COMMENT = re.compile(r"//.*")


def crates_with(text: str, library: str) -> list[str]:
    """The crates of crates.txt that list a library."""
    lines = [line.partition("#")[0].partition(":") for line in text.splitlines()]
    return [head.split()[0] for head, _, names in lines if head.strip() and library in names.split()]


def is_used(source: Path, library: str) -> bool:
    """Whether the code of a crate names the library: its path, or the library alone in a `use`."""
    name = re.compile(rf"(?<![\w:]){library}::|\buse {library}\b")
    return any(name.search(COMMENT.sub("", file.read_text(encoding="utf-8"))) for file in sorted(source.rglob("*.rt")))


def faults(top: Path) -> list[str]:
    """What is missing of the libraries."""
    listed = (top / "crates.txt").read_text(encoding="utf-8")
    documents = {it: (top / it).read_text(encoding="utf-8") for it in DOCUMENTS}
    found: list[str] = []
    for library in LIBRARIES:
        crates = crates_with(listed, library)
        if not crates:
            found.append(f"crates.txt lists {library} for no crate")
        found += [f"{crate} lists {library} and doesn't use it" for crate in crates if not is_used(top / "crates" / crate / "src", library)]
        found += [f"{name} doesn't name `{library}`" for name, text in documents.items() if f"`{library}`" not in text]
    return found


def main(words: list[str], top: Path = TOP) -> int:
    if words:
        print((__doc__ or "").strip(), file=sys.stdout if words in (["--help"], ["-h"]) else sys.stderr)
        return 0 if words in (["--help"], ["-h"]) else 2
    try:
        found = faults(top)
    except (OSError, UnicodeDecodeError) as error:
        print(f"libraries.py: {error}", file=sys.stderr)
        return 1
    for fault in found:
        print(fault)
    print(f"{len(LIBRARIES)} libraries, {len(found)} faults")
    return 1 if found else 0


if __name__ == "__main__":
    sys.exit(main(sys.argv[1:]))
