"""Copies of the files that the program's words name, under names that `rt try` takes."""

import os
from pathlib import Path

FILES = ("--case", "--storm", "--switch", "--cert")
# No more of a file is copied, so that one without an end has one here; the program refuses a quarter of that as too long.
MOST = (64 << 20) + 1
PIECE = 1 << 20


def is_copied(name: str, to: Path) -> bool:
    """Copies what can be read under the name, of a pipe too. What can't be read has no copy, so that the program tells it."""
    try:
        with open(os.fsencode(name), "rb") as file, open(to, "wb") as out:
            left = MOST
            while left and (piece := file.read(min(left, PIECE))):
                left -= out.write(piece)
        return True
    except (OSError, ValueError):
        to.unlink(missing_ok=True)
        return False


def with_copies(words: list[str], folder: Path) -> tuple[list[str], list[str]]:
    """The words with other names for the files, and what tells `rt try` which file each of them is."""
    found: list[str] = []
    data: list[str] = []
    is_behind_option = False
    for place, word in enumerate(words):
        head, equals, value = word.partition("=")
        if is_behind_option:
            head, equals, value, is_behind_option = "", "", word, False
        elif head not in FILES or not equals:
            is_behind_option = word in FILES
            found.append(word)
            continue
        name = f"given-{place}" if value else ""
        if value and is_copied(value, folder / name):
            data += ["--data", f"{name}={folder / name}"]
        found.append(head + equals + name)
    return found, data
