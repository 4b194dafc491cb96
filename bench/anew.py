#!/usr/bin/env python3
"""Counts, from crates.txt, how many crates stand below a crate, and how many are proved anew when it changes: itself and
all that stand on it.

    python3 bench/anew.py [NAME..]

Without names it counts for each crate, in the order of crates.txt. Libraries of the toolchain are not counted.
"""

from __future__ import annotations

import sys

from paths import TOP  # which finds the modules below

from crates import Fault, below, read_crates, read_text


def all_below(text: str) -> dict[str, set[str]]:
    """The crates of a list, and all that each stands on, through others too."""
    crates = read_crates(text)
    return {name: {it.name for it in below(crates, name)} for name in crates}


def anew(stands_on: dict[str, set[str]], changed: str) -> set[str]:
    """The crates that are proved anew when one changes."""
    return {changed} | {name for name, others in stands_on.items() if changed in others}


def main(names: list[str]) -> int:
    if names in (["--help"], ["-h"]):
        print((__doc__ or "").strip())
        return 0
    try:
        stands_on = all_below(read_text(TOP / "crates.txt"))
    except (OSError, Fault) as error:
        print(f"anew.py: {error}", file=sys.stderr)
        return 1
    unknown = [name for name in names if name not in stands_on]
    if unknown:
        print(f"anew.py: no crate of this name: {unknown[0]}", file=sys.stderr)
        return 1
    print("crate below anew")
    for name in names or stands_on:
        print(name, len(stands_on[name]), len(anew(stands_on, name)))
    return 0


if __name__ == "__main__":
    sys.exit(main(sys.argv[1:]))
