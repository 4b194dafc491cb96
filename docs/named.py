#!/usr/bin/env python3
"""Looks whether each name that the interface was planned with is a public item today, or has a row in NAMED.md.

    python3 docs/named.py

`named.txt` has the names, one a line: the crate that was planned for it, and the name; a call of a type is `TYPE::CALL`. The first
table of `NAMED.md` has for each planned crate the crates of `crates.txt` that make it up today. A name is there where one of these
has it as a public item: at the root of the crate, in a public module, or as a call of such a type or trait. Each other name has a
row in the second table, and no row is of a name that is there; a name whose row is marked `changed` is there, but another way of
calling it. The last line is `N names, M faults`, and the status is 0 only where M is 0.
"""

from __future__ import annotations

import re
import sys
from dataclasses import dataclass, field
from pathlib import Path

TOP = Path(__file__).resolve().parent.parent
# An item of a module that others may use, and one of an `impl` or a `trait`.
ITEM = re.compile(r"^pub (?:const |static )?(?:fn|struct|enum|trait|type|const) (\w+)")
BLOCK = re.compile(r"^(pub trait|impl)\b(.*)")
CALL = re.compile(r"^    (pub )?fn (\w+)")
USE = re.compile(r"^pub use ([^;]+);", re.MULTILINE)
MODULE = re.compile(r"^pub mod (\w+);", re.MULTILINE)
CODE = re.compile(r"`([^`]+)`")


@dataclass
class Public:
    """What a crate has for others: its items, and the calls of its types and traits."""

    items: set[str] = field(default_factory=set)
    calls: set[str] = field(default_factory=set)

    def has(self, name: str) -> bool:
        kind, _, call = name.partition("::")
        return kind in self.items and (not call or name in self.calls)


@dataclass(frozen=True)
class Name:
    """A planned name, and the crate that was planned for it."""

    crate: str
    name: str

    def __str__(self) -> str:
        return f"{self.name} of {self.crate}"


def type_of(head: str) -> str:
    """The type of an `impl`, or the trait of a `trait`: `<T: X> Trait for Type<T> {` is of `Type`."""
    plain = head
    while (shorter := re.sub(r"<[^<>]*>", "", plain)) != plain:
        plain = shorter
    found = re.search(r"(\w+)\W*$", plain.partition("{")[0].partition(" where ")[0].partition(":")[0])
    return found[1] if found else ""


def calls_in(text: str) -> set[str]:
    """The calls of types and traits in a file."""
    found: set[str] = set()
    owner, is_open = "", False
    for line in text.splitlines():
        block = BLOCK.match(line)
        if block:
            owner = type_of(block[2])
            is_open = block[1] == "pub trait" or re.search(r"\bfor\b", re.sub(r"<[^<>]*>", "", block[2])) is not None
        elif line.startswith("}"):
            owner = ""
        elif owner and (call := CALL.match(line)) and (call[1] or is_open):
            found.add(f"{owner}::{call[2]}")
    return found


def names_used(text: str) -> set[str]:
    """The names that a file hands on by `pub use`."""
    found: set[str] = set()
    for words in USE.findall(text):
        _, brace, inside = words.partition("{")
        for it in inside.rstrip("} \n").split(",") if brace else [words]:
            name = re.split(r"::| as ", it.strip())[-1].strip()
            found |= {name} if name else set()
    return found


def public_of(source: Path) -> Public:
    """What a crate with this folder `src` has for others."""
    root = next((source / it for it in ("lib.rt", "main.rt") if (source / it).is_file()), None)
    if root is None:
        raise ValueError(f"{source} has neither lib.rt nor main.rt")
    text = root.read_text(encoding="utf-8")
    found = Public(names_used(text))
    is_program = root.name == "main.rt"
    open_files = [root, *(source / f"{it}.rt" for it in MODULE.findall(text))]
    for file in sorted(source.rglob("*.rt")):
        lines = file.read_text(encoding="utf-8")
        found.calls |= calls_in(lines)
        if file in open_files:
            found.items |= {match[1] for line in lines.splitlines() if (match := ITEM.match(line))}
    if is_program and re.search(r"^fn main\(", text, re.MULTILINE):
        found.items.add("main")
    return found


def read_names(text: str) -> list[Name]:
    return [Name(*line.split()) for line in text.splitlines() if line and not line.startswith("#")]


def rows_of(text: str, heading: str) -> list[list[str]]:
    """The rows of the table under a heading, cell by cell."""
    _, _, below = text.partition(f"\n## {heading}\n")
    lines = [it for it in below.partition("\n## ")[0].splitlines() if it.startswith("|")]
    return [[cell.strip() for cell in line.strip("|").split(" | ")] for line in lines[2:]]


def crates_today(text: str) -> dict[str, list[str]]:
    """For each planned crate those that make it up today."""
    return {CODE.findall(row[0])[0]: CODE.findall(row[1]) for row in rows_of(text, "Crates")}


@dataclass(frozen=True)
class Row:
    """A row of the table of names."""

    names: tuple[Name, ...]
    is_changed: bool
    cells: tuple[str, ...]


def read_rows(text: str) -> list[Row]:
    """The rows of the table of names: in the first cell the names, with `changed` behind them or not; in the second their crate."""
    found = []
    for cells in rows_of(text, "Calls and types"):
        crate = CODE.findall(cells[1])[0] if len(cells) > 1 and CODE.findall(cells[1]) else ""
        names = tuple(Name(crate, it) for it in CODE.findall(cells[0]))
        found.append(Row(names, cells[0].endswith("changed"), tuple(cells)))
    return found


def faults(names: list[Name], document: str, listed: set[str], public: dict[str, Public]) -> list[str]:
    """What is wrong with the list and the tables."""
    crates, rows = crates_today(document), read_rows(document)
    found = [f"{it} has no row in the table of crates" for it in sorted({name.crate for name in names} - {*crates})]
    found += [f"{it}: crates.txt doesn't list {one}" for it, today in crates.items() for one in today if one not in listed]
    found += [f"a row isn't of four cells, each with words: {row.cells[0]}" for row in rows if len(row.cells) != 4 or not all(row.cells)]
    told = [(name, row.is_changed) for row in rows for name in row.names]
    for name in names:
        is_there = any(public[it].has(name.name) for it in crates.get(name.crate, []) if it in public)
        own = [is_changed for one, is_changed in told if one == name]
        if not is_there and True not in own and False not in own:
            found.append(f"{name} is no public item and has no row")
        if is_there and False in own:
            found.append(f"{name} is a public item, and its row says that it is none")
        if not is_there and True in own:
            found.append(f"{name} is no public item, and its row says that it is changed")
        if len(own) > 1:
            found.append(f"{name} has {len(own)} rows")
    return found + [f"{name} has a row and isn't in named.txt" for name, _ in told if name not in names]


def main(words: list[str], top: Path = TOP) -> int:
    if words:
        print((__doc__ or "").strip(), file=sys.stdout if words in (["--help"], ["-h"]) else sys.stderr)
        return 0 if words in (["--help"], ["-h"]) else 2
    try:
        names = read_names((top / "docs/named.txt").read_text(encoding="utf-8"))
        lines = (top / "crates.txt").read_text(encoding="utf-8").splitlines()
        listed = {line.partition(":")[0].split()[0] for line in lines if line.strip() and not line.startswith("#")}
        public = {it: public_of(top / "crates" / it / "src") for it in sorted(listed)}
        found = faults(names, (top / "docs/NAMED.md").read_text(encoding="utf-8"), listed, public)
    except (OSError, UnicodeDecodeError, ValueError, TypeError, IndexError) as error:
        print(f"named.py: {error}", file=sys.stderr)
        return 1
    for fault in found:
        print(fault)
    print(f"{len(names)} names, {len(found)} faults")
    return 1 if found else 0


if __name__ == "__main__":
    sys.exit(main(sys.argv[1:]))
