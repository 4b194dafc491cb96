#!/usr/bin/env python3
"""Makes the index of all definitions, docs/INDEX.md, and checks it.

    python3 docs/definitions.py [--write]

The index has each file of definitions, `crates/NAME/specs/FILE.antt`, once: first those that the headline leads to,
numbered in the order in which a reader comes to them who follows what is cited, step by step; then those that theorems lead
to; then the others. A crate's definitions stand together in each of the three. With each file of the first two stands the first
sentence of its head; the others, which only contracts within the program cite, stand by their names.

Without --write it compares docs/INDEX.md with what it makes. It also looks whether each file begins with a remark,
whether each is cited, whether docs/DEFINITIONS.md names none that isn't there, and whether each crate of crates.txt
stands once in the first column of the tables of crates in docs/PROMISES.md and in crates/README.md, and no other.
The last line is `N definitions, M faults`, and the status is 0 only where M is 0.
"""

from __future__ import annotations

import re
import sys
import textwrap
from dataclasses import dataclass, field
from pathlib import Path

TOP = Path(__file__).resolve().parent.parent
INDEX = "docs/INDEX.md"
WORDS = "docs/DEFINITIONS.md"
PROMISES = "docs/PROMISES.md"
CRATES = "crates/README.md"
HEADLINE = "crates/gic_headline/src/program.rt"
MOST_COLUMNS = 500  # of a line of the index
CITED = re.compile(r"Rattle\.(gic_\w+)\.specs\.([A-Z]\w*)")
NAMED = re.compile(r"`(\w+\.antt)`")
HEAD = """# Index of the definitions

Made by `python3 docs/definitions.py --write`, which without `--write` checks it.
[DEFINITIONS.md](DEFINITIONS.md) says how to read them. `Y` in the row of `gic_x`, and `gic_x/Y` elsewhere, is the file
`crates/gic_x/specs/Y.antt`. Its first lines say what it defines, and `grep -rn gic_x.specs.Y crates` where it is cited.
"""
PARTS = (
    "What the headline leads to, numbered in reading order",
    "What theorems lead to besides",
    "What other contracts cite, by name",
)


@dataclass
class Definition:
    """One file of definitions: `gic_x/Y`."""

    name: str
    says: str  # the first sentence of its head, or nothing
    cites: list[str]  # other definitions, in order
    cited_in: list[str] = field(default_factory=list)  # `gic_x/Y` or `gic_x/y.rt`


def sentence_of(text: str) -> str:
    """The first sentence of the remark at the head of a file."""
    lines: list[str] = []
    for line in text.splitlines():
        if not line.startswith("--"):
            break
        lines.append(line.removeprefix("--").strip())
    sentence = re.match(r".*?\.(?=\s|$)", " ".join(lines))
    return sentence[0].removesuffix(".") if sentence else " ".join(lines)


def cited_by(text: str) -> list[str]:
    """The definitions that a text cites, each once, in order."""
    return list(dict.fromkeys(f"{crate}/{file}" for crate, file in CITED.findall(text)))


def crate_names(text: str) -> list[str]:
    """The crates of crates.txt, in its order."""
    return [line.partition(":")[0] for line in text.splitlines() if line.strip() and not line.startswith("#")]


def definitions(top: Path, crates: list[str]) -> dict[str, Definition]:
    """All definitions, crate by crate, with where each is cited."""
    found: dict[str, Definition] = {}
    for crate in crates:
        for path in sorted((top / "crates" / crate / "specs").glob("*.antt")):
            if path.stem != "Lib":
                text = path.read_text(encoding="utf-8")
                name = f"{crate}/{path.stem}"
                found[name] = Definition(name, sentence_of(text), [other for other in cited_by(text) if other != name])
    for definition in found.values():
        for other in definition.cites:
            if other in found:
                found[other].cited_in.append(definition.name)
    for crate in crates:
        for path in sorted((top / "crates" / crate / "src").glob("**/*.rt")):
            for other in cited_by(path.read_text(encoding="utf-8")):
                if other in found:
                    found[other].cited_in.append(f"{crate}/{path.name}")
    return found


def reached(found: dict[str, Definition], first: list[str], known: set[str]) -> list[str]:
    """The definitions that one comes to from the first ones, step by step, but those that are known."""
    order: list[str] = []
    waiting = list(first)
    seen = set(known)
    while waiting:
        later: list[str] = []
        for name in waiting:
            if name in found and name not in seen:
                seen.add(name)
                order.append(name)
                later.extend(found[name].cites)
        waiting = later
    return order


def in_parts(top: Path, crates: list[str], found: dict[str, Definition]) -> list[list[str]]:
    """The names of all definitions, in the three parts of the index."""
    headline = reached(found, cited_by((top / HEADLINE).read_text(encoding="utf-8")), set())
    files = [top / "crates" / crate / "src" / "laws.rt" for crate in crates]
    laws = [other for path in files if path.exists() for other in cited_by(path.read_text(encoding="utf-8"))]
    by_laws = reached(found, laws, set(headline))
    rest = [name for name in found if name not in set(headline) | set(by_laws)]
    return [headline, by_laws, rest]


def crate_rows(found: dict[str, Definition], names: list[str], numbered: bool) -> list[str]:
    """Rows for each crate, with those of its definitions that are named, crates and definitions in the order of names.

    Where they are numbered each has its place among the names. Crates of which the same is told have rows together. What
    doesn't fit a line goes on in a row without a crate.
    """
    cells: dict[str, list[str]] = {}
    for place, name in enumerate(names, 1):
        crate, _, file = name.partition("/")
        number = f"{place} " if numbered else ""
        cells.setdefault(crate, []).append(f"{number}**{file}**: {found[name].says}.")
    alike: dict[tuple[str, ...], list[str]] = {}
    for crate, told in cells.items():
        alike.setdefault(tuple(told), []).append(crate)
    return [row for told_of, names_alike in alike.items() for row in rows_within(", ".join(names_alike), told_of)]


def name_lines(names: list[str]) -> list[str]:
    """The names of definitions by crate, in lines of at most MOST_COLUMNS."""
    by_crate: dict[str, list[str]] = {}
    for name in names:
        crate, _, file = name.partition("/")
        by_crate.setdefault(crate, []).append(file)
    told = [f"{crate} {', '.join(files)}" for crate, files in by_crate.items()]
    return textwrap.wrap("; ".join(told) + ".", MOST_COLUMNS, break_long_words=False, break_on_hyphens=False) if told else []


def rows_within(head: str, told: tuple[str, ...]) -> list[str]:
    """Rows of what is told, the first with this head, of as few lines within MOST_COLUMNS as its order allows."""
    rows: list[str] = []
    row = f"| {head} |"
    for cell in told:
        if len(row) + len(cell) + 3 > MOST_COLUMNS and not row.endswith("|"):
            rows.append(row + " |")
            row = "| |"
        row += " " + cell
    return [*rows, row + " |"]


def index_of(found: dict[str, Definition], parts: list[list[str]]) -> str:
    """The text of the index."""
    lines = [HEAD]
    for title, names in zip(PARTS, parts):
        order = names if title == PARTS[0] else [name for name in found if name in names]
        if title == PARTS[-1]:
            lines += [f"## {title}\n", *name_lines(order)]
        else:
            lines += [f"## {title}\n\n| crate | definitions |\n|---|---|", *crate_rows(found, order, title == PARTS[0])]
        lines.append("")
    return "\n".join(lines)


def odd_crates(text: str, crates: list[str], place: str = PROMISES) -> list[str]:
    """The crates that don't stand once in the table of crates, and those that stand there and aren't any."""
    table = text.partition("\n## Crates\n")[2].partition("\n## ")[0]
    rows = [line.split("|")[1] for line in table.splitlines() if line.startswith("|")]
    named = [name for row in rows for name in re.findall(r"`(gic\w+)`", row)]
    odd = [name for name in dict.fromkeys(crates + named) if name not in crates or named.count(name) != 1]
    return [f"{place} has {name} {named.count(name)} times in its table of crates" for name in odd]


def faults_of(found: dict[str, Definition], index: str, shown: str, words: str) -> list[str]:
    """What is wrong with the definitions, the index that is shown, and the document of words."""
    files = {name.partition("/")[2] + ".antt" for name in found}
    faults = [f"{name} begins with no remark" for name, definition in found.items() if not definition.says]
    faults += [f"{name} is cited nowhere" for name, definition in found.items() if not definition.cited_in]
    faults += [f"{WORDS} names {name}, which isn't there" for name in sorted(set(NAMED.findall(words)) - files)]
    if index != shown:
        faults.append(f"{INDEX} isn't the index that is made today; run `python3 docs/definitions.py --write`")
    return faults


def main(words: list[str]) -> int:
    if words not in ([], ["--write"]):
        print(__doc__.strip(), file=sys.stdout if words in (["--help"], ["-h"]) else sys.stderr)
        return 0 if words in (["--help"], ["-h"]) else 2
    try:
        crates = crate_names((TOP / "crates.txt").read_text(encoding="utf-8"))
        found = definitions(TOP, crates)
        index = index_of(found, in_parts(TOP, crates, found))
        if words:
            (TOP / INDEX).write_text(index, encoding="utf-8")
        shown = (TOP / INDEX).read_text(encoding="utf-8") if (TOP / INDEX).exists() else ""
        faults = faults_of(found, index, shown, (TOP / WORDS).read_text(encoding="utf-8"))
        for place in (PROMISES, CRATES):
            faults += odd_crates((TOP / place).read_text(encoding="utf-8"), crates, place)
    except (OSError, UnicodeDecodeError) as error:
        print(f"definitions.py: {error}", file=sys.stderr)
        return 1
    for fault in faults:
        print(fault)
    print(f"{len(found)} definitions, {len(faults)} faults")
    return 1 if faults else 0


if __name__ == "__main__":
    sys.exit(main(sys.argv[1:]))
