"""The crates of the repository, as crates.txt lists them."""

import re
from dataclasses import dataclass
from pathlib import Path

PROGRAM = "gicstudy"
LINE = re.compile(r"(\w+)([^:]*):(.*)")


class Fault(Exception):
    """What the user is told in one line, before the build ends with status 1."""


def read_text(file: Path) -> str:
    """The text of a file that somebody wrote."""
    try:
        return file.read_text(encoding="utf-8")
    except UnicodeDecodeError:
        raise Fault(f"{file} isn't text in UTF-8") from None


@dataclass(frozen=True)
class Crate:
    """A crate: its line of crates.txt, and the crates of the repository that it names there."""

    name: str
    line: str
    names: tuple[str, ...]


def read_crates(text: str) -> dict[str, Crate]:
    """The crates by their names."""
    lines = [line.partition("#")[0].strip() for line in text.splitlines()]
    found = [(line, LINE.fullmatch(line)) for line in lines if line]
    for line, parts in found:
        if parts is None:
            raise Fault(f"crates.txt: the line '{line}' does not list a crate")
    listed = {parts[1]: (line, parts[3].split()) for line, parts in found if parts}
    return {
        name: Crate(name, line, tuple(it for it in words if it in listed)) for name, (line, words) in listed.items()
    }


def below(crates: dict[str, Crate], name: str) -> list[Crate]:
    """The crates on which the named one stands, each behind those that it stands on itself."""
    found: dict[str, Crate] = {}

    def visit(crate: Crate, above: tuple[str, ...]) -> None:
        if crate.name in above:
            raise Fault(f"crates.txt: {crate.name} depends on itself")
        for it in crate.names:
            if it not in found:
                visit(crates[it], (*above, crate.name))
        found.setdefault(crate.name, crate)

    if name not in crates:
        raise Fault(f"crates.txt doesn't list {name}")
    visit(crates[name], ())
    return [it for it in found.values() if it.name != name]
