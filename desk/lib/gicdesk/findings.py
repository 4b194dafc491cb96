"""What is wrong with a file, each finding with its place."""

import contextlib
import dataclasses
import difflib
from collections.abc import Iterable, Iterator, Sequence

SHOWN = 20  # the most findings of a file that are told
ALSO = 12  # the most lines that are named of findings that say the same


@dataclasses.dataclass(frozen=True)
class Finding:
    """One thing that is wrong: file, line and column as far as there are any, and what is allowed and what to do."""

    file: str
    words: str
    line: int | None = None
    column: str | None = None

    def __str__(self) -> str:
        place = self.file
        if self.line is not None:
            place += f" line {self.line}"
        if self.column is not None:
            place += f", {self.column}"
        return visible(f"{place}: {self.words}")


@dataclasses.dataclass
class Hints:
    """The names that are nearest to wrong ones, looked for while they will be shown."""

    found: dict[tuple[str, str], str] = dataclasses.field(default_factory=dict)

    def ways(self, name: str, names: Iterable[str], purpose: str, otherwise: str = "look at the names of the case") -> str:
        """What to do about a name that is none of these, which are those for a purpose."""
        if (name, purpose) not in self.found and len(self.found) < SHOWN:
            self.found[name, purpose] = "".join(difflib.get_close_matches(name, sorted(names), 1))
        near = self.found.get((name, purpose))
        return f"is it {near}?" if near else otherwise


class Refused(Exception):
    """What a command doesn't go on with."""

    def __init__(self, findings: Sequence[Finding]) -> None:
        super().__init__(findings)
        self.findings = findings

    def lines(self) -> list[str]:
        """A line for each finding, as far as they are told; those that differ in their lines alone have one together."""
        alike: dict[Finding, list[Finding]] = {}
        for finding in self.findings:
            alike.setdefault(dataclasses.replace(finding, line=None), []).append(finding)
        groups = list(alike.values())
        lines = [str(first) + also(rest) for first, *rest in groups[:SHOWN]]
        left = sum(len(group) for group in groups[SHOWN:])
        return [*lines, f"and {left} more"] if left else lines


@contextlib.contextmanager
def collected(findings: list[Finding]) -> Iterator[None]:
    """Adds what is refused within to the findings."""
    try:
        yield
    except Refused as refused:
        findings += refused.findings


def also(rest: Sequence[Finding]) -> str:
    """The lines of further findings that say the same; nothing where there are none."""
    numbers = [str(finding.line) for finding in rest if finding.line is not None]
    if not numbers:
        return ""
    more = f" and {len(numbers) - ALSO} more" if len(numbers) > ALSO else ""
    return f"; so also in {'line' if len(numbers) == 1 else 'lines'} {', '.join(numbers[:ALSO])}{more}"


def refuse(file: str, words: str, line: int | None = None, column: str | None = None) -> Refused:
    """The refusal of one finding."""
    return Refused([Finding(file, words, line, column)])


def shown(value: str, longest: int = 60) -> str:
    """A value of a file as findings tell it: in quotes, cut where it is longer, and printable."""
    cut = value if len(value) <= longest else value[: longest - 3] + ".."
    return f'"{visible(cut)}"'


def visible(text: str) -> str:
    """A text of one line in which each letter is seen: a line feed, a control character and what else has no shape as its
    number."""
    if text.isprintable():
        return text
    return "".join(letter if letter.isprintable() else numbered(ord(letter)) for letter in text)


def numbered(letter: int) -> str:
    return f"\\x{letter:02x}" if letter < 0x100 else f"\\u{letter:04x}" if letter < 0x10000 else f"\\U{letter:08x}"
