#!/usr/bin/env python3
"""Runs what the documents show, and compares what is printed with what stands there.

    python3 examples/documents.py [--write] PROGRAM

`examples/documents.sh` calls it. Each document is run from its top to its end in a folder of its own, in which
`./gicstudy` is the program and the folders `desk`, `docs`, `examples` and `independent` have their names; a file that one
block makes is there for those below it. This is how a fenced block is tied to what it shows:

- A block marked `sh` holds commands. They are run and must end with status 0. A line that begins with `rt ` builds or
  proves, and is not run. A block marked `text` is what the commands of the last such block print.
- A block behind `<!-- runs: COMMAND -->` is what the command prints, whatever its status.
- A block behind `<!-- file: NAME -->` is a file. Where the name has a folder, it is a file of the repository, and the
  block must be lines of it, one after another; else the file is made.
- A block behind `<!-- from: FILE -->` is taken from a file of the repository: what stands between two empty lines of
  the block stands so in the file, in the same order.
- A block behind `<!-- form: COMMAND -->` is the form of what the command prints, with words in capitals for what
  varies: each line that is printed has the form of a line of the block, and each line of the block is the form of one.
  With a line `..` in the block other lines may be printed too.
- A block behind `<!-- not run -->` is not looked at.
- A block marked `toml` that nothing above ties is a part of a case, and must be TOML. One marked `rust` that nothing
  above ties is not looked at.
- Any other block is what the last command prints that the paragraph in front of it names, as `./gicstudy ..`.

What is printed is what comes on both streams, and a line `..` stands for any lines of it. A command that a paragraph
names is run too, and must end with status 0, unless a part of it is left open: it has no option, or has `..`, or a
value in capitals, as `--case=FILE`. In a table with the heads `words` and `line` the first column has words for the
program, and the second the line that they get. The lines of faults in the tables of docs/FAULTS.md are those of
docs/FORMATS.md.

With --write what is printed is put into the documents in place of what differs. The last line is `N blocks, M differ`,
with commands and rows of tables counted as blocks; the status is 0 only where M is 0.
"""

import os
import re
import subprocess
import sys
import tempfile
import tomllib
from typing import Iterator, NamedTuple

TOP = os.path.dirname(os.path.dirname(os.path.abspath(__file__)))
DOCUMENTS = [
    "README.md",
    "docs/STUDY.md",
    "docs/MODELLING.md",
    "docs/FORMATS.md",
    "docs/FAULTS.md",
    "docs/MONITORS.md",
    "independent/README.md",
]
SECONDS = 600  # how long the commands of one block may take
COMMENT = re.compile(r"<!-- (?:(runs|file|from|form): (.*)|(not run)) -->")
COMMAND = re.compile(r"`(\./gicstudy [^`]*)`")
LEFT_OPEN = re.compile(r"^[^=]*$|=[A-Z]+( |$)|\.\.( |$)")
FAULT_LINE = re.compile(r"^\| `(gicstudy: (?:usage|case|storm|switch|cert): [^`]*)`", re.MULTILINE)


class Block(NamedTuple):
    """A fenced block, a command that a paragraph names, or a row of a table of words."""

    place: int  # the line of the document at which it begins, from 0
    kind: str  # `sh`, `text`, `toml`, `runs`, `file`, `from`, `form`, `not run`, `untied`, `command` or `row`
    about: str  # the command or the file
    lines: list[str]


def table_blocks(lines: list[str]) -> Iterator[Block]:
    """The rows of tables with the heads `words` and `line`."""
    inside = False
    for place, line in enumerate(lines):
        if line.startswith("| words | line |"):
            inside = True
        elif not line.startswith("|"):
            inside = False
        elif inside and not line.startswith("|--"):
            words, told = (cell.strip().strip("`") for cell in line.strip("|").split("|"))
            yield Block(place, "row", "./gicstudy " + ("" if words == "no words" else words), [told])


def tie_of(language: str, comment: re.Match[str] | None, commands: list[str]) -> tuple[str, str]:
    """How a block is tied, and to what."""
    if comment:
        return comment[1] or comment[3], comment[2] or ""
    if language in ("sh", "text", "toml"):
        return language, ""
    if language == "rust":
        return "not run", ""
    return ("runs", commands[-1]) if commands else ("untied", "")


def blocks_of(text: str) -> list[Block]:
    """The blocks of a document, in order."""
    lines = text.split("\n")
    blocks: list[Block] = []
    commands: list[str] = []
    comment: re.Match[str] | None = None
    fence: int | None = None
    tie = "untied", ""
    for place, line in enumerate(lines):
        if fence is not None:
            if line == "```":
                blocks.append(Block(fence, tie[0], tie[1], lines[fence + 1 : place]))
                fence, comment, commands = None, None, []
        elif line.startswith("```"):
            fence = place
            tie = tie_of(line[3:], comment, commands)
            if tie[0] == "runs" and comment is None:
                blocks.pop()  # the command is run for the block
        elif found := COMMENT.fullmatch(line):
            comment = found
        elif line:
            named = [command for command in COMMAND.findall(line) if not LEFT_OPEN.search(command)]
            blocks.extend(Block(place, "command", command, []) for command in named)
            commands = (commands if lines[place - 1] else []) + named
    return sorted(blocks + list(table_blocks(lines)), key=lambda block: block.place)


def is_shown(shown: list[str], printed: list[str]) -> bool:
    """Whether lines are those that were printed, where `..` stands for any lines."""
    pattern = "".join(r"(?:.*\n)*" if line == ".." else re.escape(line) + "\n" for line in shown)
    return re.fullmatch(pattern, "".join(line + "\n" for line in printed)) is not None


def has_form(forms: list[str], printed: list[str]) -> bool:
    """Whether each line that was printed has one of these forms, and each form is that of one."""
    patterns = [re.compile(re.sub(r"\b[A-Z]+\b", r"\\S+", re.escape(form))) for form in forms if form != ".."]
    covered = all(any(pattern.fullmatch(line) for line in printed) for pattern in patterns)
    within = all(any(pattern.fullmatch(line) for pattern in patterns) for line in printed)
    return covered and (within or ".." in forms)


def stands_in(lines: list[str], text: str) -> bool:
    """Whether what stands between empty lines stands so in a text, in the same order."""
    at = 0
    for part in re.split(r"\n\n+", "\n".join(lines).strip("\n")):
        at = ("\n" + text).find("\n" + part + "\n", at)
        if at < 0:
            return False
        at += len(part)
    return True


def is_toml(lines: list[str]) -> bool:
    try:
        tomllib.loads("\n".join(lines))
    except tomllib.TOMLDecodeError:
        return False
    return True


def text_of(path: str) -> str:
    with open(os.path.join(TOP, path)) as file:
        return file.read()


class Workplace:
    """The folder in which one document is run."""

    def __init__(self, folder: str, program: str) -> None:
        self.folder = folder
        self.printed: list[str] = []  # by the last block of commands
        os.symlink(program, os.path.join(folder, "gicstudy"))
        for name in ("desk", "docs", "examples", "independent"):
            os.symlink(os.path.join(TOP, name), os.path.join(folder, name))

    def run(self, commands: str) -> tuple[bool, list[str]]:
        """Whether commands end with status 0, and the lines that they print."""
        done = subprocess.run(
            ["bash", "-c", commands],
            cwd=self.folder,
            stdin=subprocess.DEVNULL,
            stdout=subprocess.PIPE,
            stderr=subprocess.STDOUT,
            timeout=SECONDS,
            text=True,
        )
        return done.returncode == 0, done.stdout.split("\n")[:-1]

    def is_file(self, name: str, lines: list[str]) -> bool:
        """Whether the file of the repository has these lines; a name without a folder is made."""
        text = "".join(line + "\n" for line in lines)
        if "/" in name:
            return "\n" + text in "\n" + text_of(name)
        with open(os.path.join(self.folder, name), "w") as file:
            file.write(text)
        return True

    def look(self, block: Block) -> tuple[bool, list[str]]:
        """Whether a block is right, and what is printed in its place."""
        if block.kind == "command":
            return self.run(block.about)
        if block.kind == "sh":
            commands = [line for line in block.lines if not line.startswith("rt ")]
            ended, self.printed = self.run("\n".join(["set -e", *commands]))
            return ended, self.printed
        if block.kind == "text":
            return is_shown(block.lines, self.printed), self.printed
        if block.kind in ("runs", "row", "form"):
            _, printed = self.run(block.about)
            return (has_form if block.kind == "form" else is_shown)(block.lines, printed), printed
        if block.kind == "from":
            return stands_in(block.lines, text_of(block.about)), ["the file doesn't have these lines"]
        if block.kind == "file":
            return self.is_file(block.about, block.lines), ["the file has other lines"]
        if block.kind == "toml":
            return is_toml(block.lines), ["it isn't TOML"]
        return False, ["nothing ties it"]


def put_in(shown: list[str], printed: list[str]) -> list[str]:
    """What is printed in place of what is shown. Between two lines `..` a line is found by its words but the last two,
    which are an interval."""
    if ".." not in shown:
        return printed
    front, back = shown.index(".."), shown[::-1].index("..")
    by_words = {line.rsplit(" ", 2)[0]: line for line in printed}
    middle = [by_words.get(line.rsplit(" ", 2)[0], line) for line in shown[front : len(shown) - back]]
    return printed[:front] + middle + printed[len(printed) - back :]


def rewritten(text: str, differing: list[tuple[Block, list[str]]]) -> str:
    """A document with what is printed in place of what differs."""
    lines = text.split("\n")
    for block, printed in reversed(differing):
        if block.kind in ("runs", "text"):
            first = block.place + 1
            lines[first : first + len(block.lines)] = put_in(block.lines, printed)
    return "\n".join(lines)


def look_at(document: str, program: str, write: bool) -> tuple[int, int]:
    """How many blocks a document has, and how many of them differ; each that does is told."""
    text = text_of(document)
    blocks = [block for block in blocks_of(text) if block.kind != "not run"]
    differing = []
    with tempfile.TemporaryDirectory() as folder:
        workplace = Workplace(folder, program)
        for block in blocks:
            right, printed = workplace.look(block)
            if not right:
                differing.append((block, printed))
                print(f"{document}:{block.place + 1}: {block.kind} {block.about}")
                print("".join(f"    {line}\n" for line in printed), end="")
    if write and differing:
        with open(os.path.join(TOP, document), "w") as file:
            file.write(rewritten(text, differing))
    return len(blocks), len(differing)


def odd_fault_lines() -> list[str]:
    """The lines of faults that the tables of one of two documents have, and those of the other lack."""
    of_faults, of_formats = (set(FAULT_LINE.findall(text_of(f"docs/{name}.md"))) for name in ("FAULTS", "FORMATS"))
    return sorted(of_faults ^ of_formats)


def main(words: list[str]) -> int:
    programs = [word for word in words if word != "--write"]
    if "--help" in words or "-h" in words or len(programs) != 1:
        print((__doc__ or "").strip(), file=sys.stdout if len(programs) == 1 else sys.stderr)
        return 0 if len(programs) == 1 else 2
    program = os.path.abspath(programs[0])
    counts = [look_at(document, program, "--write" in words) for document in DOCUMENTS]
    odd = odd_fault_lines()
    for line in odd:
        print(f"only one of docs/FAULTS.md and docs/FORMATS.md has {line}")
    wrong = sum(differing for _, differing in counts) + bool(odd)
    print(f"{sum(count for count, _ in counts) + 1} blocks, {wrong} differ")
    return 1 if wrong else 0


if __name__ == "__main__":
    sys.exit(main(sys.argv[1:]))
