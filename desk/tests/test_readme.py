"""What desk/README.md shows: each command is run in a folder of its own, and what it prints is what stands there.

    python3 desk/tests/test_readme.py --write PROGRAM

puts what is printed into the document. A block marked `sh` is run, and the block marked `text` behind it is what it
prints. The folder has the desk, the examples and the program under the names that they have in the repository.
"""

import os
import pathlib
import re
import shlex
import shutil
import subprocess
import sys
import tempfile
import unittest

from shared import BUILT, TOP, DeskTest

README = TOP / "desk" / "README.md"
BLOCKS = re.compile(r"```sh\n(.*?)```\n\n```text\n(.*?)```\n", re.DOTALL)


def furnish(folder: pathlib.Path, program: pathlib.Path) -> None:
    """Makes of a folder what the commands find at the top of the repository."""
    for name in ("gicdesk", "lib", "tests/pair"):
        source, place = TOP / "desk" / name, folder / "desk" / name
        place.parent.mkdir(parents=True, exist_ok=True)
        if source.is_dir():
            shutil.copytree(source, place, ignore=shutil.ignore_patterns("__pycache__"))
        else:
            shutil.copy(source, place)
    (folder / "examples").symlink_to(TOP / "examples")
    built = folder / "crates" / "gicstudy" / "out" / "gicstudy"
    built.parent.mkdir(parents=True)
    built.symlink_to(program)
    script = folder / "gicstudy"
    script.write_text(f"""#!/bin/sh\n[ "$1" = --proved ] && shift\nexec {shlex.quote(str(program))} "$@"\n""")
    script.chmod(0o755)


def printed(commands: str, folder: pathlib.Path) -> str:
    words = ["sh", "-eu", "-c", commands]
    done = subprocess.run(words, cwd=folder, capture_output=True, text=True, stdin=subprocess.DEVNULL, check=False)
    return done.stdout + done.stderr + (f"status {done.returncode}\n" if done.returncode else "")


class Readme(DeskTest):
    @unittest.skipUnless(BUILT.is_file(), "no program is built")
    def test_what_is_shown_is_what_is_printed(self) -> None:
        furnish(self.folder, BUILT.resolve())
        blocks = BLOCKS.findall(README.read_text())
        shown = set(re.findall(r"desk/gicdesk ([\w-]+)", "".join(commands for commands, _ in blocks)))
        shown_in_text = {
            *("csv", "compare", "outages", "mitigate", "grounds", "case", "psse", "study", "losses"),
            *("powermodels", "from-powermodels", "local"),
        }
        self.assertEqual(shown, shown_in_text)
        for commands, text in blocks:
            self.assertEqual(printed(commands, self.folder), text, commands)


class Help(DeskTest):
    def test_each_command_names_the_others(self) -> None:
        rows = re.findall(r"^\| `([\w-]+) [A-Z]", README.read_text(), re.M)
        whole = self.done("--help")
        for command in rows:
            self.assertRegex(whole, rf"(?m)^    {command}\b")
            told = re.sub(r"(\w)- ", r"\1-", " ".join(self.done(command, "--help").split()))
            self.assertIn(f"The other commands: {', '.join(self.others(rows, command, told))}.", told)

    def others(self, commands: list[str], command: str, told: str) -> list[str]:
        """The other commands in the order in which they are told."""
        end = told[told.index("The other commands: ") :]
        others = [other for other in commands if other != command]
        return sorted(others, key=lambda other: end.index(f" {other}"))


def write(program: str) -> None:
    with tempfile.TemporaryDirectory() as scratch:
        folder = pathlib.Path(scratch)
        furnish(folder, pathlib.Path(os.path.abspath(program)))

        def block(found: re.Match[str]) -> str:
            return f"```sh\n{found[1]}```\n\n```text\n{printed(found[1], folder)}```\n"

        text = BLOCKS.sub(block, README.read_text())
    README.write_text(text)


if __name__ == "__main__":
    if sys.argv[1:2] == ["--write"]:
        write(sys.argv[2])
    else:
        unittest.main()
