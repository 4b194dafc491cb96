"""Stands for the toolchain's module of crates in the tests: a library is built where those below it are, and a program is a
script.

A source of a crate with the word FAILS isn't proved, one with KILLED is killed unless it has one job, one with SLOW takes
some seconds, of one with LOST the library isn't there, and a program with BROKEN ends with status 8."""

import os
import re
import signal
import time
from pathlib import Path

KIT = str(Path(__file__).resolve().parent)


def note(text: str) -> None:
    with open(os.environ["FAKE_RT_LOG"], "a", encoding="utf-8") as log:
        log.write(f"{text}\n")


def guarded() -> list[str]:
    return []


def stop_on_text(crate: object, verb: str) -> None:
    pass


class Crate:
    """A crate in a repository, as the toolchain sees it."""

    cuts_libraries = False

    def __init__(self, folder: str, root: str, known: dict[str, object]):
        self.folder, self.name = Path(folder), Path(folder).name
        self.is_program = (self.folder / "src/main.rt").is_file()
        self.text = (self.folder / "src" / ("main.rt" if self.is_program else "lib.rt")).read_text(encoding="utf-8")
        lines = (Path(root) / "crates.txt").read_text(encoding="utf-8")
        found = re.search(rf"^{self.name}:(.*)$", lines, re.M)
        names = found[1].split() if found else []
        self.lacking = [it for it in names if not (self.folder / f"../{it}/out/rlib/{it}.rlib/format").is_file()]

    def words(self, flags: list[str], keeps: bool) -> list[str]:
        return flags

    def check(self, flags: list[str]) -> int:
        jobs = int(flags[flags.index("--jobs") + 1])
        note(f"begin {self.name} {jobs}")
        if self.lacking:
            print(f"rt: {self.name} lacks {self.lacking}")
            return 2
        time.sleep(3 if "SLOW" in self.text else 0.05)
        if "KILLED" in self.text and jobs > 1:
            return -signal.SIGKILL
        if "FAILS" in self.text:
            print("src/lib.rt:1:1: error: it isn't proved")
            return 1
        note(f"end {self.name}")
        return 0

    def build_rlib(self, flags: list[str], anew: bool) -> int:
        status = self.check(flags)
        if status == 0 and "LOST" not in self.text:
            (self.folder / f"out/rlib/{self.name}.rlib").mkdir(parents=True, exist_ok=True)
            (self.folder / f"out/rlib/{self.name}.rlib/format").write_text(self.text, encoding="utf-8")
        return status

    def prove(self, words: list[str]) -> int:
        status = self.check(words)
        if status == 0:
            (self.folder / words[words.index("-o") + 1]).write_text(self.text, encoding="utf-8")
        return status

    def call(self, link: str, *words: str) -> int:
        program = self.folder / words[words.index("-o") + 1]
        ends = "exit 8\n" if "BROKEN" in self.text else ""
        program.write_text(f"#!/bin/sh\n{ends}echo \"{self.text.strip()}: $*\"\n", encoding="utf-8")
        program.chmod(0o755)
        return 0
