"""What is here: the commit, the proved program by its sum, and the one compiled without proof."""

import os
import shutil
import subprocess
from pathlib import Path

from record import look
from sources import read_sources, sum_of
from unproved import PARTS, find_toolchain, kept_program, key_of, shelf_of


def git(top: Path, *words: str) -> str:
    """What git says of this repository, also where the environment names another one, as a hook's does."""
    asked = ["git", "-C", str(top), "--no-optional-locks", *words]
    environment = {name: value for name, value in os.environ.items() if not name.startswith("GIT_")}
    done = subprocess.run(asked, env=environment, stdin=subprocess.DEVNULL, capture_output=True, check=True)
    return done.stdout.decode(errors="replace")


def commit(top: Path) -> str:
    """The commit, told where a file of it is changed, or where one is among the sources that it hasn't."""
    if not (top / ".git").exists():
        return "unknown"
    try:
        found = git(top, "rev-parse", "HEAD").strip()
        states = git(top, "status", "--porcelain").splitlines()
    except (OSError, subprocess.CalledProcessError):
        return "unknown"
    changed = [it for it in states if not it.startswith("??") or it[3:].strip('"').startswith("crates/")]
    return f"{found}, with changes" if changed else found


def proved(top: Path) -> str:
    found = look(top, read_sources(top))
    return found.sum or f"none: {found.why}"


def without_proof(top: Path) -> str:
    toolchain = find_toolchain(shelf_of(top), shutil.which("rt"))
    if toolchain is None:
        return "none"
    program = kept_program(shelf_of(top) / key_of(read_sources(top, PARTS), toolchain))
    return "none" if program is None else sum_of(program.read_bytes())


def version(top: Path) -> list[str]:
    """A line each: the commit, the sum of the proved program where a record of a proof of the sources as they are now stands
    beside it, and the sum of the one that is compiled of them without proof."""
    return [f"commit {commit(top)}", f"proved {proved(top)}", f"unproved {without_proof(top)}"]
