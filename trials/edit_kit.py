"""Proves one crate, or tries its wrong edits, with the toolchain's own rules for them.

usage: edit_kit.py RT prove|try NAME [EDIT ..]

It runs at the top of a repository in which the libraries below the crate are built. `prove` proves the crate from nothing and,
where it is a library, builds it as its statements, as the toolchain does for its merge gate; the status is 0 only where it is
proved. `try` tries the edits in these files, each as `rt ci` does, and prints a line an edit that begins with `passed: ` where
the prover refuses it, and with `failed: ` where it doesn't; the status is 0 once all are tried. The toolchain's command has no
words for either over such libraries, so this calls its Python, and the status is 77 where that isn't laid out as is
expected here."""

import os
import shutil
import sys
from collections.abc import Iterator
from typing import Any

import paths  # noqa: F401 - it finds the modules below

from kit import UNKNOWN_TOOLCHAIN, UnknownToolchain, crate_of, load

PASSED, FAILED = "passed: ", "failed: "
JOB = ["--jobs", "1"]


def prove(crate: Any) -> int:
    """Proves the crate with one job, and builds its library where it is one."""
    if crate.is_program:
        status: int = crate.prove(["check", *crate.words(JOB, keeps=False)])
    else:
        status = crate.build_rlib(JOB, anew=True)
    return status


def tried(kit: Any, crate: Any, edit: str, room: str | None) -> tuple[Any, str]:
    """What an edit comes to, and what is said of it: over a copy of what the crate's own check proved, and from nothing what isn't settled there."""
    if room is not None:
        over = f"{room}/edit"
        kit.linked(f"{room}/seed", over)
        kind, said = kit.must_fail(crate, edit, JOB, over)
        shutil.rmtree(over, ignore_errors=True)
        if kind in kit.SETTLED:
            return kind, said
    kind, said = kit.must_fail(crate, edit, JOB)
    return kind, said


def outcomes(kit: Any, crate: Any, edits: list[str]) -> Iterator[tuple[bool, str]]:
    """Whether each edit is refused, and what is said of it. An older toolchain has one call for all."""
    if hasattr(kit, "must_fail_all"):
        yield from kit.must_fail_all(crate, edits, JOB)
        return
    settled = (kit.REFUSED, kit.AT_LIMIT)
    room: str | None = kit.seeded(crate, JOB)
    try:
        for edit in edits:
            kind, said = tried(kit, crate, edit, room)
            yield kind in settled, said
    finally:
        shutil.rmtree(room or "", ignore_errors=True)


def try_edits(kit: Any, crate: Any, edits: list[str]) -> int:
    """Tries the edits over what the crate's own check proves, and prints a line for each."""
    for is_refused, said in outcomes(kit, crate, edits):
        print((PASSED if is_refused else FAILED) + " ".join(said.split()), flush=True)
    return 0


def main(words: list[str]) -> int:
    if len(words) < 3 or words[1] not in ("prove", "try"):
        print(__doc__, file=sys.stderr)
        return 2
    rt, verb, name, *edits = words
    try:
        kit: Any = load(os.path.realpath(rt), "rt_of_toolchain")
        crate = crate_of(kit.rtlib, os.getcwd(), name)
        os.makedirs(f"{crate.folder}/out", exist_ok=True)
        return prove(crate) if verb == "prove" else try_edits(kit, crate, edits)
    except (UnknownToolchain, AttributeError) as error:
        print(f"the toolchain of {rt} isn't laid out as the trial of edits expects it: {error}", flush=True)
        return UNKNOWN_TOOLCHAIN


if __name__ == "__main__":
    sys.exit(main(sys.argv[1:]))
