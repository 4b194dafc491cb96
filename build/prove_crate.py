"""Proves one crate from nothing and builds its library, or the program.

usage: prove_crate.py RT NAME JOBS

It runs at the top of a repository in which the libraries below the crate are built. The proof is held to what the toolchain
asks of a verdict: the crate's text has no tactic in a clause, nothing is taken from earlier work, and the last line has no
word on which a verdict may not rest. A library is built for the crates above it as its statements, without its proofs, so
that each of them loads a fraction of it: the toolchain builds them so for its merge gate, and its command has no word for
it. So this calls the toolchain's Python. The status is 0 where the crate is proved and built, and 77 where the toolchain
isn't laid out as is expected here."""

import os
import sys
from typing import Any

from kit import UNKNOWN_TOOLCHAIN, UnknownToolchain, crate_of, load


def build_program(crate: Any, kit: str, jobs: str) -> int:
    """Proves the program, compiles it and links it as out/NAME.new."""
    words = crate.words(["--jobs", jobs], keeps=False)
    made = f"out/{crate.name}.o"
    compiles = ["--toolchain", f"{kit}/toolchain", "--backend", "llvm", "-o", made]
    status: int = crate.prove(["build", *words, *compiles])
    if status == 0:
        links = ["--target", "x86_64-unknown-linux-gnu", "--toolchain", f"{kit}/toolchain", "-o", f"out/{crate.name}.new", made]
        status = crate.call(f"{kit}/bin/rattle-link", *links, f"{kit}/c/libos_c.a", f"{kit}/c/liblibc_c.a")
    return status


def main(words: list[str]) -> int:
    if len(words) != 3:
        print(__doc__, file=sys.stderr)
        return 2
    rt, name, jobs = words
    sys.dont_write_bytecode = True
    try:
        rtlib: Any = load(os.path.join(os.path.dirname(os.path.realpath(rt)), "rtlib.py"), "rtlib")
        crate = crate_of(rtlib, os.getcwd(), name)
    except UnknownToolchain as error:
        print(f"the toolchain of {rt} has another layout than this build expects: {error}", flush=True)
        return UNKNOWN_TOOLCHAIN
    rtlib.stop_on_text(crate, "verdict")
    if crate.is_program:
        return build_program(crate, rtlib.KIT, jobs)
    status: int = crate.build_rlib(["--jobs", jobs], anew=True)
    return status


if __name__ == "__main__":
    try:
        sys.exit(main(sys.argv[1:]))
    except OSError as error:
        sys.exit(f"{error.strerror}: {error.filename}" if error.filename else str(error))
