"""Proves the crates and builds the program, unless that is done."""

import os
import shutil
import signal
import subprocess
from contextlib import ExitStack
from pathlib import Path

import machine
from builder import builder_for
from crates import PROGRAM, Fault
from locks import locked
from record import keep, look, no_toolchain, program_of, read_program
from snapshot import out_of
from sources import Sources, read_sources
from stops import Stopped
from teller import Teller


def toolchain_of(rt: str) -> str:
    said = subprocess.run([rt, "version"], stdin=subprocess.DEVNULL, capture_output=True, text=True)
    return said.stdout.strip()


def found_rt(top: Path, why: str) -> str:
    rt = shutil.which("rt")
    if rt is None:
        raise no_toolchain(top, why)
    return rt


def make_folders(top: Path, sources: Sources) -> None:
    """Makes the folders out/ of the crates, before their sources are read: a folder's time changes with what lies in it."""
    try:
        for crate in sources.crates:
            out_of(top, crate.name).mkdir(exist_ok=True)
        trial = out_of(top, PROGRAM) / "trial"
        trial.write_bytes(b"")
        trial.unlink()
    except OSError as error:
        raise Fault(f"the program must be built, but {error.filename} can't be written: {error.strerror}") from error


def build(top: Path, teller: Teller, why: str, sources: Sources) -> None:
    """Builds the program, unless another call has built it since it was looked at."""
    try:
        build_locked(top, teller, found_rt(top, why), sources)
    except (Stopped, KeyboardInterrupt) as stopped:
        teller.say("stopped; the next ./gicstudy --prove continues from here")
        raise stopped if isinstance(stopped, Stopped) else Stopped(signal.SIGINT) from None


def build_locked(top: Path, teller: Teller, rt: str, sources: Sources) -> None:
    make_folders(top, sources)
    with ExitStack() as held:
        held.enter_context(locked(top / "crates", teller, "waiting for another build of this checkout"))
        # (in the order in which rt takes them, so that neither waits for what the other holds)
        for folder in sorted({os.path.realpath(top / "crates" / it.name) for it in sources.crates}):
            waits = f"waiting for rt, which is at work in crates/{os.path.basename(folder)}"
            held.enter_context(locked(Path(folder), teller, waits))
        sources = read_sources(top)
        found = look(top, sources)
        if found.identity is not None:
            keep(top, sources, found.identity)
            return
        teller.say("building the program; crates without a proof are proved first")
        builder = builder_for(top, rt, toolchain_of(rt), sources, teller)
        needed, free = machine.disk_for(builder.left(), len(sources.crates)), machine.free_disk(top)
        if free < needed:
            raise Fault(f"this build needs {needed / 1e9:.1f} GB of disk, but {top} has {free / 1e9:.1f} GB left")
        builder.build()
        content, identity = read_program(program_of(top))
        keep(top, sources, identity, sources.record(content))
        teller.say(f"the program is proved and built, {teller.minutes()}")
