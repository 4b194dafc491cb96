"""The files that a command reads and hands to runs of the program: each is read once, and every run gets a copy of what was
read. So all that comes of a command is of one file, whatever becomes of the file meanwhile, and a pipe does as well."""

import contextlib
import dataclasses
import hashlib
import os
import pathlib
import tempfile
from collections.abc import Iterable, Iterator, Mapping

from . import stops
from .files import read_bytes
from .findings import Finding, Refused, collected, refuse


@dataclasses.dataclass(frozen=True)
class Input:
    """A file under the name of its option, with its own name and what it holds."""

    role: str
    name: str
    data: bytes

    @property
    def checksum(self) -> str:
        return hashlib.sha256(self.data).hexdigest()


def name_as_taken(name: str) -> str:
    """The name of a file as the program takes it: to it `-` is a file as any other."""
    return "./-" if name == "-" else name


def read_inputs(files: Mapping[str, str]) -> dict[str, Input]:
    """The files, with what they hold; all that can't be read are told at once. One that is given twice is read once."""
    read: dict[str, bytes] = {}
    inputs: dict[str, Input] = {}
    findings: list[Finding] = []
    for role, name in files.items():
        with collected(findings):
            if name not in read:
                read[name] = read_bytes(name_as_taken(name))
            inputs[role] = Input(role, name, read[name])
    if findings:
        raise Refused(findings)
    return inputs


@dataclasses.dataclass(frozen=True)
class Copies:
    """The files in a scratch folder, under the names of their options."""

    folder: str
    inputs: Mapping[str, Input] = dataclasses.field(default_factory=dict)

    def path(self, role: str) -> str:
        return os.path.join(self.folder, role)

    def word(self, word: str) -> str:
        """A word of the program, with the copy in the place of a file that was given."""
        role, _, name = word.removeprefix("--").partition("=")
        given = self.inputs.get(role)
        return f"--{role}={self.path(role)}" if given is not None and given.name == name else word

    def words(self, words: Iterable[str]) -> list[str]:
        return [self.word(word) for word in words]


def no_room(error: OSError, what: str) -> Refused:
    return refuse("the temporary folder", f"{what} can't be written there ({error.strerror}); look at TMPDIR")


@contextlib.contextmanager
def scratch() -> Iterator[str]:
    """A folder for what is passing."""
    try:
        with stops.held():
            folder = tempfile.TemporaryDirectory(prefix="gicdesk.", ignore_cleanup_errors=True)
    except OSError as error:
        raise no_room(error, "a folder") from None
    try:
        yield folder.name
    finally:
        with stops.held():
            folder.cleanup()


@contextlib.contextmanager
def copied(files: Mapping[str, str]) -> Iterator[Copies]:
    """Reads the files, which stand under the names of their options, and lays copies of them into a scratch folder."""
    inputs = read_inputs(files)
    with scratch() as folder:
        copies = Copies(folder, inputs)
        for role, given in inputs.items():
            put(pathlib.Path(copies.path(role)), given.data, f"a copy of {given.name}")
        yield copies


def put(path: pathlib.Path, data: bytes, what: str) -> None:
    try:
        with open(path, "wb") as file:
            file.write(data)
    except OSError as error:
        raise no_room(error, what) from None
