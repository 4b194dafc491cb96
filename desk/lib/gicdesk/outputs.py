"""Files that are written as a set: all of them come, or none.

A set has a scratch folder beside its targets from before any work on, so that what can't be written there is told at once.
In it `new/` has what is written and `old/` what gives way. The file `owner` is locked by the command at work, and
`publishing` stands there while one target after another comes to its place: behind a command that was ended amid that, the
next one with a target in the same folder puts back what stood there.
"""

import contextlib
import errno
import fcntl
import json
import os
import pathlib
import re
import shutil
import stat
import tempfile
import time
from collections.abc import Callable, Iterable, Iterator, Mapping, Sequence

from . import earlier, stops
from .files import bytes_of
from .findings import Finding, Refused, refuse
from .tell import tell

SCRATCH = ".gicdesk."
SCRATCH_NAME = re.compile(r"\.gicdesk\.[a-z0-9_]{8}")  # as `mkdtemp` makes it
OWNER, PUBLISHING, NEW, OLD = "owner", "publishing", "new", "old"
HEAD = b"gicdesk: the scratch of a command\n"
LONGEST_WAIT = 30.0  # seconds for another command that publishes in the same folder
MOMENT = 0.02
IDENTITY = 4  # numbers that tell what a file or folder is: which one, and its size and time
WHICH = 2  # how many of them tell which one
NO_LINKS = (errno.EPERM, errno.EOPNOTSUPP, errno.ENOSYS, errno.EMLINK)

Text = str | bytes


def unwritten(error: OSError) -> str:
    return f"it can't be written ({error.strerror}); nothing of it was"


def identity(path: pathlib.Path) -> list[int] | None:
    """Which file or folder a path leads to, without following a link, and its size and time, which another name or place
    doesn't change; None where there is none."""
    try:
        found = os.lstat(path)
    except OSError:
        return None
    return [found.st_dev, found.st_ino, found.st_size, found.st_mtime_ns]


def is_there(target: pathlib.Path, new: Sequence[int] | None) -> bool:
    """Whether a target is the new file or folder, changed meanwhile or not."""
    there = identity(target)
    return there is not None and new is not None and there[:WHICH] == new[:WHICH]


@contextlib.contextmanager
def locked(folder: pathlib.Path, shown: str) -> Iterator[bool]:
    """Keeps other commands from publishing in a folder, where the file system has locks, which is what it brings. Signals
    wait within it, but not while it waits for another command itself; one that takes too long is told."""
    try:
        held = os.open(folder, os.O_RDONLY | os.O_CLOEXEC)
    except OSError:
        with stops.held():
            yield False
        return
    try:
        end = time.monotonic() + LONGEST_WAIT
        while (is_locked := has_lock(held)) is False:
            if time.monotonic() > end:
                raise refuse(shown, "another command writes in this folder, and doesn't end; run it again behind that")
            time.sleep(MOMENT)
        with stops.held():
            yield is_locked is True
    finally:
        os.close(held)


def has_lock(held: int) -> bool | None:
    """Whether the file is locked from now on; None where the file system has no locks."""
    try:
        fcntl.flock(held, fcntl.LOCK_EX | fcntl.LOCK_NB)
    except BlockingIOError:
        return False
    except OSError:
        return None
    return True


def link_new(source: pathlib.Path, target: pathlib.Path) -> None:
    """Gives a file another name, which must not be there yet."""
    try:
        os.link(source, target, follow_symlinks=False)
    except OSError as error:
        if error.errno not in NO_LINKS:
            raise
        # Where there are no links a new name is taken first, and then the file moved there.
        os.close(os.open(target, os.O_CREAT | os.O_EXCL | os.O_WRONLY))
        try:
            os.replace(source, target)
        except BaseException:
            target.unlink()
            raise


def is_placeholder(source: pathlib.Path, target: pathlib.Path) -> bool:
    """Whether a target is the empty file that a command was killed behind, where there are no links."""
    try:
        found, new = os.lstat(target), os.lstat(source)
    except OSError:
        return False
    return is_own(found, stat.S_ISREG) and found.st_size == 0 and stat.S_ISREG(new.st_mode) and new.st_nlink == 1


class Set:
    """Targets of one folder, and the scratch beside them. With a tree there is one target, a folder of files."""

    def __init__(self, folder: pathlib.Path, targets: Mapping[str, str], force: bool, is_tree: bool) -> None:
        self.folder, self.targets, self.force, self.is_tree = folder, dict(targets), force, is_tree
        self.made: pathlib.Path | None = None
        self.owner: int | None = None
        self.stood: dict[str, list[int] | None] = {}

    @property
    def scratch(self) -> pathlib.Path:
        assert self.made is not None
        return self.made

    def begin(self) -> None:
        """Makes the scratch with each target as an empty one in it, and keeps what stands there, which alone may give
        way."""
        shown = next(iter(self.targets.values()))
        try:
            self.stood = {name: identity(self.folder / name) for name in self.targets}
            with locked(self.folder, shown):
                self.made = pathlib.Path(tempfile.mkdtemp(prefix=SCRATCH, dir=self.folder))
                self.owner = os.open(self.made / OWNER, os.O_RDWR | os.O_CREAT | os.O_EXCL | os.O_CLOEXEC, 0o600)
                has_lock(self.owner)
                os.write(self.owner, HEAD)
                for name in (NEW, OLD):
                    (self.made / name).mkdir()
                for name, shown in self.targets.items():
                    if self.is_tree:
                        (self.made / NEW / name).mkdir()
                    else:
                        (self.made / NEW / name).touch(exist_ok=False)
        except OSError as error:
            raise refuse(shown, unwritten(error)) from None

    def publish(self, texts: Mapping[str, Text]) -> None:
        """Writes the set, and brings it to its place: whole, or not at all."""
        shown = next(iter(self.targets.values()))
        try:
            for name, text in texts.items():
                self.write(name, text)
            stops.look()
            if self.is_tree and any(self.stood.values()):
                os.sync()  # (what replaces a study is on the disk before that goes)
            with locked(self.folder, shown):
                new = {name: identity(self.scratch / NEW / name) for name in self.targets}
                write_file(self.scratch / PUBLISHING, json.dumps(new).encode(), False)
                try:
                    for name, shown in self.targets.items():
                        self.set_aside(name, shown)
                        self.place(name)
                except BaseException:
                    take_back(self.scratch, self.folder, new)
                    raise
                (self.scratch / PUBLISHING).unlink()
        except FileExistsError:
            words = "it is there already, and wasn't when the command began; choose another name"
            raise refuse(shown, words) from None
        except OSError as error:
            raise refuse(shown, unwritten(error)) from None

    def write(self, name: str, text: Text) -> None:
        """Writes a file of the set into the scratch; of a tree its name is that in the folder."""
        tree = self.scratch / NEW
        if self.is_tree:
            tree /= next(iter(self.targets))
        (tree / name).parent.mkdir(parents=True, exist_ok=True)
        write_file(tree / name, bytes_of(text), not self.is_tree)

    def set_aside(self, name: str, shown: str) -> None:
        """Brings what gives way for a target into the scratch, where it is looked at once more."""
        target, old = self.folder / name, self.scratch / OLD / name
        stood = self.stood[name]
        if not (self.force and stood is not None and os.path.lexists(target)):
            return
        os.rename(target, old)
        if self.is_tree and not old.is_symlink() and old.is_dir():
            earlier.refuse_other(old, shown)
            is_other = not is_there(old, stood)
        else:
            is_other = self.is_tree or not stat.S_ISREG(os.lstat(old).st_mode) or identity(old) != stood
        if is_other:
            raise refuse(shown, "it is another thing than it was when the command began; look at it")

    def place(self, name: str) -> None:
        source, target = self.scratch / NEW / name, self.folder / name
        if not self.is_tree:
            link_new(source, target)
        elif os.path.lexists(target):
            raise FileExistsError(errno.EEXIST, os.strerror(errno.EEXIST), str(target))
        else:
            os.rename(source, target)

    def end(self) -> None:
        """Takes the scratch away, and with it what gave way."""
        with stops.held():
            made, owner, self.made, self.owner = self.made, self.owner, None, None
            try:
                if made is not None:
                    clear(made)
            finally:
                if owner is not None:
                    os.close(owner)


def write_file(path: pathlib.Path, data: bytes, is_synced: bool) -> None:
    """Writes a file, and perhaps waits until the disk has it, which the many of a tree would take long for."""
    with open(path, "wb") as file:
        file.write(data)
        file.flush()
        if is_synced:
            os.fsync(file.fileno())


def take_back(
    scratch: pathlib.Path, folder: pathlib.Path, new: Mapping[str, Sequence[int] | None]
) -> tuple[list[str], list[str]]:
    """Takes new targets away again, and puts back what gave way for them; the answer are the names of what is back, and of
    what is away with nothing in its place. What somebody else has put in a target's place stays, and so does a new file
    that was changed; what gave way stays in the scratch then. Each is told."""
    back: list[str] = []
    away: list[str] = []
    is_whole = True
    for name in reversed(list(new)):
        target, old = folder / name, scratch / OLD / name
        if new[name] is not None and identity(target) == new[name]:
            with contextlib.suppress(FileNotFoundError):
                (scratch / NEW / name).unlink()  # (the other name of the same file)
            os.rename(target, scratch / NEW / name)
            if not os.path.lexists(old):
                away.append(str(target))
        elif is_there(target, new[name]) and not os.path.lexists(old):
            tell(f"{target}: it was changed, so it stays; all else that came with it is taken away")
        if os.path.lexists(old):
            if os.path.lexists(target):
                is_whole = False
                tell(f"{target}: something else is in its place; what stood there before lies in {old}")
            else:
                os.rename(old, target)
                back.append(str(target))
    if is_whole:
        (scratch / PUBLISHING).unlink(missing_ok=True)
    return back, away


def recover(folder: pathlib.Path) -> None:
    """Ends what commands that were ended amid their work have left in a folder, and tells what is put back."""
    if os.path.isdir(folder):
        with locked(folder, str(folder)) as is_alone:
            recover_all(folder, is_alone)


def recover_all(folder: pathlib.Path, is_alone: bool) -> None:
    for scratch in sorted(folder.glob(f"{SCRATCH}*")):
        try:
            if not is_own(os.lstat(scratch), stat.S_ISDIR):
                continue
            if is_alone and SCRATCH_NAME.fullmatch(scratch.name) and not os.path.lexists(scratch / OWNER):
                clear_unowned(scratch)
                continue
            owner = os.open(scratch / OWNER, os.O_RDWR | os.O_CLOEXEC | os.O_NOFOLLOW | os.O_NONBLOCK)
        except OSError:
            continue
        try:
            if is_own(os.fstat(owner), stat.S_ISREG) and has_lock(owner):
                head = os.pread(owner, len(HEAD), 0)
                if head == HEAD:
                    recover_one(scratch, folder)
                elif head == b"" and is_alone and SCRATCH_NAME.fullmatch(scratch.name) and os.listdir(scratch) == [OWNER]:
                    (scratch / OWNER).unlink()
                    scratch.rmdir()
        except OSError as error:
            tell(f"{scratch}: it is left by a command that was ended, and can't be cleared ({error.strerror})")
        finally:
            os.close(owner)


def clear_unowned(scratch: pathlib.Path) -> None:
    """Takes away the scratch of a command that was ended as it had just made it, or had just cleared it."""
    try:
        scratch.rmdir()
    except OSError as error:
        tell(f"{scratch}: it has the name of a command's scratch, and isn't one ({error.strerror}); look at it")


def is_own(found: os.stat_result, is_kind: Callable[[int], bool]) -> bool:
    """Whether a file or folder is of this kind and of the user who runs the command."""
    return is_kind(found.st_mode) and found.st_uid == os.geteuid()


def published(data: bytes) -> dict[str, list[int]] | None:
    """What `publishing` says: the new targets, which are names in the folder, each with its identity; none where it was
    being written. None where the desk hasn't written it."""
    try:
        new = json.loads(data)
    except (ValueError, RecursionError):
        return {}  # (nothing has moved yet)
    if isinstance(new, dict) and all(is_name(name) and is_identity(found) for name, found in new.items()):
        return new
    return None


def is_name(name: str) -> bool:
    """Whether a text is the name of something in a folder, and of nothing outside."""
    try:
        letters = os.fsencode(name)
    except UnicodeEncodeError:
        return False
    return letters not in (b"", b".", b"..") and not set(letters) & set(b"/\0")


def is_identity(found: object) -> bool:
    return isinstance(found, list) and len(found) == IDENTITY and all(type(number) is int for number in found)


def recover_one(scratch: pathlib.Path, folder: pathlib.Path) -> None:
    if (scratch / PUBLISHING).is_file():
        new = published((scratch / PUBLISHING).read_bytes())
        if new is None:
            tell(f"{scratch}: its {PUBLISHING} isn't one of the desk, so nothing of it is done; look at it, and take it away")
            return
        if not new or not all(is_there(folder / name, new[name]) for name in new):
            ended = "a command was ended before all that it wrote was in its place"
            for name in new:
                if is_placeholder(scratch / NEW / name, folder / name):
                    (folder / name).unlink()
            back, away = take_back(scratch, folder, new)
            for name in back:
                tell(f"{name}: {ended}; what stood there is put back")
            for name in away:
                tell(f"{name}: {ended}; it is taken away")
        else:
            (scratch / PUBLISHING).unlink()
    clear(scratch)


def clear(scratch: pathlib.Path) -> None:
    """Takes a scratch away. What gave way is taken away with it; but what came into a folder meanwhile stays, and is
    told, and so does what gave way where it couldn't be put back."""
    try:
        shutil.rmtree(scratch / NEW, ignore_errors=True)
        if (scratch / OLD).is_dir():
            if not (scratch / PUBLISHING).exists():
                for old in (scratch / OLD).iterdir():
                    if old.is_dir() and not old.is_symlink():
                        earlier.take_away(old, str(old))
                    else:
                        old.unlink()
            (scratch / OLD).rmdir()
        for name in (PUBLISHING, OWNER):
            (scratch / name).unlink(missing_ok=True)
        with contextlib.suppress(FileNotFoundError):  # (without an owner the next command takes it away)
            scratch.rmdir()
    except (OSError, Refused) as error:
        reason = error.strerror if isinstance(error, OSError) else error.lines()[0]
        tell(f"{scratch}: something of what gave way is left there ({reason}); look at it, and take it away")


def is_same_file(one: str, other: str) -> bool:
    """Whether two names lead to one file; `-` is the standard input."""
    try:
        found = [os.fstat(0) if name == "-" else os.stat(name) for name in (one, other)]
    except OSError:
        return False
    return os.path.samestat(*found)


def refuse_files(names: Sequence[str], force: bool, inputs: Iterable[str]) -> None:
    """Refuses names of files that can't be written, before any work: what isn't a file never gives way, a file only by
    force, and never one that is read."""
    findings = [finding for name in names if (finding := file_fault(name, force, inputs)) is not None]
    if findings:
        raise Refused(findings)


def file_fault(name: str, force: bool, inputs: Iterable[str]) -> Finding | None:
    path = pathlib.Path(name)
    if path.name in ("", ".."):
        return Finding(name, "it is there already, and no plain file; choose another name")
    try:
        mode = os.lstat(path).st_mode
    except (FileNotFoundError, NotADirectoryError):
        if path.parent.is_dir():
            return None
        return Finding(name, "there is no such folder; make the folder first")
    except OSError as error:
        return Finding(name, unwritten(error))
    if stat.S_ISLNK(mode):
        return Finding(name, "it is a symbolic link, and no plain file; choose another name")
    if not stat.S_ISREG(mode):
        return Finding(name, "it is there already, and no plain file; choose another name")
    if any(is_same_file(name, given) for given in inputs):
        return Finding(name, "it is read by this command, too; choose another name")
    if not force:
        return Finding(name, "it is there already; choose another name, or give --force to replace it")
    return None


def refuse_folder(folder: str, force: bool, inputs: Iterable[str], replaced: str) -> None:
    """Refuses a folder that can't be written, before any work; by force one that is there is taken, and never one that a
    file is read of, or in which the command runs."""
    path = pathlib.Path(folder)
    try:
        mode = os.lstat(path).st_mode
    except (FileNotFoundError, NotADirectoryError):
        if not path.parent.is_dir():
            raise refuse(folder, "there is no folder to make it in; make that first") from None
        return
    except OSError as error:
        raise refuse(folder, unwritten(error)) from None
    if not stat.S_ISDIR(mode):
        raise refuse(folder, "it is there already, and no folder; choose another name")
    real = os.path.realpath(path)
    if pathlib.Path.cwd().is_relative_to(real):
        raise refuse(folder, "it is the folder that you are in, or one above it; choose another name")
    for given in inputs:
        if pathlib.Path(os.path.realpath(given)).is_relative_to(real):
            raise refuse(folder, f"{given}, which this command reads, lies in it; choose another name")
    if not force:
        ways = f", or give --force to replace {replaced}" if replaced else ""
        raise refuse(folder, f"it is there already; choose another name{ways}")


@contextlib.contextmanager
def opened(made: Set) -> Iterator[Set]:
    try:
        made.begin()
        yield made
    finally:
        try:
            made.end()
        except stops.Stopped:  # (just before it; no other one comes)
            made.end()
            raise


def files_set(names: Sequence[str], force: bool, inputs: Iterable[str]) -> contextlib.AbstractContextManager[Set]:
    """A set of files of one folder."""
    folder = pathlib.Path(os.path.realpath(pathlib.Path(names[0]).parent))
    recover(folder)
    refuse_files(names, force, list(inputs))
    return opened(Set(folder, {pathlib.Path(name).name: name for name in names}, force, False))


def folder_set(
    folder: str, names: Sequence[str], force: bool, inputs: Iterable[str]
) -> contextlib.AbstractContextManager[Set]:
    """A set of files of these names in a new folder; or, by force, in one that is there, with all else that is in it."""
    inputs, path = list(inputs), pathlib.Path(folder)
    for place in (path.parent, path):
        recover(place)
    if os.path.isdir(path) and force:
        there = [os.path.join(folder, name) for name in names]
        refuse_folder(folder, True, [], "")
        return files_set(there, force, inputs)
    refuse_folder(folder, force, inputs, "what the command writes in it")
    return tree_of(folder, False)


def new_folder(folder: str, inputs: Iterable[str]) -> contextlib.AbstractContextManager[Set]:
    """A new folder of files whose names aren't known before; there is no force to it."""
    recover(pathlib.Path(folder).parent)
    refuse_folder(folder, False, inputs, "")
    return tree_of(folder, False)


def study_set(folder: str, force: bool, inputs: Iterable[str]) -> contextlib.AbstractContextManager[Set]:
    """A folder with files and folders of files in it. With force an earlier study gives way as a whole."""
    path = pathlib.Path(folder)
    recover(path.parent)
    refuse_folder(folder, force, inputs, "an earlier study there")
    if path.is_dir():
        if os.path.ismount(path) or not os.access(path, os.W_OK):
            raise refuse(folder, "it can't be moved, so --force can't replace it; choose another name")
        earlier.refuse_other(path, folder)
    return tree_of(folder, force)


def tree_of(folder: str, force: bool) -> contextlib.AbstractContextManager[Set]:
    path = pathlib.Path(folder)
    if path.name in ("", ".."):
        raise refuse(folder, "it is the folder that you are in, or one above it; choose another name")
    return opened(Set(pathlib.Path(os.path.realpath(path.parent)), {path.name: folder}, force, True))
