"""Files read whole."""

import os
import stat
import sys
from typing import BinaryIO

from .findings import refuse

LONGEST = 64 * 1024 * 1024  # no report or table is as long


def read_bytes(name: str) -> bytes:
    """The bytes of a file; `-` is the standard input."""
    try:
        if name == "-" and sys.stdin is None:
            raise ValueError("it is closed")
        if name == "-":
            data = sys.stdin.buffer.read(LONGEST + 1)
        else:
            with open(name, "rb") as file:
                data = read_at_once(name, file)
    except (OSError, ValueError) as error:
        reason = error.strerror if isinstance(error, OSError) and error.strerror else str(error)
        raise refuse(name, f"it can't be read ({reason}); look at the name and at the folder you are in") from None
    if len(data) > LONGEST:
        raise refuse(name, f"it has more than {LONGEST} bytes, which no file of the desk has: is it another file?")
    return data


def read_at_once(name: str, file: BinaryIO) -> bytes:
    """The bytes of an open file. A plain one that changes meanwhile is refused, since they would be of two files."""
    before = os.fstat(file.fileno())
    data = file.read(LONGEST + 1)
    after = os.fstat(file.fileno())
    same = (before.st_size, before.st_mtime_ns, before.st_ctime_ns) == (after.st_size, after.st_mtime_ns, after.st_ctime_ns)
    if stat.S_ISREG(before.st_mode) and not same:
        raise refuse(name, "it changed while it was read; run it again once it stays as it is")
    return data


def read_text(name: str, other_code: str | None = None, given: bytes | None = None) -> str:
    """The text of a file in UTF-8, with LF at the end of each line and without a byte order mark. What isn't UTF-8 is
    of the other code, where one is named. Where the file has been read already, `given` is what it holds."""
    data = read_bytes(name) if given is None else given
    if data[:2] in (b"\xff\xfe", b"\xfe\xff"):
        raise refuse(name, "it is in UTF-16, as `>` of some shells of Windows writes it; save it as UTF-8")
    try:
        text = data.decode("utf-8-sig")
    except UnicodeDecodeError as error:
        if other_code is not None:
            return data.decode(other_code).replace("\r\n", "\n").replace("\r", "\n")
        line = data.count(b"\n", 0, error.start) + 1
        words = f"the byte {data[error.start]:#04x} is no UTF-8; save the file as UTF-8"
        raise refuse(name, words, line) from None
    return text.replace("\r\n", "\n").replace("\r", "\n")


def bytes_of(text: str | bytes) -> bytes:
    """The bytes of a file; a name in a text that isn't in UTF-8 stands in it with a backslash."""
    return text if isinstance(text, bytes) else text.encode(errors="backslashreplace")
