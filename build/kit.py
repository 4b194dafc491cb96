"""The Python of the toolchain, which stands beside its command `rt`. The toolchain documents none of it, so whoever calls it
says where it isn't laid out as is expected."""

import importlib.machinery
import importlib.util
import sys
from types import ModuleType
from typing import Any

# The status of a call that ends so; the toolchain has no such status of its own.
UNKNOWN_TOOLCHAIN = 77


class UnknownToolchain(Exception):
    """The toolchain isn't laid out as is expected."""


def load(file: str, name: str) -> ModuleType:
    """The module in a file, under a name of its own."""
    try:
        loader = importlib.machinery.SourceFileLoader(name, file)
        spec = importlib.util.spec_from_loader(name, loader)
        if spec is None:
            raise ImportError(f"there is no Python in {file}")
        found = importlib.util.module_from_spec(spec)
        sys.modules[name] = found
        loader.exec_module(found)
        return found
    except (ImportError, SyntaxError, OSError, AttributeError, TypeError, ValueError) as error:
        raise UnknownToolchain(str(error)) from error


def crate_of(rtlib: Any, top: str, name: str) -> Any:
    """A crate of the repository at the top, whose proof makes a library as its statements."""
    try:
        rtlib.Crate.cuts_libraries = True
        # (its first call sets a signal's handler, which only the main thread may)
        rtlib.guarded()
        found = rtlib.Crate(f"{top}/crates/{name}", top, {})
        for part in ("prove", "call", "words", "build_rlib", "is_program"):
            getattr(found, part)
        return found
    except (AttributeError, TypeError, ValueError) as error:
        raise UnknownToolchain(str(error)) from error
