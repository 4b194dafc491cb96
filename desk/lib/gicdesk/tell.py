"""Lines on the error stream."""

import contextlib
import sys

from .findings import visible


def tell(words: str) -> None:
    """Writes a line to the error stream, where there is one."""
    if sys.stderr is not None:
        with contextlib.suppress(OSError):
            print(f"gicdesk: {visible(words)}", file=sys.stderr)
