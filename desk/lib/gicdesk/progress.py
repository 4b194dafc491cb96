"""How far long work is, on a terminal; nothing where nobody looks on."""

import dataclasses
import sys
from typing import TextIO

BAR = 30


@dataclasses.dataclass
class Progress:
    """Counts the pieces of some work on the error stream. The bar is taken away behind the work, however it ends."""

    total: int
    stream: TextIO | None = dataclasses.field(default_factory=lambda: sys.stderr)
    done: int = 0

    def __enter__(self) -> "Progress":
        return self

    def __exit__(self, *_: object) -> None:
        self.end()

    def next(self, name: str) -> None:
        """Shows that the next piece, of this name, has begun."""
        if self.stream is not None and self.stream.isatty():
            bar = "#" * (BAR * self.done // max(self.total, 1))
            self.stream.write(f"\r\x1b[K[{bar:.<{BAR}}] {self.done + 1} of {self.total} {name:.40}")
            self.stream.flush()
        self.done += 1

    def end(self) -> None:
        """Takes the bar away."""
        if self.stream is not None and self.stream.isatty():
            self.stream.write("\r\x1b[K")
            self.stream.flush()
