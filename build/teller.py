"""What is said on the error stream while the program is built."""

import os
import time
from collections.abc import Callable, Sequence

# The seconds of silence after which something is said again.
SILENCE = 25


class Teller:
    """Says how far the build is. A line that nobody reads ends nothing."""

    def __init__(self, clock: Callable[[], float] = time.monotonic, stream: int = 2):
        self.clock, self.stream = clock, stream
        self.began = self.said = clock()

    def say(self, text: str) -> None:
        self.said = self.clock()
        try:
            os.write(self.stream, f"gicstudy: {text}\n".encode(errors="backslashreplace"))
        except OSError:
            pass

    def is_due(self) -> bool:
        return self.clock() - self.said >= SILENCE

    def minutes(self) -> str:
        return f"{int((self.clock() - self.began) // 60)} min"

    def progress(self, done: int, crates: int, at_work: Sequence[str], head: str = "") -> None:
        work = f", {len(at_work)} at work ({', '.join(at_work)})" if at_work else ""
        self.say(f"{head}{done} of {crates} crates proved{work}, {self.minutes()}")
