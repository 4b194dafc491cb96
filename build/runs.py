"""The runs of `rt`, side by side."""

import ctypes
import os
import signal
import subprocess
import time
from dataclasses import dataclass
from pathlib import Path

# As in Linux's prctl.h: the signal that a process gets when the one that started it ends.
PR_SET_PDEATHSIG = 1
LAST_LINES = 20


def end_with_parent() -> None:
    ctypes.CDLL(None).prctl(PR_SET_PDEATHSIG, signal.SIGTERM)


@dataclass(frozen=True)
class Ended:
    """A run that has ended: its status, when it began and ended, and the processor seconds that it took."""

    status: int
    began: float
    ended: float
    seconds: float


class Run:
    """A run of `rt` with these words in a folder, whose output goes to a log."""

    def __init__(self, words: list[str], folder: Path, log: Path):
        self.log, self.began = log, time.time()
        with open(log, "wb") as out:
            self.process = subprocess.Popen(
                words, cwd=folder, stdin=subprocess.DEVNULL, stdout=out, stderr=out, preexec_fn=end_with_parent
            )

    def poll(self) -> Ended | None:
        pid, status, used = os.wait4(self.process.pid, os.WNOHANG)
        if not pid:
            return None
        self.process.returncode = os.waitstatus_to_exitcode(status)
        return Ended(self.process.returncode, self.began, time.time(), used.ru_utime + used.ru_stime)

    def stop(self) -> None:
        """Ends the run; `rt` has what it started end with it."""
        if self.process.returncode is None:
            self.process.terminate()
            try:
                self.process.wait(5)
            except subprocess.TimeoutExpired:
                self.process.kill()
                self.process.wait()

    def last_lines(self) -> list[str]:
        return self.log.read_text(encoding="utf-8", errors="replace").splitlines()[-LAST_LINES:]


def was_killed(status: int) -> bool:
    """Whether a run was killed, most likely for memory; `rt` hands on the status of what it ran."""
    return status in (-signal.SIGKILL, 256 - signal.SIGKILL, 128 + signal.SIGKILL)


def was_interrupted(status: int) -> bool:
    return status in (-signal.SIGINT, 128 + signal.SIGINT)
