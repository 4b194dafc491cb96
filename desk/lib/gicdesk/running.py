"""Processes that the desk starts. Each is started and waited for in a thread beside the main one: a signal comes to the
main thread alone, so that none falls between the start of a process and the note of it."""

import concurrent.futures
import contextlib
import dataclasses
import os
import signal
import subprocess
import threading
from collections.abc import Callable, Sequence
from typing import TypeVar

Answer = TypeVar("Answer")

MOMENT = 0.2  # seconds
RUNNING: set["subprocess.Popen[bytes]"] = set()  # what has begun and not ended


@dataclasses.dataclass
class Flag:
    """What is set or not. It has no lock, on which the handler of a signal would wait for ever."""

    on: bool = False

    def set(self) -> None:
        self.on = True

    def clear(self) -> None:
        self.on = False

    def is_set(self) -> bool:
        return self.on


STOPPING = Flag()


def stop_running() -> None:
    """Ends each run that goes on, and each that begins while `STOPPING` is set."""
    STOPPING.set()
    for process in list(RUNNING):
        end(process)


def end(process: "subprocess.Popen[bytes]") -> None:
    """Ends a process, and those that it has started itself."""
    if process.poll() is None:
        with contextlib.suppress(OSError):
            os.killpg(process.pid, signal.SIGKILL)


def result_of(future: "concurrent.futures.Future[Answer]") -> Answer:
    """What a run brings, once it has ended. That is looked for every moment: an interrupt just before a wait without an end
    would be seen behind it alone."""
    while not future.done():
        concurrent.futures.wait([future], MOMENT)
    return future.result()


def apart(call: Callable[[], Answer]) -> Answer:
    """What a call brings that runs in a thread beside the main one."""
    if threading.current_thread() is not threading.main_thread():
        return call()
    with concurrent.futures.ThreadPoolExecutor(1) as pool:
        try:
            return result_of(pool.submit(call))
        except Exception:
            raise
        except BaseException:
            stop_running()
            raise


def run_process(
    words: Sequence[str], executable: str | None = None, error: int | None = subprocess.PIPE
) -> tuple[int, bytes, bytes]:
    """Runs a process without an input: its status, and what it writes on its two streams; on that of errors nothing where
    it is the desk's own."""

    def run() -> tuple[int, bytes, bytes]:
        process = subprocess.Popen(
            words,
            executable=executable,
            stdin=subprocess.DEVNULL,
            stdout=subprocess.PIPE,
            stderr=error,
            process_group=0,
        )
        with process:
            RUNNING.add(process)
            try:
                if STOPPING.is_set():
                    end(process)
                out, told = process.communicate()
            except BaseException:
                end(process)
                raise
            finally:
                RUNNING.discard(process)
        return process.returncode, out, told or b""

    return apart(run)
