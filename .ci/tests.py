"""Runs the tests in a file. The last line is `N passed, M failed`, and the status is 0 only where one passed and none failed.

usage: tests.py FILE

The file lies in a folder `tests`, beside the modules that it tests."""

import signal
import sys
import unittest
from pathlib import Path


def take_signals() -> None:
    """What runs in the background ignores an interrupt, and behind nohup a hangup; so would all that the tests start."""
    if signal.getsignal(signal.SIGINT) is signal.SIG_IGN:
        signal.signal(signal.SIGINT, signal.default_int_handler)
    if signal.getsignal(signal.SIGHUP) is signal.SIG_IGN:
        signal.signal(signal.SIGHUP, signal.SIG_DFL)


def main(words: list[str]) -> int:
    if len(words) != 1:
        print(__doc__, file=sys.stderr)
        return 2
    take_signals()
    file = Path(words[0]).resolve()
    sys.path.insert(0, str(file.parent.parent))
    tests = unittest.TestLoader().discover(str(file.parent), file.name, str(file.parent))
    result = unittest.TextTestRunner(stream=sys.stdout, verbosity=0).run(tests)
    failed = len(result.failures) + len(result.errors) + len(result.unexpectedSuccesses)
    passed = max(result.testsRun - failed - len(result.skipped), 0)
    print(f"{passed} passed, {failed} failed", flush=True)
    return 0 if failed == 0 and passed > 0 else 1


if __name__ == "__main__":
    sys.exit(main(sys.argv[1:]))
