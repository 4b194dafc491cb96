#!/usr/bin/env python3
"""Runs all tests of the desk. The last line is `N passed, M failed`, and the status is 0 only where M is 0."""

import pathlib
import sys
import unittest

HERE = str(pathlib.Path(__file__).resolve().parent)


def main() -> int:
    sys.dont_write_bytecode = True
    tests = unittest.TestLoader().discover(HERE, top_level_dir=HERE)
    result = unittest.TextTestRunner(stream=sys.stdout, verbosity=0).run(tests)
    failed = len(result.failures) + len(result.errors) + len(result.unexpectedSuccesses)
    passed = result.testsRun - failed - len(result.skipped)
    print(f"{max(passed, 0)} passed, {failed} failed", flush=True)
    return 0 if failed == 0 and passed > 0 else 1


if __name__ == "__main__":
    sys.exit(main())
