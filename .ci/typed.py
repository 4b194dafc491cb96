"""Whether `mypy --strict` finds nothing in the Python of the repository, folder by folder.

usage: typed.py

The last line is `N passed, M failed`, a folder each, and the status is 0 only where M is 0. Where mypy isn't there a line says
so, and nothing is counted."""

import os
import shutil
import subprocess
import sys
import tempfile
from collections.abc import Iterator
from pathlib import Path

TOP = Path(__file__).resolve().parent.parent
# Each folder with Python, and the folders in which it finds modules; packages lie at the top (the empty word) and in trials.
FOLDERS = {
    ".ci": (".ci", ".ci/tests", "build"),
    "bench": ("bench", "bench/tests", "", "trials", "build", "independent"),
    "build": ("build", "build/tests"),
    "desk": ("desk/lib", "desk/tests"),
    "docs": ("docs", "docs/tests"),
    "examples": ("examples",),
    "generators": ("", "generators/tests", "trials"),
    "independent": ("independent", "independent/tests"),
    "trials": ("trials", "trials/tests", "", "build", "independent"),
}


def check(top: Path, folder: str, cache: str) -> bool:
    """Whether mypy finds nothing in a folder; else it tells what it finds."""
    words = ["mypy", "--strict", f"--config-file={top / '.ci' / 'mypy.ini'}", f"--cache-dir={cache}", "--no-error-summary"]
    paths = os.pathsep.join(str(top / place) for place in FOLDERS[folder])
    files = sorted((top / folder).rglob("*.py"))
    return subprocess.run([*words, *files], cwd=top, env={**os.environ, "MYPYPATH": paths}).returncode == 0


def checked(top: Path) -> Iterator[bool]:
    with tempfile.TemporaryDirectory(prefix="gicstudy-types-") as cache:
        for folder in FOLDERS:
            is_right = check(top, folder, cache)
            if not is_right:
                print(f"{folder}: mypy finds faults", flush=True)
            yield is_right


def main(words: list[str], top: Path = TOP) -> int:
    if words:
        print(__doc__, file=sys.stderr)
        return 2
    if shutil.which("mypy") is None:
        print("mypy isn't there: whether the Python of the repository is typed is left out")
        print("0 passed, 0 failed", flush=True)
        return 0
    found = list(checked(top))
    print(f"{sum(found)} passed, {len(found) - sum(found)} failed", flush=True)
    return 0 if all(found) else 1


if __name__ == "__main__":
    sys.exit(main(sys.argv[1:]))
