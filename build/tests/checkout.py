"""A small checkout with the script, the build and a toolchain that only looks like one."""

import os
import shutil
import subprocess
import sys
import tempfile
import time
from pathlib import Path

TOP = Path(__file__).resolve().parent.parent.parent
CRATES = {"low": "", "left": "low", "right": "low", "high": "left right", "other": "", "gicstudy": "high"}


class Checkout:
    """A repository of a few crates in a folder of its own."""

    def __init__(self) -> None:
        self.top = Path(tempfile.mkdtemp(prefix="gicstudy-test-"))
        shutil.copy2(TOP / "gicstudy", self.top / "gicstudy")
        shutil.copytree(TOP / "build", self.top / "build", ignore=shutil.ignore_patterns("tests", "__pycache__"))
        for name, below in CRATES.items():
            self.write(name, name)
        lines = [f"{name}: {below}".strip() for name, below in CRATES.items()]
        (self.top / "crates.txt").write_text("\n".join(["# crates", *lines, ""]), encoding="utf-8")
        self.bin = self.top / "bin"
        self.bin.mkdir()
        shutil.copy2(TOP / "build/tests/fake_rt.py", self.bin / "rt")
        shutil.copy2(TOP / "build/tests/fake_rtlib.py", self.bin / "rtlib.py")
        self.out = self.top / "crates/gicstudy/out"
        self.log = self.top / "rt.log"
        self.log.write_text("", encoding="utf-8")

    def remove(self) -> None:
        shutil.rmtree(self.top, ignore_errors=True)

    def source(self, name: str) -> Path:
        return self.top / "crates" / name / "src" / ("main.rt" if name == "gicstudy" else "lib.rt")

    def write(self, name: str, text: str) -> None:
        self.source(name).parent.mkdir(parents=True, exist_ok=True)
        self.source(name).write_text(f"{text}\n", encoding="utf-8")

    def environment(self, has_rt: bool = True) -> dict[str, str]:
        path = "/usr/bin:/bin"
        python = shutil.which("python3")
        if python is not None:
            path = f"{Path(python).parent}:{path}"
        path = f"{self.bin}:{path}" if has_rt else path
        return {"PATH": path, "FAKE_RT_LOG": str(self.log)}

    def modules(self) -> dict[str, str]:
        """The variable by which Python finds the modules of the build."""
        return {"PYTHONPATH": str(self.top / "build")}

    def start(
        self, *words: str | bytes, has_rt: bool = True, cwd: str | Path = "/", given: int = subprocess.DEVNULL, **more: str
    ) -> subprocess.Popen[str]:
        """A call in a process group of its own, as a terminal starts one."""
        return subprocess.Popen(
            [self.top / "gicstudy", *words],
            cwd=cwd,
            env={**self.environment(has_rt), **more},
            stdin=given,
            stdout=subprocess.PIPE,
            stderr=subprocess.PIPE,
            text=True,
            process_group=0,
        )

    def call(
        self, *words: str | bytes, has_rt: bool = True, cwd: str | Path = "/", **more: str
    ) -> tuple[int, str, str]:
        """Status, output and what was said of a call that was waited for."""
        started = self.start(*words, has_rt=has_rt, cwd=cwd, given=subprocess.DEVNULL, **more)
        out, said = started.communicate(timeout=300)
        return started.returncode, out, said

    def prove(self, *words: str | bytes, has_rt: bool = True) -> tuple[int, str, str]:
        """The same of a call that proves and builds first."""
        return self.call("--prove", *words, has_rt=has_rt)

    def build_again(self) -> tuple[int, str]:
        """Status and what was said of a build that begins where the program is built already."""
        words = "import sys, proving; top = proving.Path(sys.argv[1])"
        words += "; proving.build(top, proving.Teller(), 'it was looked at before', proving.read_sources(top))"
        ran = subprocess.run(
            [sys.executable, "-B", "-c", words, self.top],
            env={**self.environment(), **self.modules()},
            capture_output=True,
            text=True,
        )
        return ran.returncode, ran.stderr

    def call_with(self, change: str, *words: str, **more: str) -> tuple[int, str, str]:
        """Status, output and what was said of a call with a change of the build's Python, as of what comes at a bad moment."""
        text = f"{change}\nimport command, sys\nsys.exit(command.main(sys.argv[1:]))"
        ran = subprocess.run(
            [sys.executable, "-B", "-c", text, *words],
            cwd="/",
            env={**self.environment(), **self.modules(), **more},
            stdin=subprocess.DEVNULL,
            capture_output=True,
            text=True,
        )
        return ran.returncode, ran.stdout, ran.stderr

    def noted(self, verb: str = "begin") -> list[str]:
        """The crates at which `rt` was called since the last look, or has ended, in their order."""
        lines = [it.split() for it in self.log.read_text(encoding="utf-8").splitlines()]
        return [" ".join(it[1:2]) for it in lines if it[0] == verb]

    def forget(self) -> None:
        self.log.write_text("", encoding="utf-8")

    def wait_for(self, name: str) -> None:
        """Waits until `rt` is called for a crate."""
        for _ in range(2000):
            if name in self.noted():
                return
            time.sleep(0.05)
        raise AssertionError(f"rt wasn't called for {name}")

    def settle(self) -> None:
        """Lets the second pass in which a file counts as changed, whichever came first, and has the record dated."""
        time.sleep(1.1)
        self.call()
        self.forget()

    def left(self) -> list[str]:
        """What lies in the folders out/."""
        found = [it for it in self.top.glob("crates/*/out/*")]
        return sorted(str(it.relative_to(self.top / "crates")) for it in found)

    def is_looked_at(self) -> bool:
        """Whether the next call looks at the contents of the sources: there is no Python then."""
        ran = subprocess.run(
            [self.top / "gicstudy"], cwd="/", env={"PATH": self.path_without_python()}, capture_output=True, text=True
        )
        return "python3" in ran.stderr

    def path_without_python(self) -> str:
        tools = self.top / "tools"
        if not tools.is_dir():
            tools.mkdir()
            for it in ("bash", "sh", "cat", "find", "readlink", "env"):
                os.symlink(shutil.which(it) or f"/bin/{it}", tools / it)
        return str(tools)
