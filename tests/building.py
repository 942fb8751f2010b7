"""Programs, drivers and examples, each built once for all processes of a run, and a way to run a command."""

from __future__ import annotations

import fcntl
import os
import shlex
import subprocess
import sys
from collections.abc import Callable, Iterator, Sequence
from contextlib import contextmanager
from pathlib import Path

ROOT = Path(__file__).resolve().parents[1]
ARCHIVES = ROOT / "target/staticlib"
CURVES, INDICES = ARCHIVES / "libwalzhik.a", ARCHIVES / "libwalzhik_indices.a"
CC = ["cc", "-std=c11", "-O2", "-Wall", "-Wextra", "-Werror", "-Iinclude"]
RUSTC = ["rustc", "--edition", "2021", "-O", "-D", "warnings", "-L", "target/staticlib"]
SET_UP = ["./walzhik", "explain", "examples/sheets/w1.sheet"]  # the command sets the package up where that is not done
SAID = 6000  # characters of what a command said that a failure shows


def ended(command: Sequence[object], **more: object) -> str:
    """What a command prints; a failure that shows what it said where it ends badly."""
    words = [str(word) for word in command]
    done = subprocess.run(words, cwd=ROOT, stdin=subprocess.DEVNULL, capture_output=True, text=True, **more)  # type: ignore[call-overload]
    assert done.returncode == 0, f"{shlex.join(words)}: status {done.returncode}\n{(done.stdout + done.stderr)[-SAID:]}"
    return str(done.stdout)


def python(script: str, *arguments: object) -> str:
    """What a script of this folder prints."""
    return ended([sys.executable, ROOT / script, *arguments])


class Built:
    """Things that are made once in a run, by whichever process asks first."""

    def __init__(self, folder: Path) -> None:
        self.folder = folder
        folder.mkdir(parents=True, exist_ok=True)

    def once(self, name: str, make: Callable[[Path], object]) -> Path:
        """The path of what is made under this name; the others wait until it is there."""
        path, done = self.folder / name, self.folder / f"{name}.done"
        with open(self.folder / f"{name}.lock", "w") as lock:
            fcntl.flock(lock, fcntl.LOCK_EX)
            if not done.exists():
                make(path)
                done.touch()
        return path

    def c(self, name: str, *sources: object) -> Path:
        """A program in C from these sources and archives."""
        return self.once(name, lambda path: ended([*CC, *sources, "-o", path]))

    def rust(self, name: str, source: str) -> Path:
        """A program in Rust over the archives."""
        return self.once(name, lambda path: ended([*RUSTC, source, "-o", path]))


def built_once(own: Path) -> Built:
    """The folder of all that is built, one for all processes of a run whose own folder is this, with the archives in target/."""
    made = Built((own.parent if "PYTEST_XDIST_WORKER" in os.environ else own) / "built")
    made.once("archives", lambda _: ended([".ci/build", "walzhik", "walzhik_indices"]))
    return made


@contextmanager
def archives_at_rest(own: Path) -> Iterator[None]:
    """While no other process of a run, whose own folder is this, builds the archives anew; the package is linked to them first."""
    made = built_once(own)
    with open(made.folder / "at_rest.lock", "w") as lock:
        fcntl.flock(lock, fcntl.LOCK_EX)
        ended(SET_UP)
        yield


def proved_programs(made: Built) -> Path:
    """The folder of the proved programs, which are built first."""
    made.once("programs", lambda _: ended([".ci/build", "sheet", "tucson", "rings"]))
    return ROOT / "target/bin"
