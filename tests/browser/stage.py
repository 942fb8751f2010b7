"""Servers for the tests in the browser: each set of arguments has one, which answers until all tests are done."""

from __future__ import annotations

import os
import re
import subprocess
import sys
from collections.abc import Callable, Iterator
from contextlib import ExitStack, contextmanager
from pathlib import Path
from typing import Any, TypeVar

from walzhik import tucson

ROOT = Path(__file__).resolve().parents[2]
OAK, ROOF, BEAM = ("examples/tucson/oak.rwl", "examples/sheets/roof.sheet", "examples/sheets/beam.sheet")
PARTS = ["--earlywood", "ROOF04E", "--latewood", "ROOF04L"]
ROOF_PAGE = [OAK, "--curve", ROOF, *PARTS]
HURTING = "<img src=x onerror=document.title='hurt'>.rwl"

Test = TypeVar("Test", bound=Callable[..., None])
Arguments = list[str]
Made = Callable[[Path], Arguments]


def on(arguments: Arguments | Made) -> Callable[[Test], Test]:
    """The page that a test looks at, by the arguments of the command, or by what makes them in a folder."""

    def marked(test: Test) -> Test:
        setattr(test, "arguments", arguments)
        return test

    return marked


def named_file(folder: Path, file: str, *names: str) -> Arguments:
    """A file with the series of the example under other names."""
    oak = tucson.read(ROOT / OAK)
    series = [tucson.Series(name, oak[place % 2].first, oak[place % 2].widths) for place, name in enumerate(names)]
    (folder / file).write_bytes(tucson.write(series))
    return [str(folder / file)]


def hurting(folder: Path) -> Arguments:
    """A file whose name, and whose series' names, would be markup if they were no text."""
    return named_file(folder, HURTING, "<img src", "<b>X</b>")


def computed(folder: Path) -> Arguments:
    """A file with a series' name that a spreadsheet would compute."""
    return named_file(folder, "odd.rwl", "=A1+A2", "PLAIN")


def crowd(folder: Path) -> Arguments:
    """A file of five series."""
    return named_file(folder, "crowd.rwl", "FIRST", "SECOND", "THIRD", "FOURTH", "FIFTH")


def falling(folder: Path) -> Arguments:
    """A file of two series that start in different years, with rings counted from the earlier one."""
    early = tucson.Series("LATER", 1805, list(range(950, 550, -10)))
    late = tucson.Series("EARLIER", 1801, list(range(800, 400, -10)))
    (folder / "falling.rwl").write_bytes(tucson.write([early, late]))
    return [str(folder / "falling.rwl"), "--first", "1"]


def pairs(folder: Path) -> Arguments:
    """A file of two pairs of wood parts, and one series beside them."""
    return named_file(folder, "pairs.rwl", "A9E", "A9L", "B10E", "B10L", "ALONE")


@contextmanager
def served(*arguments: str) -> Iterator[tuple[str, subprocess.Popen[str]]]:
    """The address of a server that the command has started, and its process."""
    environment = os.environ | {"PYTHONPATH": str(ROOT / "python/src"), "PYTHONUNBUFFERED": "1"}
    command = [sys.executable, "-m", "walzhik", "view", *arguments]
    process = subprocess.Popen(command, stdout=subprocess.PIPE, text=True, cwd=ROOT, env=environment)
    try:
        assert process.stdout is not None
        found = re.search(r"http://\S+", process.stdout.readline())
        assert found, "the command printed no address"
        yield found.group(), process
    finally:
        process.terminate()
        process.wait()


@contextmanager
def serving(*arguments: str) -> Iterator[str]:
    """The address of a server that the command has started."""
    with served(*arguments) as (address, _):
        yield address


class Stage:
    """The servers that are up, and the folder for files."""

    def __init__(self, folder: Path, stack: ExitStack) -> None:
        self.folder, self.stack = folder, stack
        self.addresses: dict[Any, str] = {}

    def address(self, arguments: Arguments | Made) -> str:
        """The address of the server for these arguments, which is started at the first time of asking."""
        key = arguments if callable(arguments) else tuple(arguments)
        if key not in self.addresses:
            made = arguments(self.folder) if callable(arguments) else arguments
            self.addresses[key] = self.stack.enter_context(serving(*made))
        return self.addresses[key]
