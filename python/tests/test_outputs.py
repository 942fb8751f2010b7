"""An output that is an input: every command that writes refuses it, by the identity of the file."""

from __future__ import annotations

import importlib
import os
import pkgutil
import subprocess
import sys
from collections.abc import Callable
from pathlib import Path

import pytest
from commandline import UNUSABLE, line_sheet, rwl
from running import ROOT, Run

from walzhik import commands
from walzhik.files import same_as
from walzhik.tucson import Series

# A command's arguments, of which one is an input that the output must not be.
CALLS: dict[str, list[tuple[str, ...]]] = {
    "clean": [("a.rwl",)],
    "coefficients": [
        ("a.csv", "--breaks", "0,2", "--degrees", "1"),
        ("-", "--space", "a.sheet"),
    ],
    "curve": [("a.sheet",)],
    "fit": [("a.rwl",)],
    "indices": [
        ("a.rwl", "--fit"),
        ("-", "--curve", "a.sheet"),
        ("-", "--curve", "A=a.sheet"),
    ],
    "plot": [("a.sheet",), ("--curve", "a.sheet", "a.rwl", "--format", "png"), ("a.rwl", "--curve", "-")],
    "reach": [("a.sheet", "--width", "1")],
}
GIVEN = ("a.rwl", "a.sheet", "a.csv")


@pytest.fixture
def folder(tmp_path: Path) -> Path:
    """A Tucson file, a sheet and a supplier's table, each usable."""
    rwl(tmp_path, Series("A", 1900, [900, 800, 700]))
    line_sheet(tmp_path, [1900, 1902], [(900, 900), (700, 700)])
    (tmp_path / "a.csv").write_text("ring_mm\n1\n2\n")
    return tmp_path


def cases() -> list[tuple[str, tuple[str, ...], str]]:
    """The name of a command, its arguments, and each input among them."""
    return [
        (name, arguments, given)
        for name, calls in CALLS.items()
        for arguments in calls
        for given in GIVEN
        if given in [each.rpartition("=")[2] for each in arguments]
    ]


def test_every_command_with_an_output_is_tried() -> None:
    writing = set()
    for module in pkgutil.iter_modules(commands.__path__):
        if not module.name.startswith("_"):
            command = importlib.import_module(f"walzhik.commands.{module.name}").command
            if any(each.name == "output" and each.param_type_name == "option" for each in command.params):
                writing.add(module.name)
    assert writing == set(CALLS)


def itself(path: Path) -> Path:
    return path


def by_link(path: Path) -> Path:
    link = path.with_name("soft.svg")
    link.symlink_to(path.name)
    return link


def by_hard_link(path: Path) -> Path:
    link = path.with_name("hard.svg")
    link.hardlink_to(path)
    return link


def by_another_way(path: Path) -> Path:
    return path.parent / "." / "sub" / ".." / path.name


@pytest.mark.parametrize("alias", [itself, by_link, by_hard_link, by_another_way])
@pytest.mark.parametrize(("name", "arguments", "given"), cases())
def test_an_input_is_not_overwritten(
    run: Run, folder: Path, name: str, arguments: tuple[str, ...], given: str, alias: Callable[[Path], Path]
) -> None:
    (folder / "sub").mkdir()
    before = {each: (folder / each).read_bytes() for each in GIVEN}
    output = str(alias(folder / given)) if alias is not by_another_way else f"{folder}/sub/../{given}"
    placed = [str(each).replace(given, f"{folder}/{given}") for each in arguments]
    placed = [each if os.sep in each or each not in GIVEN else f"{folder}/{each}" for each in placed]
    more = ("--format", "svg") if name == "plot" and "--format" not in placed else ()
    ended = run(name, *placed, *more, "-o", output)
    assert ended.status == UNUSABLE and "would be destroyed" in ended.err and ended.out == ""
    assert {each: (folder / each).read_bytes() for each in GIVEN} == before


@pytest.mark.parametrize("end", ["", os.sep, os.sep * 2])
@pytest.mark.parametrize("call", [("clean", "a.rwl"), ("indices", "a.rwl", "--fit", "--format", "csv")])
def test_a_folder_s_name_is_no_output(run: Run, folder: Path, call: tuple[str, ...], end: str) -> None:
    before = (folder / "a.rwl").read_bytes()
    name, given, *options = call
    output = f"{folder}/a.rwl{end}" if end else ""
    ended = run(name, f"{folder}/{given}", *options, "-o", output)
    assert ended.status == UNUSABLE and "a file's name is needed" in ended.err
    assert (folder / "a.rwl").read_bytes() == before


def test_a_full_device_behind_help_is_told() -> None:
    with open("/dev/full", "wb") as full:
        ended = subprocess.run(
            [sys.executable, "-m", "walzhik", "--help"],
            stdout=full,
            stderr=subprocess.PIPE,
            env={**os.environ, "PYTHONPATH": str(ROOT / "python" / "src")},
            check=False,
        )
    assert ended.returncode == UNUSABLE and ended.stderr == b"No space left on device\n"


def test_a_link_to_nothing_is_followed(tmp_path: Path) -> None:
    (tmp_path / "link").symlink_to("not_there.rwl")
    assert same_as(str(tmp_path / "link"), [str(tmp_path / "not_there.rwl")]) is not None
    assert same_as(str(tmp_path / "other"), [str(tmp_path / "not_there.rwl")]) is None


def test_devices_are_no_files() -> None:
    assert same_as("/dev/null", ["/dev/null"]) is None


@pytest.mark.parametrize("redirected", ["input", "output"])
def test_what_standard_streams_stand_for(folder: Path, redirected: str) -> None:
    data = folder / "a.rwl"
    before = data.read_bytes()
    arguments = ["fit", "-", "-o", str(data)] if redirected == "input" else ["fit", str(data)]
    with open(data, "rb" if redirected == "input" else "ab") as stream:
        ended = subprocess.run(
            [sys.executable, "-m", "walzhik", *arguments],
            stdin=stream if redirected == "input" else subprocess.DEVNULL,
            stdout=stream if redirected == "output" else subprocess.PIPE,
            stderr=subprocess.PIPE,
            env={**os.environ, "PYTHONPATH": str(ROOT / "python" / "src")},
            check=False,
        )
    assert ended.returncode == UNUSABLE and b"would be destroyed" in ended.stderr
    assert data.read_bytes() == before
