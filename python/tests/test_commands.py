"""What all commands share: explanations, refusals and statuses, files whole or not at all, pipes, and the examples of
--help, which run as they stand there.
"""

from __future__ import annotations

import os
import re
import shlex
import signal
import subprocess
import sys
from pathlib import Path

import click
import pytest
from commandline import OAK, PARTS, REFUSED, ROOF, UNUSABLE
from running import ROOT, Run

from walzhik.cli import cli
from walzhik.files import write_whole

COMMANDS = cli.list_commands(click.Context(cli))  # type: ignore[attr-defined]
SERVING = ("view",)  # answers until it is interrupted: test_view_server.py starts the example of its help
HEAVY = """
import sys
from walzhik.cli import main
try:
    main(sys.argv[1:])
finally:
    print([name for name in ("scipy", "matplotlib", "tqdm", "pandas") if name in sys.modules], file=sys.stderr)
"""


def python(*arguments: str, **given: object) -> subprocess.CompletedProcess[bytes]:
    """A Python of its own, with the package."""
    environment = os.environ | {"PYTHONPATH": str(ROOT / "python" / "src"), "WALZHIK_ROOT": str(ROOT)}
    options = {"cwd": ROOT, "env": environment, "stderr": subprocess.PIPE, "check": False} | given
    return subprocess.run([sys.executable, *arguments], **options)  # type: ignore[call-overload,no-any-return]


def test_explain(run: Run) -> None:
    ended = run("explain", "examples/refusals/refused_5.sheet")
    assert ended == (REFUSED, (ROOT / "examples/refusals/refused_5.explained").read_text(), "")
    ended = run("explain", OAK, "examples/sheets/w1.sheet")
    assert ended.status == 0 and ended.out.startswith(f"{OAK}:\nAccepted: 2 series.\n")
    assert "w1.sheet:\nAccepted: " in ended.out
    assert run("explain", "-", "--tucson", stdin=(ROOT / OAK).read_bytes()).out.startswith("Accepted: 2 series.")


def test_explain_reads_a_laboratorys_file(run: Run) -> None:
    plain = run("explain", OAK)
    path = "examples/refusals/refused_11_laboratory.rwl"
    ended = run("explain", path)
    assert (ended.status, ended.out) == (0, plain.out)
    assert ended.err == (ROOT / "examples/day/clean.txt").read_text()
    ended = run("explain", "--strict", path)
    assert ended == (REFUSED, (ROOT / path).with_suffix(".explained").read_text(), "")


def test_explain_guesses_nothing(run: Run) -> None:
    ended = run("explain", "examples/refusals/refused_12.rwl")
    head, words, remedy = ended.out.splitlines()
    assert (ended.status, ended.err, head) == (REFUSED, "", "Refused: no=12,2.")
    assert f"refused, no=12,2. {words} {remedy}\n" in (ROOT / "examples/day/gap.txt").read_text()
    text = b"\nFEW     1998    12     9\r\n"
    ended = run("explain", "--tucson", "-", stdin=text)
    assert ended.status == REFUSED and ended.out.startswith("Refused: no=13,2.\nLine 2 ends series")
    assert run("explain", "--hundredths", "--thousandths", OAK).status == UNUSABLE


def number_of(path: Path) -> str:
    """Number and place of a refused example."""
    found = re.match(r"Refused: (no=\d+,\d+)", path.with_suffix(".explained").read_text())
    assert found
    return found[1]


TIDIED = [f"refused_10_{fault}" for fault in ("blank", "end", "missing", "windows")]  # what the command puts right


@pytest.mark.parametrize("path", sorted(ROOT.glob("examples/refusals/*.sheet")), ids=lambda path: path.stem)
def test_refused_sheets_are_refused_everywhere(run: Run, path: Path) -> None:
    strict = ("indices", OAK, "--strict", "--curve", path, *PARTS)
    if path.stem in TIDIED:
        assert run("curve", path).status == 0
    more = (("curve", path), ("reach", path, "--width", "1"), ("indices", OAK, "--curve", path, *PARTS))
    for arguments in (strict, *(() if path.stem in TIDIED else more)):
        ended = run(*arguments)
        assert (ended.status, ended.out) == (REFUSED, "")
        assert number_of(path) in ended.err and str(path) in ended.err


@pytest.mark.parametrize("path", sorted(ROOT.glob("examples/refusals/*.rwl")), ids=lambda path: path.stem)
def test_refused_files_are_refused_everywhere(run: Run, path: Path) -> None:
    for arguments in (("fit", path), ("indices", path, "--fit")):
        ended = run(*arguments, "--strict")
        assert (ended.status, ended.out) == (REFUSED, "")
        assert number_of(path) in ended.err and str(path) in ended.err


@pytest.mark.parametrize("name", ["curve", "explain", "fit", "reach --width 1", "clean", "indices --fit"])
def test_missing_files_and_folders(run: Run, tmp_path: Path, name: str) -> None:
    command, *options = name.split()
    for path in (tmp_path / "none.rwl", tmp_path):
        ended = run(command, path, *options)
        assert ended.status == UNUSABLE and str(path) in ended.err and ended.out == ""


def test_outputs_are_whole_or_not_there(run: Run, tmp_path: Path) -> None:
    out = tmp_path / "roof.csv"
    assert run("indices", OAK, "--curve", ROOF, "-o", out).status == UNUSABLE
    assert os.listdir(tmp_path) == []
    assert run("indices", OAK, "--curve", ROOF, *PARTS, "-o", out).status == 0
    assert os.listdir(tmp_path) == ["roof.csv"]
    assert out.read_text() == run("indices", OAK, "--curve", ROOF, *PARTS).out
    ended = run("curve", ROOF, "-o", tmp_path / "none" / "a.csv")
    assert ended.status == UNUSABLE and ended.err == f"{tmp_path / 'none' / 'a.csv'}: No such file or directory\n"


def test_a_file_that_cannot_be_finished_stays_as_it_was(tmp_path: Path, monkeypatch: pytest.MonkeyPatch) -> None:
    path = tmp_path / "a"
    path.write_bytes(b"before")
    path.chmod(0o640)
    monkeypatch.setattr(os, "replace", lambda *_: (_ for _ in ()).throw(OSError("no")))
    with pytest.raises(OSError, match="no"):
        write_whole(str(path), b"after")
    assert path.read_bytes() == b"before" and os.listdir(tmp_path) == ["a"]
    monkeypatch.undo()
    (tmp_path / "link").symlink_to(path)
    write_whole(str(tmp_path / "link"), b"after")
    assert path.read_bytes() == b"after" and path.stat().st_mode & 0o777 == 0o640 and (tmp_path / "link").is_symlink()


@pytest.mark.parametrize("name", COMMANDS)
def test_help_shows_an_example(run: Run, name: str) -> None:
    ended = run(name, "--help")
    assert ended.status == 0 and f"./walzhik {name} " in ended.out


def test_the_commands_are_these(run: Run) -> None:
    assert {"clean", "coefficients", "curve", "explain", "fit", "indices", "plot", "reach"} <= set(COMMANDS)
    ended = run("--help")
    assert ended.status == 0 and all(name in ended.out for name in COMMANDS)
    assert run("none").status == UNUSABLE


def help_of(name: str) -> str:
    """A command's help, the lines of an example that go on put together."""
    text = cli.get_command(click.Context(cli), name).help  # type: ignore[attr-defined]
    return re.sub(r"\n +(?=--)", " ", text)


def examples_of_help() -> list[str]:
    lines = [line.strip() for name in COMMANDS if name not in SERVING for line in help_of(name).splitlines()]
    return [line for line in lines if line.startswith("./walzhik ") and "examples/" in line]


@pytest.mark.parametrize("line", examples_of_help())
def test_the_examples_of_help_run(run: Run, tmp_path: Path, line: str) -> None:
    words = shlex.split(line)[1:]
    if "-o" in words:
        words[words.index("-o") + 1] = f"{tmp_path}/{words[words.index('-o') + 1]}"
    if words[0] in ("bank", "convert"):
        words[2] = str(tmp_path / words[2])
    ended = run(*words)
    assert ended.status == (REFUSED if "refused" in line else 0), ended.err
    shown = [each.strip() for each in help_of(words[0]).split(line)[1].split("\n\n")[0].splitlines() if each.strip()]
    if shown and not shown[0].startswith("./walzhik"):
        assert ended.out.splitlines() == shown


def test_a_broken_pipe_is_quiet() -> None:
    """The reader has gone before anything is written."""
    reading, writing = os.pipe()
    os.close(reading)
    ended = python("-m", "walzhik", "curve", ROOF, stdout=writing)
    os.close(writing)
    assert ended.stderr == b"" and ended.returncode == 128 + signal.SIGPIPE


def test_a_full_disk_is_told() -> None:
    with open("/dev/full", "wb") as full:
        ended = python("-m", "walzhik", "curve", ROOF, stdout=full)
    assert ended.returncode == UNUSABLE and ended.stderr == b"standard output: No space left on device\n"


def test_standard_input_and_output() -> None:
    text = (ROOT / OAK).read_bytes()
    ended = python("-m", "walzhik", "indices", "-", "--curve", ROOF, *PARTS, input=text, stdout=subprocess.PIPE)
    assert ended.returncode == 0 and ended.stdout.startswith(b"series,year,") and len(ended.stdout.splitlines()) == 201


def test_a_fault_of_the_command_is_no_refusal(run: Run, monkeypatch: pytest.MonkeyPatch) -> None:
    from walzhik.commands import curve

    monkeypatch.setattr(curve, "rows", lambda *_: 1 / 0)
    ended = run("curve", ROOF)
    assert ended.status == UNUSABLE and "fault of the command itself" in ended.err and "ZeroDivisionError" in ended.err


def test_a_fast_start_imports_nothing_heavy(tmp_path: Path) -> None:
    for arguments in (("curve", ROOF), ("explain", ROOF), ("clean", OAK), ("indices", OAK, "--curve", ROOF, *PARTS)):
        ended = python("-c", HEAVY, *arguments, stdout=subprocess.DEVNULL)
        assert ended.returncode == 0 and ended.stderr.splitlines()[-1] == b"[]"


def test_the_example_in_python() -> None:
    with (ROOT / OAK).open("rb") as text:
        ended = python("examples/python/daily.py", stdin=text, stdout=subprocess.PIPE)
    assert ended.returncode == 0, ended.stderr
    assert ended.stdout == (ROOT / "examples/python/daily.txt").read_bytes()
