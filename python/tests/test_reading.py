"""How every command reads a laboratory's Tucson file: through the proved call, with the same options, notes and refusals."""

from __future__ import annotations

from pathlib import Path

import pytest
from commandline import OAK, REFUSED, UNUSABLE
from running import ROOT, Run

from walzhik import tucson

TEXT = (ROOT / OAK).read_bytes()
HEADED = b"The town hall's roof\n" + TEXT.replace(b"\n", b"\r\n")
SHEET = "examples/sheets/roof.sheet"
# Each command that reads files of widths, and what it is asked besides.
COMMANDS: dict[str, tuple[str, ...]] = {
    "clean": (),
    "explain": (),
    "fit": ("--series", "ROOF04E"),
    "indices": ("--fit", "--series", "ROOF04E"),
    "plot": ("--format", "svg", "-o", "/dev/null"),
    "convert": ("/dev/null", "--to", "csv"),
}
IN_FULL = ("clean", "explain")
MORE = {**COMMANDS, "view": ("--port", "0")}


@pytest.fixture
def headed(tmp_path: Path) -> Path:
    path = tmp_path / "headed.rwl"
    path.write_bytes(HEADED)
    return path


@pytest.mark.parametrize("command", MORE)
@pytest.mark.parametrize(
    ("text", "options"),
    [(b"", ()), (b"\n \t\r\n\x1a", ()), (b"A roof\n", ("--header", "1")), (b"", ("--strict",))],
    ids=["empty", "blank", "header", "strict"],
)
def test_a_file_without_a_series(run: Run, tmp_path: Path, command: str, text: bytes, options: tuple[str, ...]) -> None:
    path = tmp_path / "none.rwl"
    path.write_bytes(text)
    if command == "clean" and "--strict" in options:
        options = ()
    ended = run(command, path, *MORE[command], *options)
    assert ended.status == REFUSED and "The file holds no series." in ended.out + ended.err
    assert "See that it is the right file, and whole." in ended.out + ended.err


@pytest.mark.parametrize("command", MORE)
def test_gaps_are_split_by_hand(run: Run, headed: Path, command: str) -> None:
    ended = run(command, headed, *MORE[command], "--split-gaps")
    assert (ended.status, ended.out) == (UNUSABLE, "")
    assert "Split a series by hand: put its closing" in ended.err and "another name" in ended.err
    assert "--split-gaps" not in run(command, "--help").out


@pytest.mark.parametrize("command", COMMANDS)
def test_the_header_that_is_named(run: Run, headed: Path, command: str) -> None:
    ended = run(command, headed, *COMMANDS[command])
    assert ended.status == REFUSED and "no=11,1" in ended.out + ended.err and "(--header N)" in ended.out + ended.err
    ended = run(command, headed, *COMMANDS[command], "--header", "1")
    assert ended.status == 0
    plain = run(command, OAK, *COMMANDS[command])
    assert plain.out == ended.out


@pytest.mark.parametrize("command", COMMANDS)
def test_notes_are_told_where_they_matter(run: Run, headed: Path, command: str) -> None:
    told = run(command, headed, *COMMANDS[command], "--header", "1").err
    lines = [line.removeprefix(f"{headed}: ") for line in told.splitlines() if line.startswith(f"{headed}: ")]
    full = [
        "Line 1: a header line was taken out.",
        "Lines 2 to 23: the line end of Windows became a plain one.",
    ]
    remark = "Line 23: a series ends here in another unit than the first one of the file (999 closes hundredths of a millimetre, -9999 thousandths); see that it is so."
    short = ["23 lines were brought into the strict form; ./walzhik clean lists them."]
    assert lines == (full if command in IN_FULL else short) + [remark]
    quiet = run(command, headed, *COMMANDS[command], "--header", "1", "--quiet").err
    assert f"{headed}: {remark}" in quiet and "strict form" not in quiet and "header line" not in quiet


@pytest.mark.parametrize("command", MORE)
def test_a_name_that_comes_again(run: Run, tmp_path: Path, command: str) -> None:
    path = tmp_path / "again.rwl"
    path.write_bytes(TEXT + b"ROOF04E 1900   812 -9999\n")
    ended = run(command, path, *MORE[command])
    assert ended.status == REFUSED and "Line 23: series 'ROOF04E ' comes again, after its last line 11." in ended.err


@pytest.mark.parametrize("command", COMMANDS)
def test_options_for_tucson_files_alone(run: Run, tmp_path: Path, command: str) -> None:
    path = tmp_path / "a.fh"
    path.write_bytes(b"HEADER:\nKeyCode=ROOF04E\nDateBegin=1998\nLength=2\nUnit=1/100 mm\nDATA:Tree\n   123   119\n")
    for option, said in ((("--header", "2"), "--header is for Tucson files"), (("--hundredths",), "says its Unit")):
        ended = run(command, path, *COMMANDS[command], *option)
        assert ended.status == UNUSABLE and said in ended.err


@pytest.mark.parametrize("command", COMMANDS)
def test_an_option_that_comes_again(run: Run, headed: Path, command: str) -> None:
    ended = run(command, headed, *COMMANDS[command], "--header", "1", "--header", "2")
    assert ended.status == UNUSABLE and "--header is given 2 times" in ended.err


def test_the_bank_reads_through_the_same_call(run: Run, headed: Path, tmp_path: Path) -> None:
    made = tmp_path / "bank"
    ended = run("bank", headed, made, "--workers", "1")
    assert ended.status == REFUSED and "no=11,1" in ended.err and "(--header N)" in ended.err
    assert run("bank", headed, made, "--workers", "1", "--header", "1").status == 0
    [line] = [line for line in (made / "report.csv").read_text().splitlines() if "headed.rwl,," in line]
    assert "Lines 2 to 23: the line end of Windows became a plain one." in line
    assert run("bank", headed, made, "--split-gaps").status == UNUSABLE


def test_what_is_not_read_as_the_file_shows_it_would_be_seen(monkeypatch: pytest.MonkeyPatch) -> None:
    """The check against the file's bytes fails where a digit stands in another column, or a line is lost."""
    from test_laboratory import FEW, stands_in_the_file

    good = tucson.clean(FEW)
    stands_in_the_file(FEW, good)
    for wrong in (
        good._replace(text=FEW.replace(b"    12", b"   12 ")),
        good._replace(text=FEW[25:], lines=(2,)),
        good._replace(text=FEW.replace(b"1998", b"1999")),
    ):
        with pytest.raises(AssertionError):
            stands_in_the_file(FEW, wrong)
