"""The command `clean`: what it writes, what it tells on standard error, its exit status, and that it writes whole files or none."""

import io
import re
import sys
from pathlib import Path

import pytest

from walzhik import cli

ROOT = Path(__file__).resolve().parents[2]
OAK = (ROOT / "examples" / "tucson" / "oak.rwl").read_bytes()
PINE = (ROOT / "examples" / "tucson" / "pine.rwl").read_bytes()
OTHER_UNIT = (
    "a series ends here in another unit than the first one of the file (999 closes hundredths of a millimetre, "
)
OTHER_UNIT += "-9999 thousandths); see that it is so."


def run(capfd: pytest.CaptureFixture[str], *arguments: object) -> tuple[int, str, str]:
    """The exit status and what stood on the two outputs."""
    with pytest.raises(SystemExit) as ended:
        cli.main(["clean", *map(str, arguments)])
    out, told = capfd.readouterr()
    assert isinstance(ended.value.code, int)
    return ended.value.code, out, told


def test_a_file_of_windows(tmp_path: Path, capfd: pytest.CaptureFixture[str]) -> None:
    source, made = tmp_path / "windows.rwl", tmp_path / "strict.rwl"
    source.write_bytes(b"\xef\xbb\xbf" + OAK.replace(b"\n", b"\r\n"))
    status, out, told = run(capfd, source, "-o", made)
    assert (status, out) == (0, "") and made.read_bytes() == OAK
    assert told.splitlines() == [
        f"{source}: Line 1: a byte order mark was taken off.",
        f"{source}: Lines 1 to 22: the line end of Windows became a plain one.",
        f"{source}: Line 22: {OTHER_UNIT}",
    ]


def test_standard_input_to_standard_output(monkeypatch: pytest.MonkeyPatch, capfd: pytest.CaptureFixture[str]) -> None:
    monkeypatch.setattr(sys, "stdin", io.TextIOWrapper(io.BytesIO(OAK[:-1])))
    status, out, told = run(capfd, "-")
    assert (status, out.encode()) == (0, OAK)
    assert told == f"-: Line 22: a line end was put behind the last line.\n-: Line 22: {OTHER_UNIT}\n"


def test_several_files_become_one(tmp_path: Path, capfd: pytest.CaptureFixture[str]) -> None:
    names = [tmp_path / "oak.rwl", tmp_path / "pine.rwl"]
    for name, text in zip(names, (OAK, PINE)):
        name.write_bytes(text)
    assert run(capfd, *names)[:2] == (0, (OAK + PINE).decode())
    status, out, told = run(capfd, names[0], names[0])
    assert (status, out) == (1, "") and "is also in" in told


@pytest.mark.parametrize(
    ("damage", "said"),
    [
        (
            (b"ROOF04E 1730", b"ROOF04E 1740"),
            "refused, no=12,4. Line 4 starts in 1740, but the next year of series 'ROOF04E ' is 1730: it has no widths for 1730 to 1739.",
        ),
        ((b"  1443", b"  14x3"), "refused, no=11,4. Line 4 has '  14x3' for a field"),
    ],
)
def test_nothing_is_written_where_it_refuses(
    damage: tuple[bytes, bytes], said: str, tmp_path: Path, capfd: pytest.CaptureFixture[str]
) -> None:
    source, made = tmp_path / "damaged.rwl", tmp_path / "strict.rwl"
    source.write_bytes(OAK.replace(*damage, 1))
    made.write_bytes(b"before")
    status, out, told = run(capfd, source, "-o", made)
    assert (status, out) == (1, "") and said in told
    assert made.read_bytes() == b"before"
    assert sorted(path.name for path in tmp_path.iterdir()) == ["damaged.rwl", "strict.rwl"]


def test_the_engine_refuses_by_the_line_of_the_file(tmp_path: Path, capfd: pytest.CaptureFixture[str]) -> None:
    source = tmp_path / "unclosed.rwl"
    source.write_bytes(b"\n\n" + OAK.replace(b"   999\n", b"\n"))
    status, _, told = run(capfd, source)
    assert status == 1 and "refused, no=13,24. Line 24 ends series 'ROOF04L ' with 30" in told


def test_the_unit_that_is_said(tmp_path: Path, capfd: pytest.CaptureFixture[str]) -> None:
    source = tmp_path / "old.rwl"
    source.write_bytes(b"OAK1    1895    81    79  -999\n")
    assert run(capfd, source)[0] == 1
    status, out, told = run(capfd, source, "--hundredths")
    assert (status, out) == (0, "OAK1    1895    81    79   999\n")
    assert told == f"{source}: Line 1: the closing -999 became that of the unit that is said.\n"


def test_a_header_that_is_named(tmp_path: Path, capfd: pytest.CaptureFixture[str]) -> None:
    source = tmp_path / "headed.rwl"
    source.write_bytes(b"The town hall's roof\nQURO\n" + OAK)
    status, _, told = run(capfd, source)
    assert status == 1 and "no=11,1" in told and "(--header N)" in told
    status, out, told = run(capfd, source, "--header", "2")
    assert (status, out) == (0, OAK.decode())
    assert told.splitlines() == [
        f"{source}: Lines 1 to 2: a header line was taken out.",
        f"{source}: Line 24: {OTHER_UNIT}",
    ]
    status, _, told = run(capfd, source, "--header", "3")
    assert status == 1 and "no=26,3. Line 3 is within the header of 3 lines" in told


def test_a_name_that_comes_again(tmp_path: Path, capfd: pytest.CaptureFixture[str]) -> None:
    source, few = tmp_path / "again.rwl", b"FEW     1998    12     9\nFEW     2000     7 -9999\n"
    source.write_bytes(few + PINE + few.replace(b"FEW ", b" FEW"))
    status, out, told = run(capfd, source)
    line = 3 + PINE.count(b"\n")
    assert (status, out) == (1, "") and f"Line {line}: series ' FEW    ' comes again, after its last line 2." in told


def test_quietly_remarks_alone(tmp_path: Path, capfd: pytest.CaptureFixture[str]) -> None:
    source = tmp_path / "absent.rwl"
    source.write_bytes(b"A       1890   700     0   999\r\n")
    assert len(run(capfd, source)[2].splitlines()) == 2
    status, out, told = run(capfd, source, "--quiet")
    assert (status, out) == (0, "A       1890   700     0   999\n")
    assert re.fullmatch(r".*: Line 1: a series begins or ends here with 0, an absent ring .*\n", told)


@pytest.mark.parametrize(
    "arguments",
    [
        [],
        ["nosuch.rwl"],
        ["--hundredths", "--thousandths", str(ROOT / "examples" / "tucson" / "oak.rwl")],
        ["--no-such"],
        ["--header", "100", str(ROOT / "examples" / "tucson" / "oak.rwl")],
        ["--header", "-1", str(ROOT / "examples" / "tucson" / "oak.rwl")],
    ],
)
def test_wrong_usage(arguments: list[str], capfd: pytest.CaptureFixture[str]) -> None:
    status, out, told = run(capfd, *arguments)
    assert (status, out) == (2, "") and told


def test_a_folder_that_is_not_there(tmp_path: Path, capfd: pytest.CaptureFixture[str]) -> None:
    source = tmp_path / "oak.rwl"
    source.write_bytes(OAK)
    status, _, told = run(capfd, source, "-o", tmp_path / "nosuch" / "strict.rwl")
    assert status == 2 and "nosuch" in told
