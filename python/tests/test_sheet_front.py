"""Sheets as editors save them: what the command brings into the strict form and tells, what stays refused, with the line
of the file, and the values of a sheet without positions.
"""

from __future__ import annotations

from pathlib import Path

import pytest
from commandline import OAK, PARTS, REFUSED, ROOF
from hypothesis import given
from hypothesis import strategies as st
from running import ROOT, Run

from walzhik import sheet
from walzhik.curve import Curve
from walzhik.sheet_front import tidied
from walzhik.space import Space

STRICT = b"breaks=0,20,60\ndegrees=2,1\norders=0\ncoefs=2400:700,1600:500,1000:400,900:300\nat=256,512\n"


def changed(run: Run, folder: Path, text: bytes) -> tuple[str, list[str]]:
    """What curve prints for a sheet, and the changes that it tells."""
    path = folder / "a.sheet"
    path.write_bytes(text)
    ended = run("curve", path)
    assert ended.status == 0, ended.err
    return ended.out, [line.removeprefix(f"{path}: ") for line in ended.err.splitlines()]


@pytest.mark.parametrize(
    ("text", "changes"),
    [
        (STRICT, []),
        (STRICT.replace(b"\n", b"\r\n"), ["Lines 1 to 5: the line end of Windows became a plain one."]),
        (STRICT.replace(b",", b" , ").replace(b"=", b" =\t"), ["Lines 1 to 5: blanks were taken out."]),
        (b"# oak, 1990\n" + STRICT, ["Line 1: a comment was left out."]),
        (
            STRICT.replace(b"orders", b" # join\norders") + b"#\n",
            ["Lines 3, 7: a comment was left out."],
        ),
        (
            STRICT.replace(b"at=256,512\n", b""),
            ["Line 5: at= was missing and was put in, without positions."],
        ),
        (STRICT[:-1], ["Line 5: the last line end was missing and was put in."]),
        (b"\xef\xbb\xbf" + STRICT, ["Line 1: the byte order mark was taken off."]),
    ],
)
def test_what_is_changed_is_told(run: Run, tmp_path: Path, text: bytes, changes: list[str]) -> None:
    wanted, none = changed(run, tmp_path, STRICT)
    assert none == [] and changed(run, tmp_path, text) == (wanted, changes)


@pytest.mark.parametrize(
    ("text", "number", "words"),
    [
        (
            b"# a\r\n# b\r\n" + STRICT.replace(b"0,20,60", b"0,20,6 0"),
            "10,3",
            "Line 3, breaks=: entry 2, '6 0', has a blank",
        ),
        (b"# a\n" + STRICT.replace(b"degrees", b"degree"), "10,3", "Line 3 must start with degrees="),
        (b"# a\nbreaks=0,1\n", "10,3", "Line 3 is missing: it starts with degrees="),
        (b"# a\n\n" + STRICT, "10,2", "Line 2 must start with breaks="),
        (STRICT + b"# a\nmore\n", "10,7", "Line 7 is too many"),
        (STRICT.replace(b"2,1", b"2,9"), "4,1", "Stretch 1, from ring 20 to ring 60, has degree 9"),
    ],
)
def test_what_stays_refused_names_the_line_of_the_file(
    run: Run, tmp_path: Path, text: bytes, number: str, words: str
) -> None:
    path = tmp_path / "a.sheet"
    path.write_bytes(text)
    ended = run("explain", path)
    assert ended.status == REFUSED and ended.out.startswith(f"Refused: no={number}.\n") and words in ended.out
    for command in (("curve", path), ("reach", path, "--width", "1"), ("plot", path, "-o", tmp_path / "a.svg")):
        again = run(*command)
        assert again.status == REFUSED and f"no={number}." in again.err and words in again.err


def test_every_command_takes_such_sheets(run: Run, tmp_path: Path) -> None:
    path = tmp_path / "roof.sheet"
    path.write_bytes(b"# the roof\n" + (ROOT / ROOF).read_bytes().replace(b",", b", "))
    told = f"{path}: Line 1: a comment was left out."
    for command in (
        ("indices", OAK, "--curve", path, *PARTS),
        ("plot", path, OAK, *PARTS, "-o", tmp_path / "a.svg"),
        ("explain", path),
        ("reach", path, "--width", "0.1"),
        ("bank", ROOT / OAK, tmp_path / "bank", "--curve", path, "--earlywood", "*E", "--latewood", "*L", "--quiet"),
    ):
        ended = run(*command)
        assert ended.status == 0 and told in ended.err.splitlines(), command


def test_strict_takes_a_sheet_as_it_is(run: Run, tmp_path: Path) -> None:
    path = tmp_path / "a.sheet"
    path.write_bytes(STRICT.replace(b"\n", b"\r\n"))
    assert "no=10,1" in run("explain", "--strict", path).out
    assert "no=10,1" in run("indices", OAK, "--strict", "--curve", path).err
    assert sheet.printed(path.read_bytes()).startswith(b"no=10,1")


@given(
    st.binary(max_size=80) | st.text("#= ,:\r\n\tbreaksdegreesorderscoefsat0123456789-", max_size=80).map(str.encode)
)
def test_whatever_the_text_nothing_but_blanks_and_comments_goes(text: bytes) -> None:
    made = tidied(text)
    left = [
        line for line in text.removeprefix(b"\xef\xbb\xbf").split(b"\n") if not line.lstrip(b" \t").startswith(b"#")
    ]
    blanks = b" \t\r\n"
    assert made.text.translate(None, blanks).removesuffix(b"at=") in (
        b"".join(left).translate(None, blanks),
        b"".join(left).translate(None, blanks).removesuffix(b"at="),
    )
    assert tidied(made.text).changes == () or b"#" in made.text
    assert (made.text == text) == (not made.changes) or not text


def test_a_sheet_without_positions_has_its_least_and_greatest_value(run: Run, tmp_path: Path) -> None:
    path = tmp_path / "a.sheet"
    path.write_bytes(b"breaks=0,20\ndegrees=2\norders=\ncoefs=1000:5,3000:-5,1000:5\nat=\n")
    curve = Curve(Space([0, 20], [2], []), [[1000, 5], [3000, -5], [1000, 5]])
    values = [pair for at in (0, 2561) for pair in curve.values(range(at, at + 2560)).tolist()]
    low = 1 + sum(min(pair) <= 0 for pair in values)  # the position 2,560, in the middle, is one of them
    ended = run("explain", path)
    assert (
        ended.status == 0
        and (
            "Over all 5,121 positions of the span earlywood is from 1.000 to 2.000 mm and latewood is from 0.000 to 0.005 mm; "
        )
        in ended.out
    )
    assert (f"{low:,} of them are low" if low > 1 else "1 of them is low") in ended.out
