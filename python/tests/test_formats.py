"""Which format a file has: endings in any case, endings that no format has, and inputs by their content."""

from __future__ import annotations

import csv
from pathlib import Path

import pytest
from commandline import OAK, PARTS, REFUSED, ROOF, UNUSABLE, line_sheet
from running import ROOT, Run

from walzhik import tucson
from walzhik.formats import kind_of

DIVIDE = ("indices", OAK, "--curve", ROOF, *PARTS)


@pytest.mark.parametrize("name", ["a.rwl", "a.RWL", "a.Rwl"])
def test_a_tucson_text_by_its_ending(run: Run, tmp_path: Path, name: str) -> None:
    assert run(*DIVIDE, "-o", tmp_path / name).status == 0
    assert [each.name for each in tucson.read(tmp_path / name, strict=True)] == ["ROOF04E", "ROOF04L"]


@pytest.mark.parametrize("name", ["a.csv", "a.CSV", "a"])
def test_a_table_by_its_ending_or_without_one(run: Run, tmp_path: Path, name: str) -> None:
    assert run(*DIVIDE, "-o", tmp_path / name).status == 0
    with open(tmp_path / name, encoding="ascii") as file:
        assert next(csv.reader(file))[0] == "series"


@pytest.mark.parametrize(
    ("arguments", "name", "listed"),
    [
        (DIVIDE, "a.crn", ".csv or .rwl"),
        (DIVIDE, "a.txt", ".csv or .rwl"),
        (("fit", OAK, "--series", "ROOF04E"), "a.rwl", ".sheet"),
        (("curve", ROOF), "a.sheet", ".csv"),
        (("reach", ROOF, "--width", "1"), "a.xlsx", ".csv"),
        (("clean", OAK), "a.csv", ".rwl"),
        (("coefficients", "a.csv", "--space", ROOF), "a.csv", ".sheet"),
        (("plot", ROOF), "a.jpg", ".svg, .png or .pdf"),
    ],
)
def test_an_ending_that_no_format_has(
    run: Run, tmp_path: Path, arguments: tuple[str, ...], name: str, listed: str
) -> None:
    ended = run(*arguments, "-o", tmp_path / name)
    assert ended.status == UNUSABLE and listed in ended.err and "--format" in ended.err
    assert list(tmp_path.iterdir()) == []


def test_format_says_otherwise(run: Run, tmp_path: Path) -> None:
    assert run(*DIVIDE, "--format", "rwl", "-o", tmp_path / "a.crn").status == 0
    assert len(tucson.read(tmp_path / "a.crn", strict=True)) == 2
    assert run(*DIVIDE, "--format", "rwl").out.startswith("ROOF04E 1703")
    assert run("fit", OAK, "--series", "ROOF04E", "--format", "sheet", "-o", tmp_path / "a.txt").status == 0
    assert (tmp_path / "a.txt").read_text().startswith("breaks=")


@pytest.mark.parametrize("name", ["A.RWL", "a.txt", "a", "a.tuc"])
def test_a_tucson_file_is_explained_by_whatever_name(run: Run, tmp_path: Path, name: str) -> None:
    (tmp_path / name).write_bytes((ROOT / OAK).read_bytes())
    ended = run("explain", tmp_path / name)
    assert ended.status == 0 and ended.out.startswith("Accepted: 2 series.")


@pytest.mark.parametrize("name", ["A.SHEET", "a.txt", "a"])
def test_a_sheet_is_explained_by_whatever_name(run: Run, tmp_path: Path, name: str) -> None:
    (tmp_path / name).write_bytes((ROOT / ROOF).read_bytes())
    assert "stretches" in run("explain", tmp_path / name).out
    assert run("plot", tmp_path / name, "-o", tmp_path / "b.svg").status == 0


def test_what_is_said_counts_more_than_ending_and_content(run: Run) -> None:
    assert "no=10,1" in run("explain", "--from", "sheet", OAK).out
    assert run("explain", "--from", "tucson", ROOF).status == REFUSED
    assert run("explain", "-", stdin=(ROOT / OAK).read_bytes()).out.startswith("Accepted: 2 series.")
    assert run("explain", "--tucson", "--from", "sheet", ROOF).status == UNUSABLE


def test_a_picture_with_files_of_other_endings(run: Run, tmp_path: Path) -> None:
    (tmp_path / "A.RWL").write_bytes((ROOT / OAK).read_bytes())
    sheet = line_sheet(tmp_path, [1700, 1810], [(1000, 1000), (1000, 1000)], "a.txt")
    assert run("plot", sheet, tmp_path / "A.RWL", "-o", tmp_path / "a.svg").status == 0


@pytest.mark.parametrize(
    ("text", "kind"),
    [
        (b"", "sheet"),
        (b"\xff\xfe\x00", "sheet"),
        (b"coefs=1:1\n", "sheet"),
        (b"\r\n\r\nFEW     1998    12     9\r\n", "tucson"),
        (b"KOH01A  -105    12     9\n", "tucson"),
        (b"# a sheet 1990 12 13\nbreaks=0,1\n", "sheet"),
    ],
)
def test_kinds_by_content(text: bytes, kind: str) -> None:
    assert kind_of("-", text) == kind
