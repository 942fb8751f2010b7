"""How rings are counted: one meaning of --first and of --each-first for all commands, told in a line by each."""

from __future__ import annotations

from pathlib import Path

import pytest
from commandline import OAK, ROOF, UNUSABLE, line_sheet, rwl, table
from running import Run

from walzhik.counting import Counting
from walzhik.sheet import read
from walzhik.tucson import Series

BOTH = ("--earlywood", "E", "--latewood", "L")


@pytest.fixture
def falling(tmp_path: Path) -> Path:
    """Two series that fall by 10 a year from 1805 and from 1801, so that each lies on a straight line."""
    early = Series("E", 1805, [950 - 10 * ring for ring in range(40)])
    late = Series("L", 1801, [800 - 10 * ring for ring in range(40)])
    return rwl(tmp_path, early, late)


@pytest.mark.parametrize("option", ["--first", "--each-first"])
def test_what_fit_counts_indices_counts_alike(run: Run, falling: Path, option: str) -> None:
    sheet = falling.parent / "made.sheet"
    fitted = run("fit", falling, *BOTH, option, "1", "-o", sheet)
    divided = run("indices", falling, "--curve", sheet, *BOTH, option, "1")
    assert fitted.status == divided.status == 0
    assert all(abs(int(row["index"]) - 1000) <= 2 for row in table(divided.out))
    told = f"Rings are counted by {option}: "
    assert [line for line in fitted.err.splitlines() if told in line] == [divided.err.strip()]


def test_the_two_ways_of_counting_differ(run: Run, falling: Path) -> None:
    whole = line_sheet(falling.parent, [1, 60], [(590, 590), (1180, 1180)])
    indices = {}
    for option in ("--first", "--each-first"):
        ended = run("indices", falling, "--curve", whole, option, "1")
        indices[option] = {row["series"]: row["index"] for row in reversed(table(ended.out))}
    assert indices["--first"] == {"E": "1507", "L": "1355"}  # ring 5: 630
    assert indices["--each-first"] == {"E": "1610", "L": "1355"}


def test_the_earliest_is_the_earliest_of_those_taken(run: Run, falling: Path) -> None:
    ended = run("fit", falling, "--series", "E", "--first", "1")
    assert read(ended.out.encode()).breaks[0] == 1
    assert "1805, the first year of series E, is ring 1" in ended.err
    both = run("fit", falling, *BOTH, "--each-first", "7")
    assert read(both.out.encode()).breaks[0] == 7 and read(both.out.encode()).breaks[-1] == 46


def test_pictures_tell_how_rings_are_counted(run: Run, falling: Path) -> None:
    sheet = line_sheet(falling.parent, [1, 60], [(900, 900), (400, 400)])
    out = falling.parent / "a.svg"
    for option, words in (("--first", "1801, the first year of series L, is ring 1"), ("--each-first", "its ring 1")):
        ended = run("plot", sheet, falling, option, "1", "-o", out)
        assert ended.status == 0 and words in ended.err
    assert "read as years" in run("plot", ROOF, OAK, "--earlywood", "ROOF04E", "-o", out).err


@pytest.mark.parametrize(
    ("arguments", "words"),
    [
        (("fit", OAK, "--series", "ROOF04E", "--first", "1", "--each-first", "1"), "not both"),
        (("indices", OAK, "--fit", "--first", "1", "--each-first", "1"), "not both"),
        (("plot", ROOF, OAK, "--first", "1", "--each-first", "1", "-o", "x.svg"), "not both"),
        (("view", OAK, "--first", "1", "--each-first", "1"), "not both"),
        (("plot", ROOF, "--first", "1", "-o", "x.svg"), "no Tucson file"),
        (("view", "--each-first", "1"), "no Tucson file"),
        (("bank", OAK, "out", "--first", "1", "--each-first", "1"), "not both"),
    ],
)
def test_wrong_usage(run: Run, arguments: tuple[str, ...], words: str) -> None:
    ended = run(*arguments)
    assert ended.status == UNUSABLE and words in ended.err


@pytest.mark.parametrize("option", ["--first", "--each-first"])
def test_a_data_bank_counts_each_file_as_indices_does(run: Run, falling: Path, option: str) -> None:
    whole = line_sheet(falling.parent, [1, 60], [(590, 590), (1180, 1180)])
    out = falling.parent / "bank"
    ended = run("bank", falling, out, "--curve", whole, option, "1")
    assert ended.status == 0 and f"Rings are counted by {option}" in ended.err
    assert ("in each file by itself" in ended.err) == (option == "--first")
    wanted = run("indices", falling, "--curve", whole, option, "1").out
    assert [path.read_text() for path in out.rglob("*.indices.csv")] == [wanted]


def test_the_earliest_of_a_file_is_the_earliest_of_those_taken(run: Run, falling: Path) -> None:
    out = falling.parent / "bank"
    assert run("bank", falling, out, "--series", "E", "--first", "1", "--quiet").status == 0
    [sheet] = out.rglob("E.sheet")
    assert read(sheet.read_bytes()).breaks[0] == 1


def test_no_series_have_no_starts() -> None:
    assert Counting(first=1).starts([]) == [] and "ring 1" in Counting(first=1).words([])
