"""Names of series on the command line: outer blanks, patterns, and names that are not there."""

from __future__ import annotations

from pathlib import Path

import pytest
from commandline import UNUSABLE, line_sheet, rwl, table
from running import Run

from walzhik.tucson import Series

NAMES = ["DTR01", "DTR02", "DTX03", "  BLANK", "A[1]"]


@pytest.fixture
def data(tmp_path: Path) -> Path:
    return rwl(tmp_path, *(Series(name, 1900, [900, 800, 700, 600]) for name in NAMES))


@pytest.fixture
def sheet(tmp_path: Path) -> Path:
    return line_sheet(tmp_path, [1900, 1910], [(900, 900), (400, 400)])


def taken(run: Run, *arguments: object) -> list[str]:
    ended = run("indices", *arguments, "--strict")
    assert ended.status == 0, ended.err
    return list(dict.fromkeys(row["series"] for row in table(ended.out)))


@pytest.mark.parametrize(
    ("pattern", "names"),
    [
        ("DTR*", ["DTR01", "DTR02"]),
        ("DT?0?", ["DTR01", "DTR02", "DTX03"]),
        ("BLANK", ["BLANK"]),
        (" BLANK ", ["BLANK"]),
        ("A[1]", ["A[1]"]),
        ("DTR02 ", ["DTR02"]),
    ],
)
def test_names_and_patterns(run: Run, data: Path, sheet: Path, pattern: str, names: list[str]) -> None:
    assert taken(run, data, "--curve", sheet, "--series", pattern) == names
    assert taken(run, data, "--fit", "--series", pattern) == names
    assert taken(run, data, "--curve", f"{pattern}={sheet}") == names


def test_patterns_of_wood_parts(run: Run, tmp_path: Path) -> None:
    data = rwl(tmp_path, *(Series(name, 1900, [500] * 3) for name in ("A1E", "A2E", "A1L")))
    parts = line_sheet(tmp_path, [1900, 1910], [(1000, 500), (1000, 500)])
    ended = run("indices", data, "--curve", parts, "--earlywood", "*E", "--latewood", "*L")
    assert {row["series"]: row["index"] for row in table(ended.out)} == {"A1E": "500", "A2E": "500", "A1L": "1000"}
    assert run("plot", parts, data, "--earlywood", "*E", "-o", tmp_path / "a.svg").status == 0
    twice = run("indices", data, "--curve", parts, "--earlywood", "*", "--latewood", "*L")
    assert twice.status == UNUSABLE and "as earlywood and as latewood" in twice.err


def test_a_series_is_taken_once(run: Run, data: Path, sheet: Path) -> None:
    assert taken(run, data, "--curve", sheet, "--series", "DTR*", "--series", "DTR01") == ["DTR01", "DTR02"]


def test_one_series_by_a_pattern(run: Run, data: Path) -> None:
    assert run("fit", data, "--strict", "--series", "DTX*").status == 0
    ended = run("fit", data, "--strict", "--series", "DTR*")
    assert ended.status == UNUSABLE and "DTR* fits 2 series, but one is taken here: DTR01, DTR02" in ended.err


def test_names_that_are_not_there(run: Run, tmp_path: Path, sheet: Path) -> None:
    many = rwl(tmp_path, *(Series(f"DTR{number:03}", 1900, [900, 800, 700]) for number in range(300)), name="many.rwl")
    for arguments in (
        ("fit", many),
        ("indices", many, "--curve", sheet),
        ("plot", sheet, many, "-o", tmp_path / "a.svg"),
    ):
        ended = run(*arguments, "--series", "DTR1111")
        assert ended.status == UNUSABLE and "No series is named DTR1111: of 300 the nearest are DTR111" in ended.err
        assert len(ended.err) < 200
    ended = run("indices", many, "--fit", "--series", "DTR111", "--series", "OAK*")
    assert ended.status == UNUSABLE and "No series is named OAK*" in ended.err


def test_a_sheet_for_a_series_that_is_not_there(run: Run, data: Path, sheet: Path) -> None:
    ended = run("indices", data, "--strict", "--curve", f"DTR9={sheet}")
    assert ended.status == UNUSABLE and "No series is named DTR9: there are DTR01" in ended.err
    assert "No such file" not in ended.err
    equals = sheet.with_name("x=y.sheet")
    equals.write_bytes(sheet.read_bytes())
    assert len(taken(run, data, "--curve", equals)) == len(NAMES)


def test_names_that_differ_in_blanks_alone(run: Run, tmp_path: Path) -> None:
    data = rwl(tmp_path, Series("A", 1900, [900, 800, 700]), Series(" A", 1900, [900, 800, 700]))
    ended = run("indices", data, "--fit", "--strict")
    assert ended.status == UNUSABLE and "Two series are named A" in ended.err


@pytest.mark.parametrize("command", ["clean", "explain", "fit"])
def test_a_files_name_that_is_no_text_is_shown_by_its_bytes(run: Run, tmp_path: Path, command: str) -> None:
    """Bytes that are no UTF-8 are shown as they are typed, not as Python holds them."""
    ended = run(command, tmp_path / "oak\udcff.rwl")
    assert ended.status == UNUSABLE and ended.err == f"{tmp_path}/oak\\xff.rwl: No such file or directory\n"
