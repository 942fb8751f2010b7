"""Options of the commands: none that is given is dropped in silence."""

from __future__ import annotations

from pathlib import Path

import pytest
from commandline import OAK, ROOF, UNUSABLE
from running import Run


@pytest.mark.parametrize(
    "arguments",
    [
        ("fit", OAK, "--series", "ROOF04E", "--series", "ROOF04L"),
        ("fit", OAK, "--earlywood", "ROOF04E", "--earlywood", "ROOF04L", "--latewood", "ROOF04L"),
        ("fit", OAK, "--series=ROOF04E", "--first", "1", "--first", "2"),
        ("indices", OAK, "--fit", "-o", "a.csv", "--output", "b.csv"),
        ("curve", ROOF, "--every", "1", "--every=1"),
        ("reach", ROOF, "--width", "1", "--width", "2"),
        ("plot", "--curve", ROOF, "--curve", ROOF, "-o", "a.svg"),
        ("view", OAK, "--series", "ROOF04E", "--series", "ROOF04L"),
    ],
)
def test_an_option_that_comes_again(run: Run, arguments: tuple[str, ...]) -> None:
    ended = run(*arguments)
    assert ended.status == UNUSABLE and "is given 2 times" in ended.err and ended.out == ""


def test_options_that_may_come_again(run: Run) -> None:
    ended = run("indices", OAK, "--fit", "--fit", "--series", "ROOF04E", "--series", "ROOF04L")
    assert ended.status == 0


@pytest.mark.parametrize("dropped", [("--breaks", "0,1"), ("--degrees", "1"), ("--orders", "1"), ("--orders", "")])
def test_a_space_by_sheet_and_by_lists(run: Run, tmp_path: Path, dropped: tuple[str, str]) -> None:
    table = tmp_path / "a.csv"
    table.write_text("ring_mm\n1\n")
    ended = run("coefficients", table, "--space", ROOF, *dropped)
    assert ended.status == UNUSABLE and "or --space SHEET, which has its own" in ended.err


@pytest.mark.parametrize(
    ("arguments", "words"),
    [
        (("fit", OAK, "--series", "ROOF04E", "--strict", "--hundredths"), "go without it"),
        (("indices", OAK, "--fit", "--strict", "--header", "0"), "go without it"),
        (("explain", OAK, "--strict", "--thousandths"), "go without it"),
        (("plot", ROOF, "--hundredths", "-o", "a.svg"), "none is given"),
        (("view", "--header", "0"), "none is given"),
        (("view", "--quiet"), "none is given"),
        (("explain", ROOF, "--header", "2"), "none is given"),
        (("explain", ROOF, "--hundredths"), "none is given"),
        (("coefficients", "-", "--space", "-"), "once only"),
    ],
)
def test_options_that_would_do_nothing(run: Run, arguments: tuple[str, ...], words: str) -> None:
    ended = run(*arguments)
    assert ended.status == UNUSABLE and words in ended.err
