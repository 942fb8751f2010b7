"""Numbers that a command is given: ASCII decimals of bounded length, and words where they are something else."""

from __future__ import annotations

from fractions import Fraction
from pathlib import Path

import pytest
from commandline import GROWTH, OAK, REFUSED, ROOF, UNUSABLE
from hypothesis import given
from hypothesis import strategies as st
from running import Run

from walzhik.decimals import MOST_CHARACTERS, NoNumber, exact, whole

NO_NUMBERS = [
    "1_0",
    "\uff11",
    "\u0663",
    "1e5000",
    "1e30000000",
    "1" * 5000,
    "0x1",
    "nan",
    "inf",
    "",
    "1 0",
    "--1",
    "1.",
    ".",
]
SPACE = ("--breaks", "0,2", "--degrees", "1")


@given(st.decimals(allow_nan=False, allow_infinity=False, places=6, min_value=-(10**20), max_value=10**20))
def test_decimals_are_exact(number: object) -> None:
    assert exact(f" {number} ") == Fraction(str(number))


@given(st.text(max_size=60))
def test_whatever_is_typed_has_a_number_or_words(text: str) -> None:
    try:
        assert abs(exact(text)) < 10 ** (MOST_CHARACTERS + 99)
    except NoNumber as error:
        assert len(str(error)) < 300
    try:
        whole(text)
    except NoNumber:
        pass


@pytest.mark.parametrize("text", [text for text in NO_NUMBERS if text != "1."], ids=lambda text: text[:20])
def test_what_is_no_number(text: str) -> None:
    with pytest.raises(NoNumber):
        exact(text)


@pytest.mark.parametrize("text", NO_NUMBERS, ids=range(len(NO_NUMBERS)))
@pytest.mark.parametrize(
    "arguments",
    [
        ("fit", OAK, "--series", "ROOF04E", "--first={}"),
        ("indices", OAK, "--fit", "--each-first={}"),
        ("fit", OAK, "--series", "ROOF04E", "--degrees", "1", "--breaks=1703,{}"),
        ("coefficients", "-", "--degrees", "1", "--breaks=0,{}"),
        ("view", OAK, "--port={}"),
        ("curve", ROOF, "--every={}x"),
        ("reach", GROWTH, "--width={}x"),
    ],
)
def test_options_that_are_no_numbers(run: Run, arguments: tuple[str, ...], text: str) -> None:
    ended = run(*(each.format(text) for each in arguments))
    assert ended.status == UNUSABLE and "Traceback" not in ended.err and ended.out == ""


@pytest.mark.parametrize("text", ["1e5000", "1e30000000", "1" * 5000, "1_0", "\uff11"], ids=lambda text: text[:20])
def test_widths_and_distances_that_are_no_numbers(run: Run, text: str) -> None:
    for arguments in (("curve", ROOF, f"--every={text}"), ("reach", GROWTH, f"--width={text}")):
        ended = run(*arguments)
        assert ended.status == UNUSABLE and "Traceback" not in ended.err


@pytest.mark.parametrize(
    "text",
    ["1_0", "\uff11", "\u0663", "1e5000", "1e30000000", "7" * 5000, '"1\n1"', '"1\r\n1"', "1 1"],
    ids=lambda text: text[:20],
)
def test_ordinates_that_are_no_numbers(run: Run, tmp_path: Path, text: str) -> None:
    table = tmp_path / "a.csv"
    table.write_text(f"ring_mm\n{text}\n1\n", encoding="utf-8", newline="")
    ended = run("coefficients", table, *SPACE)
    assert ended.status == REFUSED and ended.out == "" and ended.err.startswith("Line ")


@pytest.mark.parametrize(
    ("data", "words"),
    [
        (b"", "its first line is empty"),
        (b"\n1\n", "its first line is empty"),
        (b"\x7fELF\x02\x01\x00\xff\xfe", "no CSV table"),
        (bytes(range(256)), "no CSV table"),
        (b'ring_mm\n"1\n', "no CSV table"),
        (b"ring_mm\n\n1\n", "Line 2 has 0 fields"),
        (b"\xef\xbb\xbfring_mm\n1\n", ""),
    ],
)
def test_tables_that_are_none(run: Run, tmp_path: Path, data: bytes, words: str) -> None:
    table = tmp_path / "a.csv"
    table.write_bytes(data)
    ended = run("coefficients", table, *SPACE)
    assert ended.status in (REFUSED, UNUSABLE) and words in ended.err and "unpack" not in ended.err


def test_numbers_as_suppliers_write_them(run: Run, tmp_path: Path) -> None:
    table = tmp_path / "a.csv"
    table.write_text('ring_mm\r\n" 1.5"\r\n25e-1\r\n', newline="")
    ended = run("coefficients", table, *SPACE)
    assert ended.status == 0 and "coefs=1500:1500,2500:2500" in ended.out
