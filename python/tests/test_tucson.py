"""Reading and writing Tucson files by the proved calls: what is written reads back, and data frames keep what the
series have."""

from __future__ import annotations

from pathlib import Path

import numpy as np
import pytest
from hypothesis import given
from hypothesis import strategies as st
from running import ROOT

from walzhik import Refused, tucson
from walzhik.tucson import Series

NAMES = st.text(st.characters(min_codepoint=32, max_codepoint=126), min_size=1, max_size=8).filter(
    lambda name: name.strip(" ")
)
WIDTHS = st.lists(st.integers(0, 99_999), max_size=40)


@st.composite
def series_lists(draw: st.DrawFn) -> list[Series]:
    names = draw(st.lists(NAMES.map(lambda name: name.rstrip(" ")), max_size=4, unique=True))
    return [Series(name, draw(st.integers(-900, 9000)), draw(WIDTHS)) for name in names]


def plain(series: list[Series]) -> list[tuple[str, int, list[int]]]:
    return [(each.name, each.first, list(map(int, each.widths))) for each in series]


@given(series_lists())
def test_what_is_written_reads_back(series: list[Series]) -> None:
    assert plain(tucson.read(tucson.write(series), strict=True)) == plain(series)


@pytest.mark.parametrize("name", ["oak", "pine", "few"])
def test_the_examples_are_written_as_the_program_prints_them(name: str) -> None:
    path = ROOT / "examples" / "tucson" / f"{name}.rwl"
    assert tucson.write(tucson.read(path, strict=True)) == path.with_suffix(".out").read_bytes()


def test_paths_and_bytes_are_sources() -> None:
    path = ROOT / "examples" / "tucson" / "few.rwl"
    assert (
        plain(tucson.read(path))
        == plain(tucson.read(str(path)))
        == plain(tucson.read(path.read_bytes()))
        == [("FEW", 1998, [12, 9, 7])]
    )


def test_a_laboratorys_file_is_read_unless_strict() -> None:
    windows = b"FEW     1998    12     9\r\nFEW     2000     7 -9999\r\n"
    assert plain(tucson.read(windows)) == [("FEW", 1998, [12, 9, 7])]
    with pytest.raises(Refused, match="no=11,1: .*carriage return"):
        tucson.read(windows, strict=True)


def test_empty_texts_and_series() -> None:
    assert tucson.read(b"", strict=True) == [] and tucson.write([]) == b""
    [empty] = tucson.read(tucson.write([Series("A", 1990, [])]), strict=True)
    assert len(empty) == 0 and empty.last == 1989


@pytest.mark.parametrize("name", ["NINECHARS", "M\u00fcller", "\u6728", "A\tB", ""])
def test_names_that_the_form_cannot_hold(name: str) -> None:
    with pytest.raises(Refused, match="no=11,1: Series 1,"):
        tucson.write([Series("A", 1990, [1]), Series(name, 1990, [1])])


def test_a_missing_file_is_told_by_its_name(tmp_path: Path) -> None:
    with pytest.raises(FileNotFoundError, match="none.rwl"):
        tucson.read(tmp_path / "none.rwl")


def test_frames_have_a_column_a_series() -> None:
    pandas = pytest.importorskip("pandas")
    frame = tucson.to_frame([Series("A", 1998, [12, 0]), Series("B", 1999, np.array([7], dtype=np.int32))])
    assert list(frame.columns) == ["A", "B"] and list(frame.index) == [1998, 1999]
    assert frame["A"].tolist() == [0.012, 0.0] and pandas.isna(frame.loc[1998, "B"])
    with pytest.raises(ValueError, match="Two series are named A"):
        tucson.to_frame([Series("A", 1998, [1]), Series("A", 1999, [1])])
