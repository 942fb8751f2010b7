"""The command indices: its table and its Tucson text, which series are taken by which curve, rings as years or counted,
fits, and what it refuses.
"""

from __future__ import annotations

import os
import re
from pathlib import Path

import numpy as np
import pytest
from commandline import OAK, PARTS, REFUSED, ROOF, UNUSABLE, line_sheet, rwl, table
from running import ROOT, Run

from walzhik import tucson
from walzhik.sheet import Sheet, read
from walzhik.tucson import Series

HALF_A_MILLIONTH = 0.5000001e-6


def test_both_wood_parts(run: Run) -> None:
    ended = run("indices", OAK, "--curve", ROOF, *PARTS)
    assert ended.status == 0 and ended.out.startswith("series,year,width_mm,curve_mm,index\n")
    rows = table(ended.out)
    assert len(rows) == 200 and "Rings are read as years" in ended.err
    curve = read((ROOT / ROOF).read_bytes()).curve()
    for series, wood in zip(tucson.read(ROOT / OAK), ("earlywood", "latewood")):
        mine = [row for row in rows if row["series"] == series.name]
        values, indices = curve.rings(series.widths, series.first, wood)  # type: ignore[arg-type]
        assert [int(row["year"]) for row in mine] == list(range(series.first, series.last + 1))
        assert [row["width_mm"] for row in mine] == [f"{width / 1000:.3f}" for width in series.widths]
        assert [row["index"] for row in mine] == ["" if index < 0 else str(index) for index in indices.tolist()]
        for row, value in zip(mine, values.tolist()):
            assert re.fullmatch(r"\d\.\d{6}", row["curve_mm"])
            assert abs(float(row["curve_mm"]) - value / 256_000) <= HALF_A_MILLIONTH


def test_a_curve_of_the_whole_ring_takes_all_series(run: Run, tmp_path: Path) -> None:
    sheet = line_sheet(tmp_path, [1700, 1810], [(1000, 1000), (1000, 1000)])
    assert len(table(run("indices", OAK, "--curve", sheet).out)) == 200
    named = table(run("indices", OAK, "--curve", sheet, "--series", "ROOF04L").out)
    assert {row["series"] for row in named} == {"ROOF04L"} and named[0]["index"] == "420"


@pytest.mark.parametrize(
    ("names", "words"),
    [
        ((), "ROOF04E, ROOF04L"),
        (("--series", "ROOF04E"), "name the series of a wood part"),
        (("--earlywood", "ROOF04E", "--latewood", "ROOF04E"), "as earlywood and as latewood"),
        (("--earlywood", "ROOF05"), "No series is named ROOF05: there are ROOF04E, ROOF04L"),
    ],
)
def test_wood_parts_must_be_named(run: Run, names: tuple[str, ...], words: str) -> None:
    ended = run("indices", OAK, "--curve", ROOF, *names)
    assert ended.status == UNUSABLE and ended.out == "" and words in ended.err


def test_one_series_still_needs_its_wood_part(run: Run, tmp_path: Path) -> None:
    ended = run("indices", rwl(tmp_path, Series("A", 1710, [900])), "--curve", ROOF)
    assert ended.status == UNUSABLE and "--earlywood NAME or --latewood NAME" in ended.err


def test_each_series_by_its_own_sheet(run: Run, tmp_path: Path) -> None:
    early = line_sheet(tmp_path, [1700, 1810], [(1000, 1000), (1000, 1000)])
    late = line_sheet(tmp_path, [1700, 1810], [(100, 100), (100, 100)], "b.sheet")
    ended = run("indices", OAK, "--curve", f"ROOF04E={early}", "--curve", f"ROOF04L={late}")
    first = {row["series"]: row["index"] for row in reversed(table(ended.out))}
    assert first == {"ROOF04E": "1415", "ROOF04L": "4200"}
    one = run("indices", OAK, "--curve", f"ROOF04L={late}")
    assert {row["series"] for row in table(one.out)} == {"ROOF04L"}
    for arguments, words in (
        (("--curve", early, "--curve", late), "NAME=SHEET"),
        (("--curve", f"ROOF04E={early}", "--curve", f"ROOF04E={late}"), "two sheets"),
        (("--curve", f"ROOF04E={early}", "--series", "ROOF04L"), "has no sheet"),
    ):
        ended = run("indices", OAK, *arguments)
        assert ended.status == UNUSABLE and words in ended.err and ended.out == ""


def test_rings_are_years_or_counted(run: Run, tmp_path: Path) -> None:
    sheet = line_sheet(tmp_path, [0, 150], [(1000, 1000), (1000, 1000)])
    ended = run("indices", OAK, "--curve", sheet)
    assert ended.status == REFUSED and ended.out == ""
    assert "no=7,0" in ended.err and "ring 1703" in ended.err and "--first RING" in ended.err
    rows = table(run("indices", OAK, "--curve", sheet, "--first", "1").out)
    assert (rows[0]["year"], rows[0]["index"]) == ("1703", "1415")


def test_a_tucson_text(run: Run, tmp_path: Path) -> None:
    out = tmp_path / "roof.rwl"
    assert run("indices", OAK, "--curve", ROOF, *PARTS, "-o", out).status == 0
    written = tucson.read(out, strict=True)
    rows = table(run("indices", OAK, "--curve", ROOF, *PARTS).out)
    assert [index for each in written for index in each.widths] == [int(row["index"] or 0) for row in rows]
    assert [each.first for each in written] == [1703, 1703]


def test_an_index_that_no_tucson_text_holds(run: Run, tmp_path: Path) -> None:
    out, data = tmp_path / "out.rwl", rwl(tmp_path, Series("A", 1990, [1, 90_000, 5]))
    out.write_bytes(b"before")
    low = line_sheet(tmp_path, [1990, 1995], [(1, 1), (1, 1)])
    ended = run("indices", data, "--curve", low, "-o", out)
    assert ended.status == REFUSED and "no=11,0" in ended.err and "'A       ', has 90000000 for 1991" in ended.err
    high = line_sheet(tmp_path, [1990, 1995], [(90_000, 90_000), (90_000, 90_000)])
    ended = run("indices", data, "--curve", high, "-o", out)
    assert ended.status == REFUSED and "Series A, 1990: the index is 0" in ended.err
    assert out.read_bytes() == b"before" and sorted(os.listdir(tmp_path)) == ["a.rwl", "a.sheet", "out.rwl"]


def test_fits(run: Run, tmp_path: Path) -> None:
    ended = run("indices", OAK, "--fit")
    assert ended.status == 0 and len(table(ended.out)) == 200 and "A fit is a choice, and is not proved." in ended.err
    sheet = tmp_path / "roof.sheet"
    assert run("fit", OAK, "--series", "ROOF04E", "-o", sheet).status == 0
    by_sheet = run("indices", OAK, "--curve", sheet, "--series", "ROOF04E").out
    assert by_sheet == run("indices", OAK, "--fit", "--series", "ROOF04E").out
    straight = ("--breaks", "1703,1802", "--degrees", "1")
    assert run("indices", OAK, "--fit", *straight).out != ended.out


def test_many_fits_are_told_in_few_lines(run: Run, tmp_path: Path) -> None:
    random = np.random.default_rng(1)
    data = rwl(tmp_path, *(Series(f"S{number:03}", 1900, random.integers(500, 900, 30)) for number in range(40)))
    ended = run("indices", data, "--fit")
    assert (
        ended.status == 0
        and "40 series are fitted, 39 falling, 1 hump. Worst, Series S" in ended.err
        and len(ended.err.splitlines()) == 5
    )


@pytest.mark.parametrize(
    ("arguments", "words"),
    [
        ((), "either --curve SHEET or --fit"),
        (("--curve", ROOF, "--fit"), "either --curve SHEET or --fit"),
        (("--curve", ROOF, "--breaks", "0,1", "--degrees", "1"), "go with --fit"),
        (("--fit", "--breaks", "0,1"), "together"),
        (("--fit", "--breaks", "0,x", "--degrees", "1"), "no list of whole numbers"),
        (("-", "--curve", "-"), "Standard input"),
        (("--fit", "--hundredths", "--thousandths"), "not both"),
        (("--curve", ROOF, "--bark", "X"), "No such option"),
    ],
)
def test_wrong_usage(run: Run, arguments: tuple[str, ...], words: str) -> None:
    ended = run("indices", OAK, *arguments)
    assert ended.status == UNUSABLE and words in ended.err and ended.out == ""


def test_low_curves_are_refused(run: Run, tmp_path: Path) -> None:
    low = line_sheet(tmp_path, [1990, 1995], [(1, 1), (-5, -5)])
    ended = run("indices", rwl(tmp_path, Series("A", 1990, [5] * 6)), "--curve", low)
    assert ended.status == REFUSED and "no=14," in ended.err and "zero or less" in ended.err and "Series A" in ended.err


def test_more_rings_than_a_call_takes(run: Run, tmp_path: Path) -> None:
    data, sheet = rwl(tmp_path, Series("LONG", 1, [700] * 4097)), tmp_path / "beam.sheet"
    scars = ("--breaks", "1,2000,4000,5000", "--degrees", "1,1,1", "--orders", "-1,-1")
    assert run("fit", data, *scars, "-o", sheet).status == 0
    ended = run("indices", data, "--curve", sheet)
    rows = table(ended.out)
    assert ended.status == 0 and [row["index"] for row in rows] == ["1000"] * 4097 and rows[-1]["year"] == "4097"
    assert run("indices", data, "--fit", *scars).out == ended.out
    assert run("plot", sheet, data, "-o", tmp_path / "beam.png").status == 0


def test_a_refusal_behind_the_first_call_has_its_own_ring(run: Run, tmp_path: Path) -> None:
    data, sheet = rwl(tmp_path, Series("LONG", 1, [700] * 4999)), line_sheet(tmp_path, [1, 9], [(1, 1), (1, 1)])
    sheet.write_bytes(Sheet([1, 2000, 4000, 4998], [1] * 3, [-1, -1], [(700, 700)] * 6).text())
    ended = run("indices", data, "--curve", sheet)
    assert (
        ended.status == REFUSED and "no=7,4998." in ended.err and "Width 4998 of the series is ring 4999" in ended.err
    )


def test_two_files_with_one_series(run: Run, tmp_path: Path) -> None:
    one = rwl(tmp_path, Series("A", 1990, [5] * 9))
    two = rwl(tmp_path, Series("A", 1990, [6] * 9), name="b.rwl")
    ended = run("indices", one, two, "--fit")
    assert ended.status != 0 and str(one) in ended.err and ended.out == ""
    three = rwl(tmp_path, Series("B", 1990, [6] * 9), name="c.rwl")
    assert {row["series"] for row in table(run("indices", one, three, "--fit").out)} == {"A", "B"}


def test_names_with_commas_are_quoted(run: Run, tmp_path: Path) -> None:
    data = rwl(tmp_path, Series('A,"%s', 1990, [5, 6, 7]))
    assert {row["series"] for row in table(run("indices", data, "--fit").out)} == {'A,"%s'}


@pytest.mark.parametrize("command", [("fit",), ("indices", "--fit")])
def test_coefficients_at_the_least_are_told(run: Run, tmp_path: Path, command: tuple[str, ...]) -> None:
    steep = Series("STEEP", 1900, [3000, 900, 100, 30, 10, 5, 1, 1, 1, 900])
    space = ("--breaks", "1900,1909", "--degrees", "2", "--shape", "free")
    ended = run(*command, rwl(tmp_path, steep), *space)
    assert ended.status == 0
    assert "Series STEEP: Coefficient 1 is at the least allowed, 0.001 mm: the widths ask for less there." in ended.err
