"""The commands that make or read sheets: fit, curve, reach and coefficients."""

from __future__ import annotations

import re
from pathlib import Path

import numpy as np
import pytest
from commandline import GROWTH, OAK, PARTS, REFUSED, ROOF, UNUSABLE, line_sheet, rwl, table
from running import ROOT, Run

from walzhik.sheet import Sheet, read
from walzhik.tucson import Series

HALF_A_MILLIONTH = 0.5000001e-6
ORDINATES = "stretch,earlywood_mm,latewood_mm\n0,2.4,0.7\n0,1.6,0.9\n0,1.4,0.5\n1,1.4,0.5\n1,1,0.3\n1,0.9,0.2\n"
EXACT = "stretch,earlywood_mm,latewood_mm\n0,2.4,0.7\n0,1.6,0.9\n0,1.4,0.7\n1,1.4,0.7\n1,1,0.3\n1,0.9,0.2\n"
STRETCHES = ("--breaks", "0,20,60", "--degrees", "2,2", "--orders", "1")


# fit


def test_fit_writes_a_sheet_that_the_program_accepts(run: Run, tmp_path: Path) -> None:
    out = tmp_path / "roof.sheet"
    ended = run("fit", OAK, "--series", "ROOF04E", "-o", out)
    assert ended.status == 0 and ended.out == ""
    assert "Template: breaks=1703,1733,1802 degrees=3,2 orders=1" in ended.err
    assert "Series ROOF04E: root mean square 0.334 mm, 70.7 % of the variance explained, falling\n" in ended.err
    assert "By proof this curve never rises and stays above zero." in ended.err
    assert "A fit is a choice, and is not proved." in ended.err
    lists = read(out.read_bytes())
    assert lists.at == [] and all(early == late >= 1 for early, late in lists.pairs)


def test_fit_of_both_wood_parts(run: Run) -> None:
    ended = run("fit", OAK, *PARTS, "--breaks", "1703,1748,1802", "--degrees", "2,1", "--orders", "-1")
    lists = read(ended.out.encode())
    assert ended.status == 0 and lists.orders == [-1] and any(early != late for early, late in lists.pairs)
    assert "Template" not in ended.err


def test_fit_counts_rings_from_first(run: Run) -> None:
    assert read(run("fit", OAK, "--series", "ROOF04E", "--first", "5").out.encode()).breaks == [5, 35, 104]


def test_fit_of_parts_with_other_years(run: Run, tmp_path: Path) -> None:
    """The template covers both series, and --first is the ring of the earlier one's first width."""
    data = rwl(tmp_path, Series("E", 1990, [900] * 12), Series("L", 1988, [300] * 12))
    ended = run(
        "fit", data, "--earlywood", "E", "--latewood", "L", "--first", "0", "--breaks", "0,13", "--degrees", "1"
    )
    assert read(ended.out.encode()).pairs == [(900, 300), (900, 300)]
    assert read(run("fit", data, "--earlywood", "E", "--latewood", "L").out.encode()).breaks == [1988, 2001]


@pytest.mark.parametrize(
    ("arguments", "status", "words"),
    [
        ((), UNUSABLE, "there are ROOF04E, ROOF04L"),
        (("--earlywood", "ROOF04E"), UNUSABLE, "together"),
        (("--series", "ROOF04E", *PARTS), UNUSABLE, "Give --series, or"),
        (("--series", "ROOF04E", "--breaks", "1703,1750", "--degrees", "1"), REFUSED, "no=7,48"),
        (("--series", "ROOF04E", "--breaks", "1703,1802", "--degrees", "6"), REFUSED, "no=4,0"),
        (
            ("--series", "ROOF04E", "--breaks", "1600,1650,1802", "--degrees", "1,1", "--orders", "-1"),
            REFUSED,
            "no rings in stretch 0",
        ),
    ],
)
def test_fits_that_are_refused(run: Run, arguments: tuple[str, ...], status: int, words: str) -> None:
    ended = run("fit", OAK, *arguments)
    assert ended.status == status and words in ended.err and ended.out == ""


def test_long_series_need_a_scar(run: Run, tmp_path: Path) -> None:
    assert run("fit", rwl(tmp_path, Series("LONG", 1, [700] * 2001))).status == 0
    data = rwl(tmp_path, Series("LONG", 1, [700] * 2002))
    ended = run("fit", data)
    assert ended.status == REFUSED and "2,002 rings" in ended.err and "scar (order -1)" in ended.err
    scarred = ("--breaks", "1,1000,2002", "--degrees", "1,1", "--orders", "-1")
    assert run("fit", data, *scarred).status == 0


# curve and reach


def test_curve_is_a_table_over_the_span(run: Run) -> None:
    rows = table(run("curve", ROOF).out)
    curve = read((ROOT / ROOF).read_bytes()).curve()
    assert [int(row["ring"]) for row in rows] == list(range(1703, 1803))
    values = curve.values([256 * ring for ring in range(1703, 1803)])
    for row, (early, late) in zip(rows, values.tolist()):
        assert abs(float(row["earlywood_mm"]) - early / 256_000) <= HALF_A_MILLIONTH
        assert abs(float(row["latewood_mm"]) - late / 256_000) <= HALF_A_MILLIONTH


def test_curve_at_other_distances(run: Run, tmp_path: Path) -> None:
    sheet = line_sheet(tmp_path, [-1, 1], [(-1000, 0), (1000, 2)])
    wanted = ["-1,-1.000000,0.000000", "-0.5,-0.500000,0.000500", "0,0.000000,0.001000"]
    assert run("curve", sheet, "--every", "0.5").out.splitlines()[1:4] == wanted
    assert len(table(run("curve", sheet, "--every", "1/256").out)) == 513
    ends = run("curve", sheet, "--every", "99999999999").out.splitlines()[1:]
    assert ends == ["-1,-1.000000,0.000000", "1,1.000000,0.002000"]
    assert [row["ring"] for row in table(run("curve", sheet, "--every", "1.5").out)] == ["-1", "0.5", "1"]
    for every in ("0", "-1", "0.1", "x", "1/0"):
        ended = run("curve", sheet, "--every", every)
        assert ended.status == UNUSABLE and "--every" in ended.err


def test_a_curve_of_the_whole_ring_has_one_column(run: Run, tmp_path: Path) -> None:
    whole = line_sheet(tmp_path, [0, 2], [(1000, 1000), (3000, 3000)])
    assert run("curve", whole).out == "ring,ring_mm\n0,1.000000\n1,2.000000\n2,3.000000\n"
    both = table(run("curve", whole, ROOF).out)
    assert both[1] == {"sheet": str(whole), "ring": "1", "earlywood_mm": "2.000000", "latewood_mm": "2.000000"}
    twice = table(run("curve", whole, whole).out)
    assert len(twice) == 6 and list(twice[0]) == ["sheet", "ring", "ring_mm"]


def test_curve_of_more_positions_than_one_call_takes(run: Run, tmp_path: Path) -> None:
    path = tmp_path / "beam.sheet"
    pairs = [(row, row) for row in range(6)]
    path.write_bytes(Sheet([-3000, -1000, 1000, 3000], [1, 1, 1], [-1, -1], pairs).text())
    assert len(table(run("curve", path).out)) == 6001


def test_several_sheets_are_told_apart(run: Run, tmp_path: Path) -> None:
    sheet = line_sheet(tmp_path, [0, 1], [(1, 1), (1, 1)], "a,b.sheet")
    rows = table(run("curve", sheet, ROOF).out)
    assert rows[0]["sheet"] == str(sheet) and rows[-1]["sheet"] == ROOF and len(rows) == 102


def test_reach(run: Run, tmp_path: Path) -> None:
    ended = run("reach", GROWTH, "--width", "2.5")
    assert ended.status == REFUSED and "no=16,0" in ended.err and "2.500 mm in the latewood" in ended.err
    early, late = table(ended.out)
    curve = read((ROOT / GROWTH).read_bytes()).curve()
    assert int(early["position"]) == curve.reach(2500, "earlywood") == 256 * float(early["ring"])
    assert late["position"] == late["ring"] == ""
    whole = line_sheet(tmp_path, [0, 1], [(1, 1), (9, 9)])
    assert table(run("reach", whole, "--width", "0.005").out)[0]["wood"] == "ring"
    for width in ("0.0001", "x"):
        assert run("reach", whole, "--width", width).status == UNUSABLE


def test_the_first_position_below_a_width(run: Run, tmp_path: Path) -> None:
    falling = line_sheet(tmp_path, [0, 40], [(2000, 2000), (1000, 1000)])
    [row] = table(run("reach", falling, "--width", "1.5", "--below").out)
    curve = read(falling.read_bytes()).curve()
    position = int(row["position"])
    values = curve.values([position - 1, position])[:, 0].tolist()
    assert row["wood"] == "ring" and values[0] >= 256 * 1500 > values[1]
    [start] = table(run("reach", falling, "--width", "2.001", "--below").out)
    assert start["position"] == "0"
    ended = run("reach", falling, "--width", "1", "--below")
    assert ended.status == REFUSED and table(ended.out)[0]["ring"] == ""
    assert (
        "no position from ring 0 to ring 40 is below 1.000 mm in the whole ring" in ended.err
        and str(falling) in ended.err
    )


@pytest.mark.parametrize("width", ["0.1", "0.3", "0.6", "0.65"])
def test_below_is_the_first_of_all_positions(run: Run, width: str) -> None:
    ended = run("reach", GROWTH, "--width", width, "--below")
    curve = read((ROOT / GROWTH).read_bytes()).curve()
    first, last = (256 * int(end) for end in curve.space.breaks[[0, -1]])
    values = np.concatenate([curve.values(range(at, min(at + 4096, last + 1))) for at in range(first, last + 1, 4096)])
    for side, row in enumerate(table(ended.out)):
        low = np.flatnonzero(values[:, side] < 256_000 * float(width))
        assert row["position"] == (str(first + int(low[0])) if low.size else "")


# coefficients


def test_coefficients_from_ordinates(run: Run, tmp_path: Path) -> None:
    ended = run("coefficients", "-", *STRETCHES, stdin=EXACT.encode())
    assert ended.status == 0 and "coefs=2400:700,1600:900,1000:300,900:200\n" in ended.out
    assert "Exact coefficients of the earlywood, in thousandths: 2400, 1600, 1000, 900" in ended.err
    sheet = tmp_path / "like.sheet"
    sheet.write_text(ended.out)
    assert run("coefficients", "-", "--space", sheet, stdin=EXACT.encode()).out == ended.out
    whole = "ring_256ths\n614400\n409600\n358400\n358400\n256000\n230400\n"
    assert "coefs=2400:2400,1600:1600," in run("coefficients", "-", *STRETCHES, stdin=whole.encode()).out


def test_ordinates_that_miss_a_condition(run: Run) -> None:
    ended = run("coefficients", "-", *STRETCHES, stdin=ORDINATES.encode())
    assert ended.status == REFUSED and ended.out == "" and "no=19,0" in ended.err
    assert "Join 0, at ring 20" in ended.err and "slopes on its two sides differ by 30 thousandths" in ended.err
    ended = run("coefficients", "-", *STRETCHES, "--nearest", stdin=ORDINATES.encode())
    assert ended.status == 0 and "NEAREST, not exact: coefficients of the latewood" in ended.err
    assert read(ended.out.encode()).pairs[0] == (2400, 700)


def test_coefficients_that_no_sheet_holds(run: Run) -> None:
    off = "ring_256ths\n256\n256\n256\n256\n256\n257\n"
    ended = run("coefficients", "-", *STRETCHES, stdin=off.encode())
    assert ended.status == REFUSED and "257/256" in ended.err and "no whole number of thousandths" in ended.err
    assert "coefs=1:1,1:1,1:1,1:1\n" in run("coefficients", "-", *STRETCHES, "--nearest", stdin=off.encode()).out


@pytest.mark.parametrize(
    ("text", "status", "words"),
    [
        ("", UNUSABLE, "no CSV table"),
        ("bark_mm\n1\n", UNUSABLE, "'bark_mm' is not known"),
        ("earlywood_mm\n1\n", UNUSABLE, "both wood parts"),
        ("ring_mm\n1\n1,2\n", UNUSABLE, "Line 3 has 2 fields"),
        ("ring_mm\n1\n", REFUSED, "no=18,4294967295"),
        ("ring_mm\nx\n", REFUSED, "Line 2: 'x' is no number"),
        ("ring_mm\n0.00001\n", REFUSED, "Line 2: 0.00001 is no whole number of 256ths"),
        ("ring_mm\n" + "1001\n" * 6, REFUSED, "no=18,0"),
        (ORDINATES.replace("0,1.4", "1,1.4"), REFUSED, "Line 4 is of stretch 1, but .* stretch 0"),
    ],
)
def test_tables_that_are_refused(run: Run, text: str, status: int, words: str) -> None:
    ended = run("coefficients", "-", *STRETCHES, stdin=text.encode())
    assert ended.status == status and re.search(words, ended.err) and ended.out == ""


def test_coefficients_need_stretches(run: Run) -> None:
    assert run("coefficients", "-").status == UNUSABLE
    ended = run("coefficients", "-", "--breaks", "0,1", "--degrees", "9", stdin=b"ring_mm\n1\n")
    assert ended.status == REFUSED and "no=4,0" in ended.err


def test_fractions_too_large_to_undo(run: Run) -> None:
    lists = ("--breaks", "0,1,512", "--degrees", "2,2", "--orders", "1")
    ended = run("coefficients", "-", *lists, stdin=b"ring_256ths\n" + b"4194304\n" * 6)
    assert ended.status == REFUSED and "no=20,0" in ended.err
