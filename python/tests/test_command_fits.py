"""Fits of the commands: shapes, scars, many series to sheets of their own, and pictures of fits and of widths alone."""

from __future__ import annotations

from pathlib import Path

import numpy as np
import pytest
from commandline import OAK, rwl
from running import Run

from walzhik.fit import fit, template
from walzhik.sheet import read
from walzhik.tucson import Series

PINE = "examples/tucson/pine.rwl"


def falling_widths(rings: int, seed: int = 1) -> np.ndarray[tuple[int], np.dtype[np.int64]]:
    curve = 600 + 2_000 * np.exp(-np.arange(rings) / 30)
    return np.round(curve * np.random.default_rng(seed).lognormal(0, 0.2, rings)).astype(np.int64)


def released() -> Series:
    """A core that doubles after its ring 1890."""
    widths = falling_widths(160) * np.where(np.arange(160) >= 90, 2, 1)
    return Series("REL", 1801, widths)


# Shapes.


def test_each_shape_is_that_of_the_package(run: Run, tmp_path: Path) -> None:
    series = Series("A", 1801, falling_widths(120))
    data = rwl(tmp_path, series)
    for shape in ("auto", "falling", "hump", "free"):
        ended = run("fit", data, "--shape", shape)
        made = fit(template(120, 1801), series.widths, 1801, shape)  # type: ignore[arg-type]
        assert [early for early, _ in read(ended.out.encode()).pairs] == made.coefficients.tolist()
        assert f", {made.shapes[0]}\n" in ended.err
        assert ("never rises" in ended.err) == made.never_rises


def test_an_unknown_shape_is_refused(run: Run) -> None:
    ended = run("fit", OAK, "--series", "ROOF04E", "--shape", "round")
    assert ended.status == 2 and "auto" in ended.err


def test_shape_and_scar_go_with_a_fit(run: Run) -> None:
    for option in (("--shape", "falling"), ("--scar", "1750")):
        ended = run("indices", OAK, "--curve", "examples/sheets/roof.sheet", "--earlywood", "ROOF04E", *option)
        assert ended.status == 2 and "go with --fit" in ended.err


# Scars.


def test_a_scar_is_hinted_at_and_set(run: Run, tmp_path: Path) -> None:
    data = rwl(tmp_path, released())
    hinted = run("fit", data)
    assert "Series REL: Some " in hinted.err and "--scar 1890 sets it" in hinted.err
    ended = run("fit", data, "--scar", "1890")
    lists = read(ended.out.encode())
    assert ended.status == 0 and -1 in lists.orders and 1890 in lists.breaks and "sets it" not in ended.err
    assert "part 0 falling, part 1 falling" in ended.err
    assert "By proof this curve never rises (in each part) and stays above zero." in ended.err


def test_a_scar_outside_all_series_is_told(run: Run, tmp_path: Path) -> None:
    data = rwl(tmp_path, released(), Series("B", 1701, falling_widths(60)))
    assert run("indices", data, "--fit", "--scar", "1890").status == 0
    ended = run("indices", data, "--fit", "--scar", "2500")
    assert ended.status == 2 and "--scar 2500: no series has rings on both sides of it" in ended.err
    ended = run("fit", data, "--series", "B", "--scar", "1890")
    assert ended.status == 1 and "A part between scars" in ended.err
    with_breaks = ("--breaks", "1801,1960", "--degrees", "2", "--scar", "1890")
    assert "--scar goes without --breaks" in run("fit", data, "--series", "REL", *with_breaks).err


# Many series.


def test_each_series_gets_a_sheet_of_its_own(run: Run, tmp_path: Path) -> None:
    folder = tmp_path / "sheets"
    ended = run("fit", PINE, "-o", f"{folder}/")
    assert ended.status == 0 and ended.out == "" and ended.err.count("Template of 3 series") == 1
    assert sorted(path.name for path in folder.iterdir()) == [
        "WAL 02.sheet".replace(" ", "%20"),
        "WAL01A.sheet",
        "WAL01B.sheet",
    ]
    alone = run("fit", PINE, "--series", "WAL01A")
    assert (folder / "WAL01A.sheet").read_text() == alone.out
    (folder / "WAL01B.sheet").unlink()
    assert run("fit", PINE, "--series", "WAL01B", "-o", str(folder)).status == 0
    assert (folder / "WAL01B.sheet").exists()


def test_a_folder_is_no_place_for_two_wood_parts(run: Run, tmp_path: Path) -> None:
    ended = run("fit", OAK, "--earlywood", "ROOF04E", "--latewood", "ROOF04L", "-o", f"{tmp_path}/")
    assert ended.status == 2 and "is a folder" in ended.err and list(tmp_path.iterdir()) == []


def with_a_bad_one(tmp_path: Path) -> Path:
    absent = [0] * 29
    return rwl(
        tmp_path,
        Series("A", 1900, falling_widths(40)),
        Series("BAD", 1900, [900, *absent]),
        Series("C", 1901, falling_widths(50)),
    )


def test_a_series_that_can_t_be_fitted_does_not_stop_the_rest(run: Run, tmp_path: Path) -> None:
    data, folder = with_a_bad_one(tmp_path), tmp_path / "sheets"
    ended = run("fit", data, "-o", f"{folder}/")
    assert ended.status == 1 and "Series BAD: no fit. Its present rings don't determine the curve" in ended.err
    assert sorted(path.name for path in folder.iterdir()) == ["A.sheet", "C.sheet"]
    out, kept = tmp_path / "out.csv", tmp_path / "kept"
    ended = run("indices", data, "--fit", "--sheets", kept, "-o", out)
    assert ended.status == 1 and "Series BAD: no fit." in ended.err
    assert {line.partition(",")[0] for line in out.read_text().splitlines()[1:]} == {"A", "C"}
    assert (kept / "A.sheet").read_bytes() == (folder / "A.sheet").read_bytes()
    assert not (kept / "BAD.sheet").exists()


def test_a_sheet_never_takes_the_place_of_an_input(run: Run, tmp_path: Path) -> None:
    data = rwl(tmp_path, Series("A", 1900, falling_widths(40)), name="A.sheet")
    before = data.read_bytes()
    for arguments in (("fit", data, "-o", f"{tmp_path}/"), ("indices", data, "--fit", "--sheets", tmp_path)):
        ended = run(*arguments)
        assert ended.status == 2 and "would be destroyed" in ended.err and data.read_bytes() == before


def test_where_none_can_be_fitted_nothing_is_written(run: Run, tmp_path: Path) -> None:
    data, out = rwl(tmp_path, Series("ONE", 1900, [900])), tmp_path / "out.csv"
    for arguments in (("indices", data, "--fit", "-o", out), ("fit", data, "-o", f"{tmp_path}/sheets/")):
        ended = run(*arguments)
        assert ended.status == 1 and "No series could be fitted: nothing is written." in ended.err
    assert not out.exists() and not (tmp_path / "sheets").exists()


def test_sheets_are_those_of_fits(run: Run, tmp_path: Path) -> None:
    ended = run(
        "indices", OAK, "--curve", "examples/sheets/roof.sheet", "--earlywood", "ROOF04E", "--sheets", tmp_path / "x"
    )
    assert ended.status == 2 and "--sheets goes with --fit" in ended.err and not (tmp_path / "x").exists()


def test_every_template_is_printed_once(run: Run, tmp_path: Path) -> None:
    series = [Series(f"S{number}", 1700, falling_widths(40 + 30 * (number % 2), number)) for number in range(6)]
    ended = run("indices", rwl(tmp_path, *series), "--fit")
    assert ended.err.count("Template of 3 series: stretches start") == 2


@pytest.mark.parametrize("name", ["fit", "indices"])
def test_help_tells_of_shapes_and_scars(run: Run, name: str) -> None:
    told = run(name, "--help").out
    assert "--shape" in told and "--scar" in told


# Pictures.


def test_a_fit_is_drawn_in_one_go(run: Run, tmp_path: Path) -> None:
    one, two, sheet = tmp_path / "one.svg", tmp_path / "two.svg", tmp_path / "oak.sheet"
    ended = run("plot", OAK, "--fit", "--series", "ROOF04E", "--title", "oak", "-o", one)
    assert ended.status == 0 and "Template: breaks=1703" in ended.err and "never rises" in ended.err
    assert run("fit", OAK, "--series", "ROOF04E", "-o", sheet).status == 0
    assert run("plot", OAK, "--curve", sheet, "--series", "ROOF04E", "--title", "oak", "-o", two).status == 0
    assert one.read_bytes() == two.read_bytes()


def test_both_wood_parts_are_fitted_and_drawn(run: Run, tmp_path: Path) -> None:
    out = tmp_path / "both.svg"
    ended = run("plot", OAK, "--fit", "--earlywood", "ROOF04E", "--latewood", "ROOF04L", "-o", out)
    assert ended.status == 0 and b'id="curve-latewood"' in out.read_bytes() and "1 of these 2 curves" in ended.err


def test_widths_alone_are_drawn(run: Run, tmp_path: Path) -> None:
    out = tmp_path / "pine.svg"
    ended = run("plot", PINE, "-o", out)
    drawn = out.read_bytes()
    assert ended.status == 0 and drawn.count(b'id="widths-') == 3 and b'id="curve-' not in drawn
    assert run("plot", PINE, "--series", "WAL01A", "--first", "1", "--narrow", "-o", out).status == 0
    assert out.read_bytes().count(b'id="widths-') == 1
    assert run("plot", rwl(tmp_path, Series("ONE", 1900, [900])), "-o", out).status == 0


@pytest.mark.parametrize(
    ("arguments", "words"),
    [
        ((OAK, "--fit"), "Name the series"),
        ((OAK, "--fit", "--series", "ROOF04E", "--series", "ROOF04L"), "one fitted curve has one series"),
        ((OAK, "examples/sheets/roof.sheet", "--fit", "--series", "ROOF04E"), "without a sheet"),
        ((OAK, "--curve", "examples/sheets/roof.sheet", "--fit"), "without a sheet"),
        (("--fit",), "goes with Tucson files"),
        ((OAK, "--wood", "latewood"), "--wood goes with a sheet"),
        ((OAK, "--scar", "1750"), "go with --fit"),
        (("examples/sheets/roof.sheet", "--shape", "free"), "go with --fit"),
        ((), "Give one sheet"),
    ],
)
def test_pictures_that_are_refused(run: Run, tmp_path: Path, arguments: tuple[str, ...], words: str) -> None:
    ended = run("plot", *arguments, "-o", tmp_path / "a.svg")
    assert ended.status == 2 and words in ended.err and not (tmp_path / "a.svg").exists()
