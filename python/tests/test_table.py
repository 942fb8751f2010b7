"""The table of indices: each line as the rational program of § 17 has it, all of it the bytes of the program `rings` where no
series is refused, and written series by series, whole or not at all.
"""

from __future__ import annotations

import os
import subprocess
import sys
from collections.abc import Callable, Iterator
from pathlib import Path
from random import Random

import numpy as np
import pytest
from commandline import OAK, PARTS, REFUSED, ROOF, UNUSABLE, line_sheet, rwl, table
from hypothesis import given
from hypothesis import strategies as st
from random_table import NAMES, random_input
from running import ROOT, Run
from table import TABLE_HEAD, all_lines, rings, series_of, sheet_of, wood_of

from walzhik import Curve, Space, tucson
from walzhik.bank.options import Options
from walzhik.bank.records import Record
from walzhik.bank.work import worked_out
from walzhik.curve import Wood
from walzhik.dividing import HEADER, Indexed, as_table, divided, ring_lines
from walzhik.errors import Refused
from walzhik.files import write_pieces
from walzhik.sheet import Sheet
from walzhik.tucson import Series

WOODS: tuple[Wood, Wood] = ("earlywood", "latewood")
INPUTS, LEAST_COMPARED = 500, 120  # random inputs of `rings`, of which so many have no refusal
BEAM = Sheet([-999, 999, 2999, 4999], [1, 2, 1], [-1, -1], [(900 - n, 300 + n) for n in range(7)])
SMALL, LARGE = 500, 8_000  # series of 200 rings, of two files whose memory is compared
MOST_COPIES = 6  # times the file: so much memory a table may take


def model(done: Indexed, wood: Wood) -> bytes:
    """The lines of a series by the rational program."""
    series, made = done
    numbers = [np.asarray(each).ravel().tolist() for each in (series.widths, made.pairs, made.indices)]
    return bytes(all_lines(wood, series.columns, series.first, *numbers))


# Lines.


@given(
    st.sampled_from(NAMES) | st.text(st.characters(min_codepoint=32, max_codepoint=126), min_size=1, max_size=8),
    st.integers(-999, 5000),
    st.lists(st.integers(0, 99_999) | st.just(0), max_size=30),
    st.lists(st.integers(-1_000, 20_000), min_size=4, max_size=4),
    st.sampled_from(WOODS),
)
def test_lines_are_those_of_the_rational_program(
    name: str | bytes, first: int, widths: list[int], numbers: list[int], wood: Wood
) -> None:
    text = name.decode("ascii") if isinstance(name, bytes) else name
    if not text.strip(" "):
        return
    curve = Curve(Space([first, first + 30], [1], []), np.reshape(numbers, (2, 2)))
    values = curve.values([256 * (first + ring) for ring in range(len(widths))])[:, WOODS.index(wood)]
    present = np.where(values > 0, widths, 0)  # a curve at or below zero has absent rings alone
    done = divided(Series(text.rstrip(" "), first, present), curve, first, wood)
    assert ring_lines(*done) == model(done, wood)


def test_values_and_years_below_zero_and_absent_rings() -> None:
    curve = Curve(Space([-3, 1], [1], []), [(2000, 5), (-2000, 5)])
    done = divided(Series('A,"1"', -3, [900, 0, 0, 0, 0]), curve, -3, "earlywood")
    assert as_table([done]).decode().splitlines()[1:] == [
        '"A,""1""",-3,0.900,2.000000,450',
        '"A,""1""",-2,0.000,1.000000,',
        '"A,""1""",-1,0.000,0.000000,',
        '"A,""1""",0,0.000,-1.000000,',
        '"A,""1""",1,0.000,-2.000000,',
    ]


@pytest.mark.parametrize("count", [0, 1, 4_095, 4_096, 4_097, 5_000, 8_193])
@pytest.mark.parametrize("wood", WOODS)
def test_series_of_any_length(wood: Wood, count: int) -> None:
    breaks = [0, 2_000, 4_000, 6_000, 8_000, 9_000]
    curve = Curve(Space(breaks, [1] * 5, [-1] * 4), [(700 + n, 90 - n) for n in range(10)])
    done = divided(Series("LONG", 0, [7 * ring % 3_000 for ring in range(count)]), curve, 0, wood)
    assert len(done.rings.indices) == count and as_table([done]) == HEADER + model(done, wood)


@pytest.mark.parametrize("name", ["NINE CHAR", "", "    ", "A\tB", "EICHE\u00e4"])
def test_names_that_no_tucson_file_holds(name: str) -> None:
    curve = Curve(Space([0, 1], [1], []), [900, 900])
    with pytest.raises(Refused) as refused:
        ring_lines(Series(name, 0, [1]), curve.divided([1], 0))
    assert refused.value.number == 11 and "printable ASCII" in refused.value.words


# The same bytes as the program.


Compared = Callable[[bytes], bool]


@pytest.fixture
def compared(run: Run, tmp_path: Path, rings_program: Path) -> Compared:
    """Whether an input of `rings` has a table without a refused series; the program's and the command's must then be the
    bytes of the rational program."""
    return lambda data: is_compared(run, tmp_path, rings_program, data)


def is_compared(run: Run, folder: Path, program: Path, data: bytes) -> bool:
    printed = rings(data)
    assert subprocess.run([program], input=data, capture_output=True, check=True).stdout == printed, data
    if not printed.startswith(TABLE_HEAD) or b",,,no=" in printed:
        return False
    wood, rest = wood_of(data)
    lists, text = sheet_of(rest)
    names = [each.name.strip(b" ") for each in series_of(text)]
    if not names or len(set(names)) < len(names):  # which the command refuses
        return False
    (folder / "a.rwl").write_bytes(text)
    breaks, degrees, orders, coefs, _ = lists
    pairs = list(zip(coefs[::2], coefs[1::2]))
    (folder / "a.sheet").write_bytes(Sheet(breaks, degrees, orders, pairs).text())
    ended = run("indices", folder / "a.rwl", "--curve", folder / "a.sheet", f"--{wood}", "*", "--strict")
    assert ended.status == 0 and ended.out.encode() == printed, data
    return True


def test_random_tables_are_those_of_rings(compared: Compared) -> None:
    rng = Random(1)
    assert sum(compared(random_input(rng)) for _ in range(INPUTS)) >= LEAST_COMPARED


def test_examples_are_those_of_rings(compared: Compared) -> None:
    sheets = [*(ROOT / "examples/sheets").glob("*.sheet"), *(ROOT / "examples/day").glob("*.sheet")]
    files = sorted((ROOT / "examples/tucson").glob("*.rwl"))
    found = [
        (sheet.name, file.name)
        for wood in WOODS
        for sheet in sheets
        for file in files
        if compared(f"wood={wood}\n".encode() + sheet.read_bytes() + file.read_bytes())
    ]
    assert found.count(("roof.sheet", "oak.rwl")) == found.count(("oak_fit.sheet", "oak.rwl")) == 2


def test_long_series_and_years_below_zero_are_those_of_rings(compared: Compared) -> None:
    names = ("=1+1", 'A,"B', "C", "-1")
    series = [
        Series(name, first, [13 * ring % 900 for ring in range(count)])
        for name, first, count in zip(names, (-999, -5, 0, 903), (4_096, 12, 0, 4_096))
    ]
    for wood in WOODS:
        assert compared(f"wood={wood}\n".encode() + BEAM.text() + tucson.write(series))


# What is refused, and what is told.


def test_a_series_that_cannot_be_fitted_leaves_the_others(run: Run, tmp_path: Path) -> None:
    first, third = Series("A", 1900, [900, 800, 700]), Series("C", 1900, [600, 500, 500])
    three = run("indices", rwl(tmp_path, first, Series("B", 1900, [5]), third), "--fit")
    two = run("indices", rwl(tmp_path, first, third, name="b.rwl"), "--fit")
    assert (three.status, two.status) == (REFUSED, 0) and "Series B: " in three.err
    assert three.out == two.out and [row["series"] for row in table(two.out)] == ["A"] * 3 + ["C"] * 3


def test_a_refused_series_of_the_bank_leaves_the_others() -> None:
    first, second, third = (Series(name, year, [900, 0]) for name, year in ((" =A", 1900), ("B", 1950), ("C", 1901)))
    options = Options(strict=True, sheet=([1900, 1902], [1], [], [(900, 900), (900, 900)]))
    record, outputs = worked_out(Record("a.rwl"), options, tucson.write([first, second, third]))
    lines = ["=A,1900,0.900,0.900000,1000", "=A,1901,0.000,0.900000,"]
    lines += ["C,1901,0.900,0.900000,1000", "C,1902,0.000,0.900000,"]
    assert outputs["a.indices.csv"] == HEADER + "".join(f"{line}\n" for line in lines).encode()
    assert [(row.name, row.number) for row in record.rows] == [("=A", None), ("B", 7), ("C", None)]
    assert any("=A begins with =" in words for words in record.changes)


def test_names_of_the_bank_are_told_apart_without_blanks() -> None:
    series = [Series(name, 1900, [900, 800, 700]) for name in ("A", " A", "B")]
    record, outputs = worked_out(Record("a.rwl"), Options(strict=True), tucson.write(series))
    assert [bool(row.refusal) for row in record.rows] == [True, True, False]
    assert {row["series"] for row in table(outputs["a.indices.csv"].decode())} == {"B"}


@pytest.mark.parametrize("to_file", [True, False])
def test_a_sheet_that_refuses_a_series_writes_nothing(run: Run, tmp_path: Path, to_file: bool) -> None:
    data = rwl(tmp_path, Series("A", 1990, [5, 6]), Series("B", 1996, [5, 6]), Series("C", 1990, [5, 6]))
    sheet, out = line_sheet(tmp_path, [1990, 1996], [(9, 9), (9, 9)]), tmp_path / "out.csv"
    out.write_bytes(b"before")
    ended = run("indices", data, "--curve", sheet, *(("-o", out) if to_file else ()))
    assert ended.status == REFUSED and "Series B: refused, no=7,1." in ended.err and ended.out == ""
    assert out.read_bytes() == b"before" and sorted(os.listdir(tmp_path)) == ["a.rwl", "a.sheet", "out.csv"]


def test_names_that_a_spreadsheet_would_compute_are_told(run: Run, tmp_path: Path) -> None:
    odd = [Series(name, 1990, [5, 6]) for name in ("=1+1", "E=F", *(f"@{n}" for n in range(20)))]
    data, sheet = rwl(tmp_path, *odd), line_sheet(tmp_path, [1990, 1996], [(9, 9), (9, 9)])
    ended = run("indices", data, "--curve", sheet)
    assert ended.status == 0 and "Series =1+1 begins with =, and a spreadsheet would compute" in ended.err
    assert "E=F" not in ended.err and "The same holds for 9 series more." in ended.err
    assert "spreadsheet" not in run("indices", data, "--curve", sheet, "-o", tmp_path / "a_indices.rwl").err


# Writing.


def test_a_table_goes_to_files_devices_and_standard_output(run: Run, tmp_path: Path) -> None:
    asked = ("indices", OAK, "--curve", ROOF, *PARTS)
    out = tmp_path / "out.csv"
    assert run(*asked, "-o", out).status == run(*asked, "-o", os.devnull, "--format", "csv").status == 0
    assert out.read_text() == run(*asked).out and len(table(out.read_text())) == 200
    missing = run(*asked, "-o", tmp_path / "none" / "out.csv")
    assert missing.status == UNUSABLE and "none/out.csv" in missing.err


def test_a_failing_piece_leaves_what_was_there(tmp_path: Path) -> None:
    def pieces() -> Iterator[bytes]:
        yield b"one"
        raise Refused(7, 0, "two")

    path = tmp_path / "a"
    for before in ([], ["a"]):
        with pytest.raises(Refused):
            write_pieces(str(path), pieces())
        assert os.listdir(tmp_path) == before
        path.write_bytes(b"before")
    assert path.read_bytes() == b"before"


def most_memory(folder: Path, series: int) -> tuple[int, int]:
    """The bytes of a file of so many series of 200 rings, and those that the command takes at most for its table."""
    widths = np.random.default_rng(1).integers(0, 3_000, 200)
    data = rwl(folder, *(Series(f"S{number:05}", 1_700, widths) for number in range(series)))
    sheet = line_sheet(folder, [1_700, 1_900], [(900, 900), (700, 700)])
    code = (
        "import resource, sys\nfrom walzhik.cli import main\ntry:\n    main(sys.argv[1:])\nfinally:\n"
        "    print(resource.getrusage(resource.RUSAGE_SELF).ru_maxrss)\n"
    )
    command = [sys.executable, "-c", code, "indices", str(data), "--curve", str(sheet), "-o", str(folder / "a.csv")]
    environment = {**os.environ, "PYTHONPATH": str(ROOT / "python" / "src")}
    ended = subprocess.run(command, env=environment, capture_output=True, text=True, check=True)
    return data.stat().st_size, 1024 * int(ended.stdout)


def test_memory_for_a_table_is_a_few_times_the_file(tmp_path: Path) -> None:
    (small, least), (large, most) = (most_memory(tmp_path, series) for series in (SMALL, LARGE))
    assert most - least <= MOST_COPIES * (large - small)
