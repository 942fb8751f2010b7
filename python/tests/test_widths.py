"""Heidelberg files and tables: round trips, against a writer made apart, refusals in words, and damaged files whose truth is known."""

from __future__ import annotations

import csv
import gzip
import io
import random
from pathlib import Path

import pytest
from commandline import OAK, REFUSED, UNUSABLE
from damage import damaged
from hypothesis import given
from hypothesis import strategies as st
from running import ROOT, Run

from walzhik import tucson, widths
from walzhik.errors import Refused
from walzhik.formats import Form
from walzhik.widths import Unreadable
from walzhik.tucson import Series
from walzhik.widths import Asked

EXAMPLES = sorted((ROOT / "examples" / "tucson").glob("*.rwl"))
DAMAGED_FILES, RANDOM_FILES = 5_000, 500
LETTERS = "ABCXYZabc0123456789-_., ;=\"'"


# A writer made apart: it shares nothing with the package, and writes what other programs write.

Plain = tuple[str, int, list[int]]  # name, first year, thousandths


def heidelberg_apart(series: list[Plain], unit: str, per: int, is_single: bool, is_filled: bool, end: str) -> bytes:
    lines = []
    for name, first, found in series:
        values = [str(width // per) for width in found]
        lines += ["HEADER:", f"DateEnd={first + len(values) - 1}", f"KeyCode={name}", "Species=QUSP"]
        lines += [f"Length={len(values)}", f"DateBegin={first}", f"Unit={unit}"]
        lines.append("DATA:Single" if is_single else "DATA:Tree")
        if is_single:
            lines += values
            continue
        if is_filled:
            values += ["0"] * (-len(values) % 10)
        while values:
            lines.append("".join(" " * (6 - len(value)) + value for value in values[:10]))
            values = values[10:]
    return (end.join(lines) + end).encode("ascii")


def table_apart(series: list[Plain], separator: str, point: str, end: str, quoting: int) -> bytes:
    made = io.StringIO()
    writer = csv.writer(made, delimiter=separator, lineterminator=end, quoting=quoting)  # type: ignore[arg-type]
    writer.writerow(["Year"] + [name for name, _, _ in series])
    by_year = [dict(enumerate(found, start=first)) for _, first, found in series]
    years = [year for each in by_year for year in each]
    for year in range(min(years), max(years) + 1):
        cells = [f"{each[year] / 1000:.3f}".replace(".", point) if year in each else "" for each in by_year]
        writer.writerow([str(year), *cells])
    return made.getvalue().encode("ascii")


names = st.text(LETTERS, min_size=1, max_size=8).filter(lambda name: name == name.strip())
series_lists = st.lists(
    st.tuples(names, st.integers(1, 2100), st.lists(st.integers(0, 9_999), min_size=1, max_size=35)),
    min_size=1,
    max_size=4,
    unique_by=lambda each: each[0],
)


def plain(series: list[Series]) -> list[Plain]:
    return [(each.name, each.first, each.widths.tolist()) for each in series]


@given(
    series_lists,
    st.sampled_from([("1/100 mm", 10), ("1/1000 mm", 1), ("1/10 mm", 100), ("mm", 1000)]),
    st.booleans(),
    st.booleans(),
    st.sampled_from(["\n", "\r\n"]),
)
def test_heidelberg_against_a_writer_made_apart(
    series: list[Plain], unit: tuple[str, int], is_single: bool, is_filled: bool, end: str
) -> None:
    given_series = [(name, first, [width // unit[1] * unit[1] for width in found]) for name, first, found in series]
    text = heidelberg_apart(given_series, *unit, is_single, is_filled, end)
    made = widths.read(text, "fh")
    assert plain(made.series) == given_series
    assert made.text == tucson.write(made.series)
    assert any("'Species' is not used" in str(change) for change in made.changes)


@given(
    series_lists,
    st.sampled_from([(",", "."), ("\t", "."), (";", "."), (";", ",")]),
    st.sampled_from(["\n", "\r\n"]),
    st.sampled_from([csv.QUOTE_MINIMAL, csv.QUOTE_ALL]),
)
def test_tables_against_a_writer_made_apart(
    series: list[Plain], signs: tuple[str, str], end: str, quoting: int
) -> None:
    assert plain(widths.read(table_apart(series, *signs, end, quoting), "csv").series) == series


# Round trips.


def there_and_back(series: list[Series]) -> bytes:
    """rwl -> fh -> csv -> rwl."""
    for form in ("fh", "csv", "tucson"):
        text = widths.text_of(series, form)  # type: ignore[arg-type]
        series = tucson.read_strict(text) if form == "tucson" else widths.read(text, form).series  # type: ignore[arg-type]
    return text


@pytest.mark.parametrize("path", EXAMPLES, ids=lambda path: path.name)
def test_round_trips_of_the_examples(path: Path, run: Run, tmp_path: Path) -> None:
    assert there_and_back(tucson.read(path)) == tucson.write(tucson.read(path))
    steps = [path, *(tmp_path / name for name in ("a.fh", "b.csv", "c.tsv", "d.fh", "e.rwl"))]
    for before, after in zip(steps, steps[1:]):
        ended = run("convert", before, after)
        assert ended.status == 0 and all(": a series " in line for line in ended.err.splitlines())
    assert (tmp_path / "e.rwl").read_bytes() == tucson.write(tucson.read(path))
    assert (tmp_path / "d.fh").read_bytes() == (tmp_path / "a.fh").read_bytes()


def random_series(draw: random.Random) -> list[Series]:
    found: dict[str, Series] = {}
    for _ in range(draw.randint(1, 6)):
        name = "".join(draw.choice(LETTERS) for _ in range(draw.randint(1, 8))).strip() or "A"
        count = draw.choice([1, 2, 9, 10, 11, draw.randint(1, 120)])
        found[name] = Series(name, draw.randint(-300, 2100), [draw.randint(0, 99_999) for _ in range(count)])
    return list(found.values())


def test_round_trips_of_random_files() -> None:
    draw = random.Random(53)
    for _ in range(RANDOM_FILES):
        series = random_series(draw)
        text = tucson.write(series)
        assert there_and_back(tucson.read_strict(text)) == text


# Refusals.

GOOD = b"HEADER:\nKeyCode=OAK1\nDateBegin=1998\nDateEnd=2000\nLength=3\nUnit=1/100 mm\nDATA:Tree\n   123   119   101\n"


@pytest.mark.parametrize(
    ("old", "new", "line", "said"),
    [
        (b"Unit=1/100 mm\n", b"", 1, "the header has no Unit"),
        (b"Unit=1/100 mm", b"Unit=inch", 6, "Unit is 'inch'"),
        (b"Length=3", b"Length=4\nx=1", 4, "DateEnd is 2000, but 4 years from 1998 on do not end there"),
        (b"DateEnd=2000\nLength=3", b"Length=4", 4, "Length is 4, but 3 values follow"),
        (b"   123   119   101", b"   123", 5, "Length is 3, but 1 value follows."),
        (b"DateEnd=2000\nLength=3", b"Length=2", 7, "the value 101 stands past Length, which is 2"),
        (b"DateEnd=2000", b"DateEnd=2001", 4, "DateEnd is 2001"),
        (b"Tree", b"Double", 7, "of the kind 'Double'"),
        (b"Tree", b"Quadro", 7, "of the kind 'Quadro'"),
        (b"Tree", b"Chrono", 7, "of the kind 'Chrono'"),
        (b"Tree", b"HalfChrono", 7, "of the kind 'HalfChrono'"),
        (
            b"OAK1",
            b"OAK123456",
            1,
            "is longer than 8 columns. Give the series another name, or let it be numbered (--rename)",
        ),
        (b"KeyCode=OAK1\n", b"", 1, "no KeyCode"),
        (b"   119", b"  -119", 8, "the width '-119' is below 0"),
        (b"   119", b"      ", 8, "a value is missing"),
        (b"   119", b"   1x9", 8, "is no value at the right"),
        (b"   119", b"119   ", 8, "is no value at the right"),
        (b"DateBegin=1998\n", b"", 3, "a DateEnd and no DateBegin"),
        (b"DateEnd=2000\nLength=3\n", b"", 1, "the header has no Length"),
        (b"Length=3", b"Length=3\nLength=3", 6, "Length comes twice"),
        (b"HEADER:\n", b"", 1, "stands before the first HEADER:"),
        (b"DATA:Tree\n", b"", 7, "is no Key=Value line"),
        (b"DateBegin=1998\nDateEnd=2000\nLength=3", b"DateBegin=1998\nLength=0", 4, "the series has no widths"),
        (b"DateBegin=1998\nDateEnd=2000", b"DateBegin=-1\nDateEnd=2", 4, "--year-zero no, with which they fit"),
        (b"DateBegin=1998\nDateEnd=2000", b"DateBegin=1e3", 3, "is no whole number"),
    ],
)
def test_heidelberg_files_that_are_refused(old: bytes, new: bytes, line: int, said: str) -> None:
    assert old in GOOD and widths.read(GOOD, "fh").series == [Series("OAK1", 1998, [1230, 1190, 1010])]
    with pytest.raises(Unreadable) as refused:
        widths.read(GOOD.replace(old, new), "fh")
    assert said in str(refused.value) and refused.value.line == line and refused.value.remedy


def test_a_key_code_that_comes_twice_and_renaming() -> None:
    twice = GOOD + GOOD + GOOD.replace(b"OAK1", b"OAK1-CORE-A")
    with pytest.raises(Unreadable, match="comes more than once.*--rename"):
        widths.read(GOOD + GOOD, "fh")
    made = widths.read(twice, "fh", Asked(rename=True))
    assert [each.name for each in made.series] == ["OAK11", "OAK12", "OAK1-CO1"]
    assert "Line 9: the name 'OAK1' became 'OAK12'." in map(str, made.changes)


def test_undated_series() -> None:
    undated = GOOD.replace(b"DateBegin=1998\nDateEnd=2000\n", b"")
    made = widths.read(undated, "fh")
    assert made.series[0].first == 1 and "its first year became 1 (--first YEAR" in str(made.changes[0])
    made = widths.read(undated, "fh", Asked(first=1850))
    assert made.series[0].first == 1850 and "as --first asks" in str(made.changes[0])


def test_the_year_zero() -> None:
    across = GOOD.replace(b"=1998", b"=-1").replace(b"DateEnd=2000", b"DateEnd=2")
    made = widths.read(across, "fh", Asked(year_zero="no"))
    assert made.series[0].first == 0 and "became one later" in str(made.changes[0])
    before = GOOD.replace(b"=1998", b"=-50").replace(b"DateEnd=2000", b"DateEnd=-48")
    made = widths.read(before, "fh")
    assert made.series[0].first == -50 and "was taken as it stands" in str(made.changes[0])
    assert widths.read(before, "fh", Asked(year_zero="no")).series[0].first == -49
    with pytest.raises(Unreadable, match="--year-zero no"):
        widths.read(b"year,A\n-1,1\n1,1\n", "csv")
    assert widths.read(b"year,A\n-1,1\n1,1\n", "csv", Asked(year_zero="no")).series == [Series("A", 0, [1000, 1000])]
    with pytest.raises(Unreadable, match="it has the year 0"):
        widths.read(b"year,A\n0,1\n1,1\n", "csv", Asked(year_zero="no"))


def test_what_is_told_of_heidelberg_files() -> None:
    told = widths.read(GOOD.replace(b"   101\n", b"   101     0     0\n").replace(b"OAK1", b"H\xf6he"), "fh")
    said = [str(change) for change in told.changes]
    assert "Line 8: values of 0 past Length were left out." in said and told.series[0].name == "H?he"
    assert "Line 1: a character of a name that is not ASCII became ?." in said
    assert (
        widths.read(GOOD.replace(b"Unit=1/100 mm\n", b""), "fh", Asked(unit="thousandths")).series[0].widths[0] == 123
    )
    with pytest.raises(Unreadable, match="Unit is 1/100 mm, but --unit asks for mm"):
        widths.read(GOOD, "fh", Asked(unit="mm"))


@pytest.mark.parametrize(
    ("text", "line", "said"),
    [
        (b"", 1, "the table is empty"),
        (b",,\n,,\n", 1, "the table is empty"),
        (b"\r,\n", 1, "the table is empty"),
        (b"year\n1998\n", 1, "no header of a table"),
        (b"1998,1\n1999,2\n", 1, "without a header"),
        (b"year,A\n", 1, "no rows follow"),
        (b"year,A,\n1998,1,\n", 1, "column 3 has no name"),
        (b"year,A,B\n1998,1,\n1999,1,\n", 1, "series 'B' has no widths"),
        (b"year,A\n1998,1\n1999,\n2000,1\n", 3, "has an empty cell within, in 1999"),
        (b"year,A\n1998,1\n2000,1\n", 3, "the year 2000 stands where 1999 comes next"),
        (b"year,A\n1998,1\n1998,1\n", 3, "the year 1998 stands where 1999 comes next"),
        (b"year,A\n1999,1\n1998,1\n", 3, "the year 1998 stands where 2000 comes next"),
        (b"year,A,B\n1998,1\n", 2, "it has 2 cells, but the header has 3"),
        (b"year,A\n1998,1,2\n", 2, "it has 3 cells"),
        (b"year,A\n1998,1.2345\n", 2, "is finer than a thousandth"),
        (b"year,A\n1998,-1\n", 2, "is below 0"),
        (b"year,A\n1998,NA\n", 2, "'NA' is no width"),
        (b"year,A\n1998,1e3\n", 2, "'1e3' is no width"),
        (b"year,A\n1998,4294968.5\n", 2, "'4294968.5' is no width"),
        (b"year;A\n1998;1,5\n1999;1.500\n", 3, "both a comma and a point"),
        (b"year,A\nMCM,1\n", 2, "is no whole number"),
        (b"year,A,A\n1998,1,1\n", 1, "comes more than once"),
        (b"year,NINELONGS\n1998,1\n", 1, "is longer than 8 columns"),
        (b'year,"A\n1998,1\n', 1, "quotation marks"),
        (b'year,A\n1998,"1\n', 2, "quotation marks"),
        (b"year,A\n1998,1\n\0", 3, "a zero byte"),
        (b"\xff\xfey\0", 1, "UTF-16"),
    ],
)
def test_tables_that_are_refused(text: bytes, line: int, said: str) -> None:
    with pytest.raises(Unreadable) as refused:
        widths.read(text, "csv")
    assert said in str(refused.value) and refused.value.line == line and refused.value.remedy


def test_units_and_rounding_of_tables() -> None:
    assert widths.read(b"year,A\n1998,123\n", "csv", Asked(unit="hundredths")).series[0].widths[0] == 1230
    assert widths.read(b"year,A\n1998,123\n", "csv", Asked(unit="thousandths")).series[0].widths[0] == 123
    made = widths.read(b"year,A\n1998,1.2345\n1999,1.2344\n", "csv", Asked(rounds=True))
    assert made.series[0].widths.tolist() == [1235, 1234] and "Lines 2 to 3: a width was rounded" in str(
        made.changes[0]
    )


def test_lines_of_a_change_are_told_where_columns_differ_in_length() -> None:
    made = widths.read(b"year,A,B\n1998,1.2345,1.2345\n1999,1.2345,\n2000,1.2345,\n", "csv", Asked(rounds=True))
    assert [(change.line, change.last) for change in made.changes] == [(2, 4)]
    made = widths.read(b"year,A,B\n1998,1.2345,\n1999,1.5,1.5\n2000,,1.2345\n", "csv", Asked(rounds=True))
    assert [(change.line, change.last) for change in made.changes] == [(2, 2), (4, 4)]


@pytest.mark.parametrize(
    "cut, widths_read", [(b"year,A\n1998,1\n1999,1.23", [1000, 1230]), (b"year,A\r1998,1.2", [1200])]
)
def test_a_table_that_may_be_cut_off_within_its_last_width_is_told(cut: bytes, widths_read: list[int]) -> None:
    made = widths.read(cut, "csv")
    assert made.series[0].widths.tolist() == widths_read
    assert [str(change) for change in made.changes] == [
        f"Line {len(widths_read) + 1}: no line end stands behind the last row; see that it is whole."
    ]
    assert not widths.read(cut + b"4\n", "csv").changes


def test_a_numbered_name_is_no_other_series_name() -> None:
    text = b"year,LONGNAME9,X,LONGNAM1,Y,LONGNAM1\n1998,1,2,3,4,5\n"
    made = widths.read(text, "csv", Asked(rename=True))
    assert [each.name for each in made.series] == ["LONGNAM1", "X", "LONGNAM2", "Y", "LONGNAM3"]
    assert len(made.changes) == 3


def test_the_engine_refuses_what_it_can_t_hold() -> None:
    with pytest.raises(Refused, match="Line 1: .*100000"):
        widths.read(b"year,A\n1998,100\n", "csv")
    with pytest.raises(Refused, match="Line 1: "):
        widths.read(b"year,A\n12345,1\n", "csv")


# Damage.


PUT_IN = b'0123456789 ,;.-x\n\xff"='


def differing(series: Series, other: Series) -> int:
    """How many of a series' widths are not those of another in the same year."""
    held = dict(enumerate(other.widths, start=other.first))
    return sum(held.get(year) != width for year, width in enumerate(series.widths.tolist(), start=series.first))


def is_placed(made: Series, truth: Series, form: Form, is_swapped: bool) -> bool:
    """Whether each width stands in its year, but for one whose own digits were damaged.

    A table may have lost its first or last rows, which nothing tells. Lines of data in a Heidelberg file have no years, so that two
    that are swapped can't be seen, nor can a Unit that became another one; its years must be right all the same."""
    if form == "csv":
        return truth.first <= made.first and made.last <= truth.last and differing(made, truth) <= 1
    is_in_years = (made.first, made.last) == (truth.first, truth.last)
    scaled = [[width * by for width in truth.widths] for by in (10, 100, 1000)]
    return is_in_years and (is_swapped or differing(made, truth) <= 1 or made.widths.tolist() in scaled)


def test_damaged_files_never_shift_a_year() -> None:
    draw = random.Random(5_000)
    taken = {"fh": 0, "csv": 0}
    for number in range(DAMAGED_FILES):
        truth = [
            Series(f"S{place}{'ABC'[place]}", draw.randint(1200, 1900), [draw.randint(100, 899) for _ in range(count)])
            for place, count in enumerate(draw.choices(range(3, 34), k=draw.randint(1, 3)))
        ]
        form: Form = "fh" if number % 2 else "csv"
        text, kind = damaged(draw, widths.text_of(truth, form), PUT_IN)
        try:
            made = widths.read(text, form).series
        except (Unreadable, Refused):
            continue
        taken[form] += 1
        assert len(made) == len(truth) or (form == "fh" and kind == "cut" and len(made) < len(truth)), text
        assert all(is_placed(*pair, form, kind == "swapped") for pair in zip(made, truth)), (text, plain(made))
    assert min(taken.values()) > DAMAGED_FILES // 50  # so that the comparison is made


# The command.


def test_every_command_reads_them(run: Run, tmp_path: Path) -> None:
    for name in ("oak.fh", "oak.csv", "oak.tsv", "OAK.CSV"):
        assert run("convert", OAK, tmp_path / name).status == 0
        assert run("explain", tmp_path / name).out.startswith("Accepted: 2 series.")
        fitted = run("fit", tmp_path / name, "--series", "ROOF04E")
        assert fitted.out == run("fit", OAK, "--series", "ROOF04E").out
        indexed = run("indices", tmp_path / name, "--fit")
        assert indexed.status == 0 and indexed.out == run("indices", OAK, "--fit").out
        assert run("clean", tmp_path / name).out.encode() == tucson.write(tucson.read(ROOT / OAK))
        assert run("plot", tmp_path / name, "-o", tmp_path / "a.svg").status == 0
        assert run("bank", tmp_path / name, tmp_path / f"bank {name}", "--quiet").status == 0
    (tmp_path / "oak.txt").write_bytes((tmp_path / "oak.fh").read_bytes())
    assert run("fit", tmp_path / "oak.txt", "--series", "ROOF04E").status == 0
    assert run("fit", tmp_path / "oak.csv", "--from", "fh", "--series", "ROOF04E").status == REFUSED
    assert run("fit", tmp_path / "oak.csv", "--strict", "--series", "ROOF04E").status == UNUSABLE


def test_forms_that_are_said(run: Run, tmp_path: Path) -> None:
    assert run("convert", OAK, "-").status == UNUSABLE
    assert run("convert", OAK, "-", "--to", "tsv").out.startswith("year\tROOF04E\tROOF04L\n")
    text = run("convert", OAK, "-", "--to", "fh").out.encode()
    assert run("convert", "-", "-", "--to", "rwl", stdin=text).out.encode() == tucson.write(tucson.read(ROOT / OAK))
    (tmp_path / "a.txt").write_bytes(b"Jahr;A\n1998;1,5\n")
    assert run("plot", tmp_path / "a.txt", "--from", "csv", "-o", tmp_path / "a.svg").status == 0
    assert run("convert", tmp_path / "a.txt", "-", "--from", "csv", "--to", "rwl").out.startswith(
        "A       1998  1500 -9999"
    )


def test_options_of_other_forms(run: Run, tmp_path: Path) -> None:
    (tmp_path / "a.csv").write_bytes(b"year,A\n1998,12\n1999,11\n")
    for command in (("convert", tmp_path / "a.csv", "-", "--to", "rwl"), ("explain", tmp_path / "a.csv")):
        ended = run(*command, "--hundredths")
        assert ended.status == UNUSABLE and "--unit says what the widths of a table are" in ended.err
        assert run(*command, "--unit", "hundredths").status == 0
    assert run("bank", tmp_path / "a.csv", tmp_path / "out", "--hundredths").status == REFUSED
    assert run("convert", OAK, tmp_path / "b.csv", "--rename").status == UNUSABLE


def test_nothing_is_written_where_it_refuses(run: Run, tmp_path: Path) -> None:
    (tmp_path / "a.csv").write_bytes(b"year,A\n1998,1\n2000,1\n")
    ended = run("convert", tmp_path / "a.csv", tmp_path / "a.rwl")
    assert ended.status == REFUSED and "a.csv: Line 3: the year 2000 stands where 1999 comes next" in ended.err
    (tmp_path / "b.rwl").write_bytes(tucson.write([Series(" A", 1998, [1])]))
    ended = run("convert", tmp_path / "b.rwl", tmp_path / "a.fh", "--strict")
    assert ended.status == REFUSED and "begins with a blank" in ended.err
    assert run("convert", tmp_path / "a.csv", tmp_path / "a.csv").status == UNUSABLE
    assert sorted(path.name for path in tmp_path.iterdir()) == ["a.csv", "b.rwl"]


def test_a_data_bank_with_other_files(run: Run, tmp_path: Path) -> None:
    folder = tmp_path / "in"
    folder.mkdir()
    for name in ("a.fh", "b.rwl", "c.csv"):
        assert run("convert", OAK, folder / name).status == 0
    (folder / "d.fh.gz").write_bytes(gzip.compress(GOOD.replace(b"Tree", b"Double")))
    ended = run("bank", folder, tmp_path / "out")
    assert ended.status == REFUSED and "d.fh.gz: Line 7: its data are of the kind 'Double'" in ended.err
    assert sorted(path.name for path in (tmp_path / "out").glob("*.indices.csv")) == ["a.indices.csv", "b.indices.csv"]
    made = [(tmp_path / "out" / f"{name}.indices.csv").read_bytes() for name in "ab"]
    assert made[0] == made[1]
    strict = run("bank", folder / "a.fh", tmp_path / "strict", "--strict")
    assert strict.status == REFUSED and "--strict takes a Tucson file" in strict.err
