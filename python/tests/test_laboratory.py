"""Laboratories' files by the proved call, from Python and by the command: what is brought into the strict form, what is refused and
how, and files damaged in these ways and in combinations. What is read is held against the file's bytes by a small function of its
own: it stands in the columns in which an editor shows it, or the file is refused.
"""

from __future__ import annotations

import re
from collections.abc import Callable
from pathlib import Path
from typing import NamedTuple

import pytest
from hypothesis import HealthCheck, assume, example, given, settings
from hypothesis import strategies as st
from running import ROOT, Run

from space import Refusal
from tucson import read_tucson
from walzhik import Refused, tucson
from walzhik.notes import Note, remarks, sentences, summary
from walzhik.tucson import Cleaned, clean

HEADER = (
    b"WALZ01 1 Roof of the town hall                                  QURO\n"
    b"WALZ01 2 Walzhik      Oak               420M  4712-01134          1703 1802\n"
    b"WALZ01 3 Society of Walzhik\n"
)
FEW = b"FEW     1998    12     9\nFEW     2000     7 -9999\n"
OAK = b"OAK01   1895   812   790   655   901   744\nOAK01   1900   688   702 -9999\n"
COARSE = b"PINE    1897   246   264   235\nPINE    1900   144   158   999\n"
TEN = b"TEN     1890" + b"   700" * 9 + b" -9999"
THREE = b"".join(b"OAK 01 %d 850    12    13    14   999 A\n" % place for place in (1, 2, 3))
MARK, TAB = b"\xef\xbb\xbf", 8


class Series(NamedTuple):
    name: bytes
    first: int
    widths: tuple[int, ...]
    closing: int


Read = list[tuple[bytes, int, tuple[int, ...]]]
SCALE = {999: 10, -9999: 1}


def written(series: list[Series]) -> list[bytes]:
    """The strict lines of the series, each closed in its own unit."""
    lines = []
    for name, first, widths, closing in series:
        fields, year = [*widths, closing], first
        while fields:
            room = 10 - year % 10
            lines.append(name.ljust(8) + b"%4d" % year + b"".join(b"%6d" % field for field in fields[:room]))
            year, fields = year + room, fields[room:]
    return lines


def read(text: bytes) -> Read:
    """The series of a strict text by the rational program, which the proved reader agrees with, refusals too."""
    try:
        proved = [(each.columns, each.first, tuple(each.widths.tolist())) for each in tucson.read_strict(text)]
    except Refused as refused:
        with pytest.raises(Refusal) as raised:
            read_tucson(text)
        assert (raised.value.number, raised.value.place) == (refused.number, refused.place)
        raise raised.value
    assert proved == [(bytes(name), first, tuple(widths)) for name, first, widths in read_tucson(text)]
    return proved


def meant(series: list[Series]) -> Read:
    return [(s.name.ljust(8), s.first, tuple(SCALE[s.closing] * width for width in s.widths)) for s in series]


def refusal(text: bytes, **options: object) -> Refused:
    with pytest.raises(Refused) as raised:
        clean(text, **options)  # type: ignore[arg-type]
    return raised.value


# What stands where, by the file's bytes alone.


def columns(data: bytes, line: int) -> bytes:
    """What an editor shows of a line, a byte a column."""
    made = b""
    for byte in data.removeprefix(MARK).split(b"\x1a")[0].split(b"\n")[line - 1].removesuffix(b"\r"):
        made += b" " * (TAB - len(made) % TAB) if byte == 9 else bytes([byte])
    return made.rstrip(b" ")


def stands_in_the_file(data: bytes, made: Cleaned) -> None:
    """Every line of the strict text is what the file shows, column by column, but for ? in a name, a site name and a closing that
    was asked for; every line that is not in it is blank or a header's line, and none of these is lost without a note.
    """
    noted = {number: {note.line for note in made.notes if note.number == number} for number in range(1, 15)}
    strict = made.text.split(b"\n")[:-1]
    assert len(strict) == len(made.lines) and list(made.lines) == sorted(set(made.lines))
    for body, line in zip(strict, made.lines):
        shown = columns(data, line)
        if line in noted[7]:
            shown = re.sub(rb" +[A-Za-z]{2,4}[0-9]{3}[A-Za-z]?$", b"", shown)
        if line in noted[11]:
            assert shown.endswith(b"  -999")
            body, shown = body[:-6], shown[:-6]
        name = shown[: len(shown) - len(body) + 8]
        assert shown[len(name) :] == body[8:]
        assert (
            name == body[:8] or line in noted[10] and not name.isascii() and name[-1:].isascii() == (body[7:8] != b"?")
        )
    text = data.removeprefix(MARK).split(b"\x1a")[0]
    for line in set(range(1, text.count(b"\n") + 1)) - set(made.lines):
        assert line in noted[9] or (line in noted[6] and not columns(data, line))


# The cases that the reading was made for.

CASES = [
    (b"OAK01\t1895   812\t   655 -9999\n", (11, 1)),
    (b"OAK     1895    81    79    65   999\nOAK     1910   820   700 -9999\n", (12, 2)),
    (THREE + FEW, (11, 1)),
    (b"OAK01A\t12\t1920\t128\t130\t-9999\n", (11, 1)),
    (b"ABC01  11895   812 -9999\n", (23, 1)),
    (b"ABC012-11895   812 -9999\n", (23, 1)),
    ("ABC01  −1012   812 -9999\n".encode(), (23, 1)),
    (b"FJ -725 1483 -9999\n", (23, 1)),
    (b"OAK     1895    81    79    65    90   999\nOAK     1900   812   702 -9999\n", [Note(13, 1)]),
    (b"OAK     1890   700   701     0     0   999\n", [Note(12, 1)]),
    (FEW + b"A       1890    70   999\n" + OAK, [Note(14, 3)]),
    (TEN + b" CO523\n", [Note(7, 1)]),
    (TEN + b"   709\n", (11, 1)),
    (TEN + b" BC\n", (11, 1)),
    (OAK.replace(b"OAK01   ", b"OAK01\t"), [Note(4, 1), Note(4, 2)]),
]


@pytest.mark.parametrize(("text", "answer"), CASES)
def test_cases(run: Run, tmp_path: Path, text: bytes, answer: tuple[int, int] | list[Note]) -> None:
    path = tmp_path / "a.rwl"
    path.write_bytes(text)
    told = run("clean", path)
    if isinstance(answer, tuple):
        error = refusal(text)
        assert (error.number, error.place) == answer
        assert (told.status, told.out) == (
            1,
            "",
        ) and f"no={error.number},{error.place}. {error.words} {error.remedy}" in told.err
        assert run("explain", path) == (1, f"Refused: no={answer[0]},{answer[1]}.\n{error.words}\n{error.remedy}\n", "")
        return
    made = clean(text)
    assert list(made.notes) == answer
    stands_in_the_file(text, made)
    said = "".join(f"{path}: {sentence}\n" for sentence in sentences(answer))
    assert told == (0, made.text.decode(), said)
    assert run("explain", path).err == said


# What is brought into the strict form.


@pytest.mark.parametrize(
    ("damaged", "notes"),
    [
        (FEW, []),
        (FEW.replace(b"\n", b"\r\n"), [(3, 1), (3, 2)]),
        (FEW.replace(b"\n", b"\r\n", 1), [(3, 1)]),
        (MARK + FEW, [(1, 1)]),
        (HEADER + FEW, [(9, 1), (9, 2), (9, 3)]),
        (b"\n" + HEADER + b"\n" + FEW, [(6, 1), (9, 2), (9, 3), (9, 4), (6, 5)]),
        (FEW.replace(b"\n", b"\n\n \t\n", 1), [(6, 2), (4, 3), (6, 3)]),
        (FEW.replace(b"\n", b"   \n", 1), [(5, 1)]),
        (FEW.replace(b"\n", b"\t\n", 1), [(4, 1), (5, 1)]),
        (FEW + b"\x1a", [(2, 3)]),
        (FEW + b"\x1a\x1a\r\n\x1a", [(2, 3)]),
        (FEW[:-1], [(8, 2)]),
        (FEW[:-1] + b"\x1a", [(2, 2), (8, 2)]),
        (FEW.replace(b"FEW     ", b"FEW\t"), [(4, 1), (4, 2)]),
        (FEW.replace(b"    12", b"\t12"), [(4, 1)]),
        (b"FEW\t1998\t12\t9\nFEW\t2000\t7\t-9999\n", None),
        (b"FEW     1998\t    12\t9\nFEW\t2000     7 -9999\n", None),
    ],
)
def test_changed(damaged: bytes, notes: list[tuple[int, int]] | None) -> None:
    if notes is None:  # until now such fields between tabs were put into columns in which no editor shows them
        assert refusal(damaged).number == 11
        return
    made = clean(damaged)
    assert made.text == FEW and list(made.notes) == notes
    stands_in_the_file(damaged, made)


def test_the_lines_count_in_the_file() -> None:
    made = clean(b"\n" + HEADER + FEW[:-1])
    assert made.lines == (5, 6) and [note.line for note in made.notes] == [1, 2, 3, 4, 6]


@pytest.mark.parametrize("name", ["Åre01".encode("latin-1"), "Åre01".encode()])
def test_a_byte_that_is_not_ascii(name: bytes) -> None:
    text = b"".join(name + b"   " + line[8:] + b"\n" for line in FEW.splitlines())
    made = clean(text)
    assert made.text == FEW.replace(b"FEW     ", b"?re01   ") and list(made.notes) == [(10, 1), (10, 2)]
    stands_in_the_file(text, made)
    assert refusal(text.replace(b"   1998", b"\t1998")).number == 22


def test_names_that_become_equal() -> None:
    """Neighbours would be one series; where another stands between, the commands refuse the name that comes again."""
    first, second = (OAK.replace(b"OAK01", name.encode("latin-1")) for name in ("Åre01", "Äre01"))
    assert clean(first).text == OAK.replace(b"OAK01", b"?re01")
    assert "'\\xc5re01   ' and '\\xc4re01   '" in refusal(first + second).words
    assert refusal(first + OAK.replace(b"OAK01", b"?re01")).number == 22
    assert clean(first + FEW + second).text.count(b"?re01") == 4


# What is refused: the number, the line, and what the words say.


@pytest.mark.parametrize(
    ("damaged", "number", "line", "said"),
    [
        (OAK.replace(b"1900", b"1910"), 12, 2, "no widths for 1900 to 1909"),
        (OAK.replace(b"  744\n", b"\n").replace(b"  901 ", b"  901"), 12, 2, "no widths for 1899"),
        (OAK.replace(b"1900", b"1890"), 12, 2, "starts in 1890, but the next year of series 'OAK01   ' is 1900"),
        (b"A        -10" + b"     7" * 10 + b"\nA          1     7 -9999\n", 12, 2, "no year 0"),
        (b"ABC01  -1012    12    13 -9999\n", 23, 1, "'ABC01  -1012' .* the minus in column 8 runs into the year 1012"),
        (b"ABC0123-1012    12    13 -9999\n", 23, 1, "the minus in column 8 runs into the year 1012"),
        (b"ABC01 -11012    12    13 -9999\n", 23, 1, "last digit, in column 8, runs into the year 1012"),
        (b"      107011  1703  1415 -9999\n", 23, 1, "a line that is shifted"),
        (OAK + OAK, 11, 2, "the closing -9999 for 1902, but it is not the last"),
        (OAK.replace(b" -9999", b"  -999") + OAK, 11, 2, "Line 2 has -999 for 1902, as a closing, but"),
        (
            COARSE.replace(b"   264", b"   999"),
            25,
            1,
            "999 for 1898 .* a closing, a missing ring or a width of 9.99 mm",
        ),
        (COARSE.replace(b"   158", b"   999"), 25, 2, "999 for 1901"),
        (COARSE + COARSE.replace(b"1897", b"1903"), 25, 2, "999 for 1902"),
        (FEW.replace(b" -9999", b"  -999"), 24, 2, "with -999, which does not say"),
        (FEW.replace(b"\n", b"\r"), 21, 1, "carriage return .*column 25"),
        (FEW.replace(b"\n", b"\r\r\n"), 21, 1, "carriage return"),
        (FEW.replace(b"\n", b"\r\n")[:-1], 21, 2, "carriage return"),
        (b"\xff\xfe" + FEW.decode().encode("utf-16-le"), 21, 1, "FF FE: .*UTF-16"),
        (b"\xfe\xff" + FEW.decode().encode("utf-16-be"), 21, 1, "FE FF: .*UTF-16"),
        (FEW.decode().encode("utf-16-le"), 21, 1, "zero byte, in column 2"),
        (FEW + MARK + OAK, 21, 3, "byte order mark .*column 1"),
        (FEW + b"\x1a\n" + OAK, 21, 3, "Ctrl-Z .* 'OAK01   1895"),
        (FEW.replace(b"    12", b"  1\t 2 "), 11, 1, "With each tab .* it is shown as 'FEW     1998  1  2      9'"),
        (HEADER.replace(b"\n", b"\nWALZ01\n", 1) + FEW, 11, 1, "neither a line of widths nor"),
        (HEADER[HEADER.index(b"\n") + 1 :] + FEW, 11, 1, "neither a line of widths nor"),
        (FEW + HEADER + OAK, 11, 3, "neither a line of widths nor"),
        ("Dachstuhl Höfe, 1998\n".encode("latin-1") + FEW, 22, 1, "byte 246 .F6. in column 12"),
        (FEW.replace(b"    12", b"  \xa012 "), 22, 1, "byte 160 .A0. in column 15"),
        ("𝔸𝔹1703  1415  1339 -9999\n".encode(), 22, 1, "both with one . for each such byte"),
        (OAK.replace(b"   812", b"  -812"), 11, 1, "Line 1 has -812 for 1895"),
        (OAK[:-7] + b"\n", 13, 2, "Line 2 ends series 'OAK01   ' with 702"),
        (OAK.replace(b"812", b"8.2"), 11, 1, "'   8.2' for a field: .* shown as 'OAK01   1895   8.2   790"),
        (OAK.replace(b"OAK01   1900", b"OAK0I   1900"), 13, 1, "and line 2 goes on with its next year, 1900, under"),
    ],
)
def test_refused(damaged: bytes, number: int, line: int, said: str) -> None:
    error = refusal(damaged)
    assert (error.number, error.place) == (number, line)
    assert re.search(said, error.words), error.words
    assert error.words.startswith(f"Line {line} ") or number == 21
    assert error.remedy


def test_nobody_is_told_to_close_a_torso() -> None:
    """A series that was cut off must not be dated by a closing that is merely put in."""
    for text in (OAK[:-7] + b"\n", OAK.replace(b"OAK01   1900", b"OAK0I   1900")):
        remedy = refusal(text).remedy
        assert not remedy.startswith("Add") and "lost" in remedy


def test_names_and_years_that_are_legal_to_the_letter() -> None:
    """What was refused until now as a name that looks like a year, though every column is in order: such lines are read as shown."""
    [series] = tucson.read(b"E 1703  1415  1339  2108 -9999\n")
    assert (series.name, series.first) == ("E 1703", 1415)
    assert clean(b"AB011703  1415   128 -9999\n".replace(b"  1415", b"1415")).lines == (1,)


def test_a_series_in_the_place_of_a_header_is_kept() -> None:
    names = [b"ROOF01 %d" % place for place in (1, 2, 3)]
    text = b"".join(name + b" 850    12    13 -9999\n" for name in names)
    assert refusal(text).number == 23  # each a series by itself, whose name ends in a digit behind a blank
    longer = b"".join(name + b" 858    12    13\n" + name + b" 860    12 -9999\n" for name in names)
    assert clean(longer).text == longer
    assert refusal(longer.replace(b"    12", b"   12")).number == 11
    not_ascii = b"".join("ÅÄ01 %d Ö 858    12    13\nÅÄ01 %d Ö 860    12 -9999\n".encode() % (p, p) for p in (1, 2, 3))
    assert refusal(not_ascii).number == 23  # column 8 shows ?


# Header and unit.


@pytest.mark.parametrize(("unit", "closing"), [("hundredths", b"   999"), ("thousandths", b" -9999")])
def test_the_unit_that_is_said(unit: tucson.Unit, closing: bytes) -> None:
    made = clean(COARSE.replace(b"   999", b"  -999"), unit=unit)
    assert made.text == COARSE.replace(b"   999", closing) and list(made.notes) == [(11, 2)]
    assert clean(COARSE.replace(b"   999", closing), unit=unit).notes == ()


def test_a_unit_over_another_closing() -> None:
    """Until now the unit said was dropped in silence for a series that closes with the other one."""
    assert (error := refusal(COARSE, unit="thousandths")).number == 24 and error.place == 2
    assert "closes series 'PINE    ' with 999, for hundredths, but thousandths are said" in error.words
    with pytest.raises(ValueError, match="hundredths or thousandths is needed, not 'mm'"):
        clean(COARSE, unit="mm")  # type: ignore[arg-type]


def test_999_under_a_unit_that_is_said() -> None:
    text = COARSE.replace(b"   999", b"  -999").replace(b"   264", b"   999")
    assert refusal(text, unit="hundredths").number == 25
    assert read(clean(text, unit="thousandths").text)[0][2] == (246, 999, 235, 144, 158)


def test_a_header_that_is_named() -> None:
    text = b"Roof of the town hall\n\nQURO 1703\n" + FEW
    assert refusal(text).number == 11 and "(--header N)" in refusal(text).remedy
    made = clean(text, header=3)
    assert made.text == FEW and made.lines == (4, 5) and list(made.notes) == [(9, 1), (6, 2), (9, 3)]
    stands_in_the_file(text, made)
    assert refusal(HEADER + FEW, header=0).number == 11
    assert clean(FEW, header=0).text == FEW


@pytest.mark.parametrize(
    ("header", "place", "said"),
    [
        (4, 4, "Line 4 is within the header of 4 lines that is named, but it is a line of widths: 'FEW     1998"),
        (6, 0, "A header of 6 lines is named, but the file has 5 lines"),
        (100, 0, "A header of 100 lines is named: a header has 0 to 99"),
        (-1, 0, "a header has 0 to 99"),
        (10**12, 0, "a header has 0 to 99"),
    ],
)
def test_a_header_that_is_none(header: int, place: int, said: str) -> None:
    error = refusal(HEADER + FEW, header=header)
    assert (error.number, error.place) == (26, place) and said in error.words


def test_what_is_no_file_header_or_unit() -> None:
    for header in ("1", 1.0, True):
        with pytest.raises(TypeError, match="header: a whole number is needed"):
            clean(FEW, header)  # type: ignore[arg-type]
    with pytest.raises(TypeError, match="text: the file's bytes are needed, not str"):
        clean(FEW.decode())  # type: ignore[arg-type]
    assert clean(bytearray(FEW)).text == FEW


def test_strict_texts_take_neither() -> None:
    for options in ({"header": 0}, {"unit": "hundredths"}):
        with pytest.raises(ValueError, match="go without strict"):
            tucson.read(FEW, strict=True, **options)  # type: ignore[arg-type]


# Notes.


def test_every_note_has_words() -> None:
    found = sentences([Note(number, number) for number in range(1, 15)])
    assert len(set(found)) == 14 and all(each.startswith("Line ") and each.endswith(".") for each in found)


def test_notes_of_lines_that_follow_each_other_are_one() -> None:
    assert sentences([Note(3, 1), Note(3, 2), Note(3, 4)]) == [
        "Lines 1 to 2: the line end of Windows became a plain one.",
        "Line 4: the line end of Windows became a plain one.",
    ]


def test_remarks_of_a_kind_are_one_sentence() -> None:
    found = sentences([Note(14, 2), Note(12, 3), Note(14, 5), Note(14, 6), Note(5, 9)])
    assert [each.split(":")[0] for each in found] == ["Line 9", "Line 3", "Lines 2, 5 to 6"]


def test_what_is_counted_and_what_is_told_in_full() -> None:
    notes = [Note(3, 1), Note(5, 1), Note(12, 1), Note(3, 2), Note(14, 9)]
    assert summary(notes) == "2 lines were brought into the strict form; ./walzhik clean lists them."
    assert summary([Note(8, 9)]) == "1 line was brought into the strict form; ./walzhik clean lists it."
    assert remarks(notes) == [Note(12, 1), Note(14, 9)]


# Files damaged in combinations.

NAMES = st.one_of(
    st.from_regex(rb"\A[A-Z]{3}[0-9]{2}[AB]\Z"),
    st.from_regex(rb"\A[!-~][ -~]{0,6}[!-~]\Z"),
    st.sampled_from([b"A", b"WAL 02", b"WAL 12", b" LEFT", b"AB1234", b"ROOF01 1", b"ABC01  -", b"107011", b"X-1"]),
)


@st.composite
def files(draw: st.DrawFn) -> list[Series]:
    names = draw(st.lists(NAMES, min_size=1, max_size=4, unique_by=lambda name: name.strip()))
    series = []
    for name in names:
        closing = draw(st.sampled_from([999, -9999]))
        widths = draw(st.lists(st.integers(0, 9_999) | st.sampled_from([999, 998]), max_size=35))
        series.append(Series(name, draw(st.integers(-999, 2030)), tuple(widths), closing))
    return series


Lines = list[bytes]
Way = Callable[[Lines, int], Lines]


def windows(lines: Lines, place: int) -> Lines:
    return [line + b"\r" for line in lines]


def windows_once(lines: Lines, place: int) -> Lines:
    return [line + b"\r" * (each == place) for each, line in enumerate(lines)]


def mark(lines: Lines, place: int) -> Lines:
    return [MARK + lines[0], *lines[1:]]


def header(lines: Lines, place: int) -> Lines:
    return HEADER.splitlines() + lines


def blank_line(lines: Lines, place: int) -> Lines:
    return [*lines[:place], b"  ", *lines[place:]]


def trailing(lines: Lines, place: int) -> Lines:
    return [line + b"      " * (each == place) for each, line in enumerate(lines)]


def changed(lines: Lines, place: int, made: bytes) -> Lines:
    return [*lines[:place], made, *lines[place + 1 :]]


def unexpanded(line: bytes) -> bytes:
    """The line with tabs for the blanks before its columns 9, 17 and so on, as `unexpand -a` puts them: it shows the same."""
    pieces = [line[start : start + TAB] for start in range(0, len(line), TAB)]
    short = [piece.rstrip(b" ") + b"\t" if piece.endswith(b"  ") else piece for piece in pieces[:-1]]
    return b"".join([*short, *pieces[-1:]])


def tabs(lines: Lines, place: int) -> Lines:
    return list(map(unexpanded, lines))


def site_name(lines: Lines, place: int) -> Lines:
    return [line + b" CO523" if len(line) == 72 and line.isascii() else line for line in lines]


def not_ascii(lines: Lines, place: int) -> Lines:
    """A letter of a series' name that is not ASCII, in all its lines."""
    name = lines[place][:8]
    return [b"\xc5" + line[1:] if line[:8] == name else line for line in lines]


def fields_between_tabs(lines: Lines, place: int) -> Lines:
    return changed(lines, place, b"\t".join([lines[place][:8].rstrip(), *lines[place][8:].split()]))


def tab_for_blanks(lines: Lines, place: int) -> Lines:
    return changed(lines, place, lines[place].replace(b"  ", b"\t", 1))


def unknown_unit(lines: Lines, place: int) -> Lines:
    return [line[:-6] + b"  -999" if line[-6:] in (b"   999", b" -9999") else line for line in lines]


def lost_line(lines: Lines, place: int) -> Lines:
    return lines[:place] + lines[place + 1 :]


def twice(lines: Lines, place: int) -> Lines:
    return [*lines[: place + 1], *lines[place:]]


def shifted_right(lines: Lines, place: int) -> Lines:
    return changed(lines, place, b" " * (len(lines) % 7 + 1) + lines[place])


def shifted_left(lines: Lines, place: int) -> Lines:
    return changed(lines, place, lines[place][len(lines) % 7 + 1 :])


def swapped(lines: Lines, place: int) -> Lines:
    return [*lines[place:], *lines[:place]]


def empty_field(lines: Lines, place: int) -> Lines:
    return changed(lines, place, lines[place][:12] + b"      " + lines[place][12:])


def torn(lines: Lines, place: int) -> Lines:
    return changed(lines, place, lines[place][: len(lines) + 3 * place])


def odd_byte(lines: Lines, place: int) -> Lines:
    at = (7 * place) % max(len(lines[place]), 1)
    return changed(lines, place, lines[place][:at] + b"\x1a\r\0\xa0?-"[place % 6 :][:1] + lines[place][at + 1 :])


HARMLESS: list[Way] = [windows, windows_once, mark, header, blank_line, trailing, tabs, site_name, not_ascii]
HARMFUL: list[Way] = [fields_between_tabs, tab_for_blanks, unknown_unit, lost_line, twice, shifted_right, shifted_left]
HARMFUL += [swapped, empty_field, torn, odd_byte]
ENDINGS = [b"", b"\n", b"\n\x1a", b"\x1a", b"\r\n\x1a\x1a\n", b"\n\n"]
QUIET = settings(
    max_examples=200,
    suppress_health_check=[HealthCheck.too_slow, HealthCheck.filter_too_much],
)


def damaged(series: list[Series], ways: list[tuple[Way, int]], ending: bytes) -> bytes:
    lines = written(series)
    for way, place in ways:
        if lines:
            lines = way(lines, place % len(lines))
    return b"\n".join(lines) + ending


@settings(QUIET, max_examples=600)
@given(
    files(),
    st.lists(st.tuples(st.sampled_from(HARMLESS + HARMFUL), st.integers(0, 99)), max_size=4),
    st.sampled_from(ENDINGS),
    st.sampled_from([None, 0, 1, 3]),
    st.sampled_from([None, "hundredths", "thousandths"]),
)
def test_what_is_read_stands_in_the_shown_columns(
    series: list[Series], ways: list[tuple[Way, int]], ending: bytes, lines: int | None, unit: tucson.Unit | None
) -> None:
    """Names, years and widths of whatever is read are those that the file shows; a refusal has words about its line."""
    data = damaged(series, ways, ending)
    try:
        made = clean(data, lines, unit)
    except Refused as error:
        assert not error.words.startswith("There are no words") and error.remedy
        assert f"ine {error.place} " in error.words or error.place == 0 or error.number == 21
        return
    stands_in_the_file(data, made)
    assert [each[0] for each in read(made.text)] == [
        each.columns for each in tucson.read(data, header=lines, unit=unit)
    ]
    again = clean(made.text, 0, unit)
    assert again.text == made.text and [note.number for note in again.notes] == [
        note.number for note in remarks(made.notes)
    ]


SAFE_NAMES = st.from_regex(rb"\A[A-Z]{5}[0-9][AB]\Z")


@QUIET
@given(
    files(),
    st.lists(SAFE_NAMES, min_size=4, max_size=4, unique_by=lambda name: name[1:]),
    st.lists(st.tuples(st.sampled_from(HARMLESS), st.integers(0, 99)), unique_by=lambda way: way[0], max_size=4),
    st.sampled_from(ENDINGS),
)
def test_what_is_shown_in_order_is_read_as_it_was_written(
    series: list[Series], names: list[bytes], ways: list[tuple[Way, int]], ending: bytes
) -> None:
    """With names that cannot be taken for years, and no 999 in hundredths, every combination is read as it was written."""
    series = [each._replace(name=name) for each, name in zip(series, names)]
    series = [each._replace(widths=tuple(width - (width == 999) for width in each.widths)) for each in series]
    order = [not_ascii, site_name, tabs, trailing, blank_line, header, windows, windows_once, mark]
    applied = sorted(ways, key=lambda way: order.index(way[0]))
    chosen = {way for way, _ in applied}
    assume(not {windows, windows_once} <= chosen and not {not_ascii, tabs} <= chosen)
    if chosen & {windows, windows_once}:
        ending = b"\n" + ending.lstrip(b"\r\n")
    data = damaged(series, applied, ending)
    made = clean(data)
    stands_in_the_file(data, made)
    expected = meant(series)
    if not_ascii in chosen:
        assert [each[1:] for each in read(made.text)] == [each[1:] for each in expected]
    else:
        assert read(made.text) == expected


@QUIET
@given(files(), st.integers(0, 10_000))
@example([Series(b"ABC", 1900, (1, 2), -9999), Series(b"ABD", 1900, (1, 2), -9999)], 23)
def test_a_file_that_is_cut_off(series: list[Series], place: int) -> None:
    """Where it is cut within a series, it is refused; but 999 at the very end closes a series, whatever it was meant for."""
    text = b"\n".join(written(series)) + b"\n"
    cut = text[: place % (len(text) + 1)]
    assume(not cut.rstrip(b" \n").endswith(b"   999"))
    try:
        found = read(clean(cut).text)
    except Refused:
        return
    assert found == meant(series)[: len(found)]
