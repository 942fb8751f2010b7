"""The one table of words: every case of every refusal is met here by something that the engine refuses, and says which
entry it is about. The examples in examples/ are explained as it stands beside them.
"""

from __future__ import annotations

import re
from collections.abc import Callable, Mapping
from pathlib import Path

import pytest
from running import ROOT

from walzhik import Curve, Refused, Space, explain, notes, sheet, tucson
from walzhik.recover import recover
from walzhik.words.table import Words, table

# What only C and Rust callers can meet: buffers that are too short, lists of series that don't fit, more rings than a
# call takes; a file of more than 4 GiB; and 9, which is proved never to come.
NEVER = {(1, "buffer"), (1, "bytes"), (2, "rings"), (2, "series"), (9, "shape"), (21, "size")}
GOOD = b"breaks=0,1,3\ndegrees=2,2\norders=1\ncoefs=0:0,100:100,0:0,0:0\nat=256\n"
ONE_BY_ONE = b"A       1997    12\nA       1998     9 -9999\n"
FEW = b"FEW     1998    12     9\nFEW     2000     7 -9999\n"


def line() -> Curve:
    return Curve(Space([0, 2], [1], []), [1000, 3000])


def damaged(old: bytes, new: bytes) -> Callable[[], object]:
    assert old in GOOD
    return lambda: sheet.read(GOOD.replace(old, new))


def text(old: bytes, new: bytes) -> Callable[[], object]:
    assert old in FEW
    return lambda: tucson.read(FEW.replace(old, new), strict=True)


def file(data: bytes, **options: object) -> Callable[[], object]:
    return lambda: tucson.clean(data, **options)  # type: ignore[arg-type]


def written(*series: tuple[str, int, list[int]]) -> Callable[[], object]:
    return lambda: tucson.write([tucson.Series(*each) for each in series])


CASES: list[tuple[int, str, Callable[[], object], str]] = [
    (2, "stretches", lambda: Space([0], [], []), "no stretches: a curve has 1 to 48"),
    (2, "lengths", lambda: Space([0, 1], [1, 1], [0]), "3 breakpoints and 1 order, but breaks= lists 2 breakpoints"),
    (2, "positions", lambda: line().values([0] * 4097), "4,097 positions are asked for"),
    (3, "range", lambda: Space([0, 10001], [1], []), "Breakpoint 1 is 10001: each is from"),
    (3, "rising", lambda: Space([5, 5], [1], []), "Breakpoint 1 is 5, but breakpoint 0, before it, is 5"),
    (3, "span", lambda: Space([0, 2001], [1], []), "a span of 2,001 rings without a scar"),
    (4, "degree", lambda: Space([0, 1], [6], []), "Stretch 0, from ring 0 to ring 1, has degree 6"),
    (5, "range", lambda: Space([0, 1, 2], [3, 3], [3]), "Join 0, at ring 1, has order 3: an order is"),
    (5, "before", lambda: Space([0, 1, 2], [1, 2], [1]), "the stretch before it has degree 1: at most 0"),
    (5, "after", lambda: Space([0, 1, 2], [2, 1], [1]), "the stretch after it has degree 1: at most 0"),
    (5, "both", lambda: Space([0, 1, 2], [1, 1], [1]), "the stretches on both sides have degree 1: at most 0"),
    (15, "curve", lambda: Space(range(14), [1] * 13, [0] * 12), "13 stretches follow each other .* a curve has"),
    (
        15,
        "part",
        lambda: Space(range(15), [1] * 14, [-1] + [0] * 12),
        "From stretch 1, at ring 1, 13 .* a part between scars has",
    ),
    (
        6,
        "count",
        lambda: Curve(Space([0, 2], [1], []), [1, 2, 3]),
        "lists 3 pairs, but this curve takes 2 pairs: .* = 2",
    ),
    (6, "range", lambda: Curve(Space([0, 2], [1], []), [[1, 2], [3, -(10**7)]]), "Pair 1 .* with latewood -10000000"),
    (7, "before", lambda: line().values([0, -1]), "Entry 1 of at= is -1, ring -1 and 255/256, before .* at least 0"),
    (7, "after", lambda: line().values([513]), "Entry 0 of at= is 513, ring 2 and 1/256, past .* at most 512"),
    (7, "ring-before", lambda: line().indices([1], -1), "Width 0 of the series is ring -1, before .* ring 0"),
    (7, "ring-after", lambda: line().indices([1, 1], 2), "Width 1 of the series is ring 3, past .* ring 2"),
    (
        8,
        "fraction",
        lambda: sheet.read((ROOT / "examples/refusals/refused_8.sheet").read_bytes()),
        "Join 1, at ring 21, has order 2 between",
    ),
    (10, "bytes", lambda: sheet.read(b"x" * 65_537), "more than 65,536 bytes"),
    (10, "after", lambda: sheet.read(GOOD + b"x\n"), "Line 6 is too many: .* but 'x' follows"),
    (10, "missing", lambda: sheet.read(b"breaks=0\n"), "Line 2 is missing: it starts with degrees="),
    (10, "name", damaged(b"orders", b"order"), "Line 3 must start with orders=, but it is 'order=1'"),
    (10, "carriage", damaged(b"orders=1", b"orders=1\r"), "Line 3, orders=, ends in a carriage return"),
    (10, "end", lambda: sheet.read(GOOD[:-1]), "Line 5, at=: it has no line end"),
    (10, "entries", damaged(b"at=256", b"at=" + b",".join([b"1"] * 4097)), "Line 5, at=: it has 4,097 entries"),
    (10, "entry", damaged(b"0,1,3", b"0,1,x"), "Line 1, breaks=: entry 2, 'x', is not a whole number"),
    (10, "digits", damaged(b"0,1,3", b"0,1,12345678"), "entry 2, '12345678', has 8 digits: at most 7"),
    (10, "empty", damaged(b"0,1,3", b"0,,3"), "entry 1, '', is empty"),
    (10, "blank", damaged(b"0,1,3", b"0, 1,3"), "entry 1, ' 1', has a blank"),
    (10, "plus", damaged(b"0,1,3", b"0,+1,3"), "entry 1, '.1', has a plus sign"),
    (10, "minus-zero", damaged(b"0,1,3", b"-0,1,3"), "entry 0, '-0', is minus zero"),
    (10, "spare-zero", damaged(b"0,1,3", b"0,01,3"), "entry 1, '01', has a spare zero"),
    (10, "no-number", damaged(b"0,1,3", b"0,1.5,3"), "entry 1, '1.5', is not a whole number"),
    (10, "pair", damaged(b"0,1,3", b"0,1:1,3"), "entry 1, '1:1', is a pair: only coefs= has pairs"),
    (10, "no-pair", damaged(b"100:100", b"100"), "entry 1, '100', is no pair"),
    (10, "colons", damaged(b"100:100", b"1:2:3"), "entry 1, '1:2:3', has more than one colon"),
    (10, "side", damaged(b"100:100", b"100:x"), "has a fault in its latewood, 'x', which is not a whole number"),
    (11, "carriage", text(b"     9\n", b"     9\r\n"), "Line 1 ends in a carriage return"),
    (11, "columns", text(b"    12", b"   12"), "Line 1 has 23 columns"),
    (11, "name", text(b"FEW     1998", b"        1998"), "Line 1 has '        ' for a name"),
    (11, "year", text(b"1998", b" x98"), "Line 1 has ' x98' for a year"),
    (11, "field", text(b"    12", b"   1.2"), "Line 1 has '   1.2' for a field: .* columns 13 to 18"),
    (11, "end", lambda: tucson.read(FEW[:-1], strict=True), "Line 2 has no line end"),
    (
        11,
        "decade",
        text(b"1998", b"1999"),
        "Line 1 starts in 1999 and has 2 fields, but its decade ends in 1999: at most 1",
    ),
    (11, "closing", text(b"     9\n", b" -9999\n"), "Line 1 has the closing -9999 for 1999"),
    (11, "width", text(b"    12", b"100000"), "Line 1 has 100000 for 1998"),
    (12, "next", text(b"2000", b"2010"), "Line 2 starts in 2010, but the next year of series 'FEW     ' is 2000"),
    (12, "decade", lambda: tucson.read(ONE_BY_ONE, strict=True), "Line 2 starts in 1998: a later line of a series"),
    (13, "closing", text(b" -9999", b"     8"), "Line 2 ends series 'FEW     ' with 8"),
    (
        13,
        "hundredths",
        lambda: tucson.read(b"A       1998 10000   999\n", strict=True),
        "closes series .* but 1998 has 10000",
    ),
    (
        11,
        "shown",
        file(FEW.replace(b"    12", b"   12")),
        "Line 1 has 23 columns: .* shown as 'FEW     1998   12     9'",
    ),
    (11, "tabs", file(b"FEW\t1998\t12\t9\n"), "With each tab up to a multiple of eight columns it is shown as 'FEW "),
    (11, "words", file(b"The roof\n" + FEW), "Line 1 is shown as 'The roof', which is neither a line of widths nor"),
    (11, "words", file(b"The town hall's roof\n" + FEW), "Line 1 is shown as 'The town hall's roof', which is neither"),
    (11, "inner", file(FEW.replace(b"     9", b"  -999")), "Line 1 has -999 for 1999, as a closing, but"),
    (12, "gap", file(FEW.replace(b"2000", b"2010")), "is 2000: it has no widths for 2000 to 2009"),
    (
        12,
        "closed",
        file(FEW.replace(b"2000", b"2010").replace(b"     9", b"   999")),
        "behind 999 at the end of line 1",
    ),
    (
        12,
        "zero",
        file(b"A         -1     7\nA          1     7 -9999\n"),
        "Line 2 starts in 1, right behind the year -1",
    ),
    (
        13,
        "following",
        file(FEW.replace(b"FEW     2", b"FEN     2")),
        "and line 2 goes on .* under another name, 'FEN     '",
    ),
    (13, "following", text(b"FEW     2", b"FEN     2"), "and line 2 goes on with its next year, 2000"),
    (21, "utf-16", file(b"\xff\xfeF\0"), "starts with the bytes FF FE"),
    (21, "zero", file(FEW + b"\0"), "Line 3 holds a zero byte, in column 1"),
    (21, "mark", file(FEW + b"\xef\xbb\xbf" + FEW), "Line 3 holds a byte order mark"),
    (21, "carriage", file(FEW.replace(b"\n", b"\r")), "Line 1 holds a carriage return .byte 13., in column 25"),
    (21, "end", file(FEW + b"\x1a" + FEW), "Line 3 holds Ctrl-Z .* but 'FEW     1998    12     9' follows"),
    (
        22,
        "columns",
        file(b"\xc5" + FEW.replace(b"    12", b"   1.2")),
        "byte 197 .C5. in column 1, .* neither with one",
    ),
    (
        22,
        "two",
        file("\U0001d538\U0001d5391703  1415  1339 -9999\n".encode()),
        "byte 240 .F0. in column 1, .* both with one",
    ),
    (22, "tab", file(b"\xc5\t1998    12 -9999\n"), "byte 197 .C5. in column 1, .* and a tab"),
    (22, "same", file(b"A\xc5      1998    12\nA\xc4      2000     7 -9999\n"), "'A.xc5      ' and 'A.xc4      '"),
    (
        22,
        "same",
        file(b"A\xc5      1998    12\nA?      2000     7 -9999\n"),
        "'A.xc5      ' and 'A.      ': byte 197 .C5. in",
    ),
    (23, "minus", file(b"ABC01  -1012    12 -9999\n"), "'ABC01  -1012' in columns 1 to 12: the minus in column 8"),
    (23, "digits", file(b"ABC01  11012    12 -9999\n"), "the name's last digit, in column 8, runs into the year 1012"),
    (23, "shifted", file(b"FJ -725 1483 -9999\n"), "the name 'FJ -725 ' and the year 1483: .* shifted"),
    (24, "unknown", file(FEW.replace(b"-9999", b" -999")), "Line 2 closes series 'FEW     ' with -999"),
    (24, "other", file(FEW, unit="hundredths"), "with -9999, for thousandths, but hundredths are said"),
    (
        25,
        "inner",
        file(b"A       1998   999    12   999\n"),
        "Line 1 has 999 for 1998 in series 'A       ', before its end",
    ),
    (26, "range", file(FEW, header=100), "A header of 100 lines is named: a header has 0 to 99"),
    (26, "lines", file(FEW, header=3), "A header of 3 lines is named, but the file has 2 lines"),
    (26, "strict", file(FEW, header=1), "Line 1 is within the header of 1 line that is named"),
    (11, "series-name", written(("  ", 1998, [1])), "Series 0, '        ': a name is printable ASCII"),
    (
        11,
        "series-same",
        written(("A", 1998, [1]), ("A", 2000, [1])),
        "Series 1, 'A       ', has the name of the series before",
    ),
    (
        11,
        "series-year",
        written(("A", 10_000, [1])),
        "Series 0, 'A       ', from 10000 to 10000, with its closing in 10001",
    ),
    (
        11,
        "series-year",
        written(("A", 9_999, [1])),
        "from 9999 to 9999, with its closing in 10000: a line's year is from -999",
    ),
    (11, "series-width", written(("A", 1998, [1, 100_000])), "Series 0, 'A       ', has 100000 for 1999"),
    (14, "width", lambda: line().indices([1, 100_000], 0), "Width 1 of the series, ring 1, is 100000"),
    (
        14,
        "value",
        lambda: Curve(Space([0, 2], [1], []), [9, -9]).indices([0, 7], 1),
        "the curve of the whole ring is at -0.009 mm",
    ),
    (16, "width", lambda: line().reach(3001), "No position from ring 0 to ring 2 reaches 3.001 mm in the whole ring"),
    (17, "none", lambda: line().piece(1), "There is no stretch 1: the curve has 1 stretch"),
    (
        17,
        "degree",
        lambda: Curve(Space([0, 2], [4], []), [1] * 5).piece(0),
        "Stretch 0, from ring 0 to ring 2, has degree 4",
    ),
    (
        18,
        "count",
        lambda: recover(Space([0, 2], [1], []), [1]),
        "The list has 1 ordinate, but these stretches take 2 ordinates",
    ),
    (18, "range", lambda: recover(Space([0, 2], [1], []), [0, 10**9]), "Ordinate 1 is 1000000000"),
    (
        19,
        "condition",
        lambda: recover(Space([0, 1, 2], [1, 1], [0]), [0, 0, 256, 0]),
        "the values on its two sides differ by 1 thousandths",
    ),
    (20, "fraction", lambda: recover(Space([0, 1, 512], [2, 2], [1]), [2**22] * 6), "Join 0, at ring 1: working out"),
]


@pytest.mark.parametrize(
    ("number", "case", "call", "words"), CASES, ids=[f"{number}-{case}" for number, case, *_ in CASES]
)
def test_case(number: int, case: str, call: Callable[[], object], words: str) -> None:
    with pytest.raises(Refused) as caught:
        call()
    refusal = caught.value
    assert refusal.number == number
    assert re.search(words, refusal.words), refusal.words
    assert refusal.words.endswith(".") and refusal.remedy.endswith(".")
    assert str(refusal) == f"no={number},{refusal.place}: {refusal.words}"


def test_every_case_of_the_table_is_met(monkeypatch: pytest.MonkeyPatch) -> None:
    said: set[tuple[int, str]] = set()
    plain = Words.told

    def noted(row: Words, facts: Mapping[str, object]) -> str:
        said.add((row.number, row.case))
        return plain(row, facts)

    monkeypatch.setattr(Words, "told", noted)
    for number, case, call, _ in CASES:
        said.discard((number, case))
        with pytest.raises(Refused):
            call()
        assert (number, case) in said
    for path in ROOT.glob("examples/refusals/*.rwl"):
        explain.explain_tucson(path.read_bytes())
    notes.sentences([notes.Note(number, 1) for number in range(1, 15)])
    assert set(table()) - said == NEVER


def examples() -> list[Path]:
    return sorted([*ROOT.glob("examples/*/*.sheet"), *ROOT.glob("examples/*/*.rwl")])


@pytest.mark.parametrize("path", examples(), ids=lambda path: path.name)
def test_examples_are_explained(path: Path) -> None:
    made = explain.explain_tucson if path.suffix == ".rwl" else explain.explain_sheet
    said = explain.with_promises(made(path.read_bytes()), path.read_bytes())
    assert said.words + "\n" == path.with_suffix(".explained").read_text(encoding="ascii")
    assert said.is_accepted != path.name.startswith("refused")


def test_a_number_without_words_keeps_number_and_place() -> None:
    assert str(Refused.without_words(99, 7)).startswith("no=99,7: There are no words")
    assert sheet.refused(GOOD, 99, 7).number == 99


def test_the_table_has_whole_sentences() -> None:
    for (number, case), row in table().items():
        if row.counts == "fragment":
            assert not row.remedy, (number, case)
        else:
            assert row.words.endswith(".") and row.remedy.endswith("."), (number, case)
