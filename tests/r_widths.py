#!/usr/bin/env python3
"""Files of widths with what Python makes of them, a file a line: Tucson files as laboratories have them, Heidelberg files and tables, in
r/tests/testthat/widths/files.txt, to which R's tests hold R. Refused files have place, words and remedy in R's arguments; others the
strict text of their series, and the notes.

    PYTHONPATH=python/src /usr/bin/python3 tests/r_widths.py            says whether the file is in step; status 1 if not
    PYTHONPATH=python/src /usr/bin/python3 tests/r_widths.py --write    makes it again

Python's package and the built libraries are needed.
"""
import random
import re
import sys
from pathlib import Path

from walzhik import notes, tucson, widths
from walzhik.errors import Refused
from walzhik.tucson import Series
from walzhik.widths import Asked

sys.path.insert(0, str(Path(__file__).resolve().parent))
from damage import damaged  # noqa: E402
from r_made import ARGUMENTS as OF_WORDS  # noqa: E402
from r_made import in_step  # noqa: E402

ROOT = Path(__file__).resolve().parent.parent
KEPT = ROOT / "r" / "tests" / "testthat" / "widths" / "files.txt"
SEED, DAMAGED = 53, 500
DIALECTS = 400  # random files of laboratories
PUT_IN = b'0123456789 ,;.-x\n\r\t\xff"='
# The options of the command, and what R has for them.
ARGUMENTS = {
    "--year-zero yes": "year_zero = TRUE",
    "--year-zero no": "year_zero = FALSE",
    "--first YEAR": "first = YEAR",
    "--first": "first",
    "--unit": "unit",
    "--rename": "rename = TRUE",
    "--round": "round = TRUE",
}
FEW = b"FEW     1998    12     9\nFEW     2000     7 -9999\n"
FULL = b"ABC01A  1890" + b"   812" * 10
HEADER = b"ABC 01 1 Somewhere in the Alps\nABC 01 2 Austria  Norway spruce\nABC 01 3 Somebody\n"
# Laboratories' files: each dialect, each damage; what is asked stands behind the text.
LABORATORIES = [
    (FEW, {}), (b"", {}), (b"\n \n", {}), (b"\x1a", {}), (HEADER, {}), (FEW.replace(b"\n", b"\r\n"), {}), (FEW.replace(b"\n", b"  \n\n"), {}), (FEW[:-1], {}), (FEW + b"\x1a\r\n", {}),
    (FEW + b"\x1aX\n", {}), (FEW + b"X\x1a \n\nY\n", {}), (b"\xef\xbb\xbf" + FEW, {}), (FEW + b"\xef\xbb\xbf" + FEW, {}), (b"\xff\xfeF\0", {}), (b"\xfe\xff\0F", {}), (FEW.replace(b"9\n", b"9\0\n"), {}),
    (FEW.replace(b"9\n", b"9\r"), {}), (FEW.replace(b"9\n", b"9\r\r\n"), {}), (FEW.replace(b"\n", b"\r"), {}),
    (b"OAK01\t1895   812\t   655 -9999\n", {}), (b"OAK     1895    81    79    65   999\nOAK     1910   820   700 -9999\n", {}),
    (b"OAK 01 1 850    12    13    14   999 A\nOAK 01 2 850    12    13    14   999 A\nOAK 01 3 850    12    13    14   999 A\n", {}), (b"OAK01A\t12\t1920\t128\t130\t-9999\n", {}),
    (b"ABC01  11895   812 -9999\n", {}), (b"ABC012-11895   812 -9999\n", {}), (b"ABC012 -1895   812 -9999\n", {}), (b"ABC01  \xe2\x88\x921012   812 -9999\n", {}), (b"ABC01  -1012   812 -9999\n", {}),
    (b"FJ -725 1483 -9999\n", {}), (b" OAK    1895   812 -9999\n", {}), (b"OAK   121895   812 -9999\n", {}), (b"OAK     1895    81    79    65    90   999\nOAK     1900   812   702 -9999\n", {}),
    (b"OAK     1890   700   701     0     0   999\n", {}), (b"OAK     1890 -9999\n", {}), (FEW + b"OAK     1895    81   999\n" + FEW.replace(b"FEW", b"ASH"), {}), (FULL + b" CO523\nABC01A  1900   700 -9999\n", {}),
    (FULL + b"   709\nABC01A  1900   700 -9999\n", {}), (FULL + b" BC\nABC01A  1900   700 -9999\n", {}), (FULL + b"    abcd123x  \nABC01A  1900   700 -9999\n", {}), (HEADER + FEW, {}),
    (HEADER.replace(b"Alps", b"\xc4lps") + FEW, {}), (HEADER + FEW, {"header": 0}), (HEADER + FEW, {"header": 3}), (HEADER + FEW, {"header": 2}), (HEADER + FEW, {"header": 4}), (HEADER + FEW, {"header": 99}),
    (HEADER + FEW, {"header": 100}), (HEADER + FEW, {"header": -1}), (b"# a header\n\n" + FEW, {}), (b"# a header\n\n" + FEW, {"header": 2}), (b"", {"header": 0}), (b"", {"header": 1}),
    (FEW.replace(b"-9999", b" -999"), {}), (FEW.replace(b"-9999", b" -999"), {"unit": "hundredths"}), (FEW.replace(b"-9999", b" -999"), {"unit": "thousandths"}), (FEW, {"unit": "hundredths"}),
    (FEW.replace(b"-9999", b"  999"), {"unit": "thousandths"}), (FEW.replace(b"-9999", b"  999"), {"unit": "hundredths"}), (b"OAK     1895    81   999    65   999\n", {}), (b"OAK     1895    81   999    65 -9999\n", {}),
    (FEW.replace(b"FEW", b"F\xf6W"), {}), (FEW.replace(b"FEW ", "FöW ".encode()), {}), (FEW.replace(b"FEW  ", "FöW ".encode()), {}), (FEW.replace(b"FEW", b"F\xf6W", 1), {}), (FEW.replace(b"FEW", b"F\xf6W", 1).replace(b"FEW", b"F?W"), {}),
    (b"F\xc3\xb6    1998    12     9 -9999\n", {}), (b"F\xc3\xb6W   1998    12     9     8     7 -9999\n", {}), (b"F\xf6W\t1998    12 -9999\n", {}), (b"FEW     1998  \xf612 -9999\n", {}), (b"FEW     19\xf68    12 -9999\n", {}),
    (FEW.replace(b"2000", b"2010"), {}), (FEW.replace(b"2000", b"2001"), {}), (FEW.replace(b"2000", b"1990"), {}), (b"A         -1     5\nA          1     6 -9999\n", {}), (b"A         -2     5\nA         -1     6 -9999\n", {}),
    (b"FEW     1998    12\nFEW     1999     7 -9999\n", {}), (b"FEW     1998    12     9\n", {}), (b"FEW     1998    12     9\nFEX     2000     7 -9999\n", {}), (b"FEW     1998    12     9\nFEX     2001     7 -9999\n", {}),
    (b"FEW     1998 12345   999\n", {}), (b"FEW     1998    12     9     8 -9999\n", {}), (b"FEW     1998    12 -9999\nFEW     2000     7 -9999\n", {}), (b"FEW     1998    -5 -9999\n", {}), (b"FEW     1998   1x2 -9999\n", {}),
    (b"FEW     1x98    12 -9999\n", {}), (b"        1998    12 -9999\n", {}), (b"FEW     1998\n", {}), (b"F\x01W     1998    12 -9999\n", {}), (b"FEW     1998    12 -9999 a remark\n", {}), (b"FEW     1998    12 -9999\tx\n", {}),
    (b"FEW     1998    12 -9999\t\r\n", {}), (FEW.replace(b"        ", b"\t"), {}), (b"FEW\t1998    12 -9999\n", {}), (b"FEW \t1998    12     9 -9999\n", {}), (b"x" * 100 + b"\n", {}),
]
GOOD = b"HEADER:\nKeyCode=OAK1\nDateBegin=1998\nDateEnd=2000\nLength=3\nUnit=1/100 mm\nDATA:Tree\n   123   119   101\n"
UNDATED = GOOD.replace(b"DateBegin=1998\nDateEnd=2000\n", b"")
ACROSS = GOOD.replace(b"=1998", b"=-1").replace(b"DateEnd=2000", b"DateEnd=2")
BEFORE = GOOD.replace(b"=1998", b"=-50").replace(b"DateEnd=2000", b"DateEnd=-48")
TEN = b"HEADER:\nKeyCode=TEN\nDateBegin=1990\nLength=12\nUnit=mm\nDATA:Single\n"
# One part of the good file for another.
CHANGED = [
    (b"Unit=1/100 mm\n", b""), (b"Unit=1/100 mm", b"Unit=inch"), (b"Unit=1/100 mm", b"unit = 1/1000MM"), (b"Unit=1/100 mm", b"Unit=\xf6"),
    (b"Length=3", b"Length=4\nx=1"), (b"DateEnd=2000\nLength=3", b"Length=4"), (b"DateEnd=2000\nLength=3", b"Length=2"),
    (b"DateEnd=2000", b"DateEnd=2001"), (b"DateEnd=2000", b"DateEnd=\xf6"), (b"Tree", b"Double"), (b"Tree", b"Quadro"), (b"Tree", b"Chrono"),
    (b"Tree", b"HalfChrono"), (b"Tree", b"\xe9"), (b"Tree", b" single "), (b"OAK1", b"OAK123456"), (b"OAK1", b"OAK 1 2 3 4"), (b"OAK1", b"A\x01"),
    (b"OAK1", b"H\xf6he"), (b"OAK1", "Höhe 1".encode()), (b"OAK1", b"H\xc3\xb6\xff"), (b"KeyCode=OAK1\n", b""), (b"KeyCode=OAK1", b"KeyCode="),
    (b"   119", b"  -119"), (b"   119", b"      "), (b"   119", b"   1x9"), (b"   119", b"119   "), (b"   119", b"  1.19"), (b"   119", b"  \xf69 "),
    (b"   119", b"  1..9"), (b"   101", b"   101     0     0"), (b"   101", b"   101     0     7"), (b"   101", b"   101  "), (b"   101", b"    10\t"),
    (b"DateBegin=1998\n", b""), (b"DateEnd=2000\nLength=3\n", b""), (b"Length=3", b"Length=3\nLength=3"), (b"HEADER:\n", b""), (b"DATA:Tree\n", b""),
    (b"DateBegin=1998\nDateEnd=2000\nLength=3", b"DateBegin=1998\nLength=0"), (b"DateBegin=1998\nDateEnd=2000", b"DateBegin=-1\nDateEnd=2"),
    (b"DateBegin=1998\nDateEnd=2000", b"DateBegin=1e3"), (b"DATA:Tree\n   123   119   101\n", b""), (b"Length=3\n", b"Length=3\nSpecies=QUSP\nSpecies=X\n\xe4=1\n"),
    (b"DATA:Tree", b"data:TREE"), (b"HEADER:", b"Header:"), (b"\n", b"\r\n"), (b"\n", b"  \n\n"), (b"1998\n", b"1998\r"), (b"\n   123", b"\r\r\n   123"),
    (b"DATA:Tree\n   123   119   101\n", b"DATA:Tree\n123\n119\n101\n0\n"), (b"   123   119   101\n", b"   123   119   101\nDATA:Tree\n"),
    (b"   123   119   101\n", b"   123   119\n   101\n"), (b"HEADER:", b"\xef\xbb\xbfHEADER:"), (b"OAK1", b"\xef\xbb\xbf"), (b"   101\n", b"   101\n\x1a\n"),
    (b"   101\n", b"   101\n\x1aA\n"), (b"   101\n", b"   101"), (b"   119", b"99999.9"), (b"   119", b"999999"), (b"Unit=1/100 mm", b"Unit=mm"), (b"Length=3", b"Length=-3"),
    (b"DateBegin=1998\nDateEnd=2000", b"DateBegin=12345"), (b"DateBegin=1998\nDateEnd=2000", b"DateBegin=-0"), (b"DateBegin=1998", b"DateBegin=001998"),
]
TABLES = [
    b"", b",,\n,,\n", b"\r,\n", b"year\n1998\n", b"1998,1\n1999,2\n", b"year,A\n", b"year,A,\n1998,1,\n", b"year,A,B\n1998,1,\n1999,1,\n", b"\n \nyear,A\n\n1998,1\n,\n1999,2\n",
    b"year,A\n1998,1\n1999,\n2000,1\n", b"year,A\n1998,1\n2000,1\n", b"year,A\n1998,1\n1998,1\n", b"year,A\n1999,1\n1998,1\n", b"year,A,B\n1998,1\n",
    b"year,A\n1998,1,2\n", b"year,A\n1998,1.2345\n", b"year,A\n1998,-1\n", b"year,A\n1998,NA\n", b"year,A\n1998,1e3\n", b"year;A\n1998;1,5\n1999;1.500\n", b"year;A\n1998;1.234,5\n",
    b"year;A;B\n1998;1,5;\n1999;0;2,25\n", b"year\tA\tB\n1998\t1.5\t\n1999\t0\t2.25\n", b"year,A\nMCM,1\n", b"year,A,A\n1998,1,1\n", b"year,NINELONGS\n1998,1\n", b'year,"A\n1998,1\n',
    b'year,A\n1998,"1\n', b'year,A\n1998,"1"x\n', b'"year","A ""1""","B,C"\n"1998","1.5","2"\n', b'year,A"B\n1998,1\n', b'year,"A\nB"\n1998,1\n', b'year,A\n1998,"1\n"\n', b"year,A\n1998,1\n\0",
    b"\xff\xfey\0", b"\xef\xbb\xbfyear,A\n1998,1\n", b"year,A\r\n1998,1\r\n1999,2\r\n", b"year,A\r1998,1\r1999,2\r", "Jahr;Höhe\n1998;1,5\n".encode(), b"Jahr;H\xf6he\n1998;1,5\n", b"Jahr,A\n1998,1\x1a\n",
    b"year, A ,B\n 1998 , 1.5,2\t\n", b"year,A\n1998,100\n", b"year,A\n12345,1\n", b"year,A\n1998,4294968.5\n", b"year,A\n1998,1234567890\n", b"year,A\n1998,.5\n", b"year,A\n1998,5.\n", b"year,A;B\n1998,1\n", b"a,b;c\n",
    b'"year" ;A\n1998;1\n', b"year,A\n-1,1\n1,1\n", b"year,A\n-1,1\n0,2\n1,3\n", b"year,A\n1234567890,1\n", b"year,A\n1998," + b"9" * 60 + b"\n", b'year,A\n"1998,1\n1999,2\n', b"year,\xc2\xa0\n1998,1\n",
]
OPTIONS = [
    (UNDATED, "fh", Asked()), (UNDATED, "fh", Asked(first=1850)), (ACROSS, "fh", Asked(year_zero="no")), (ACROSS, "fh", Asked(year_zero="yes")), (BEFORE, "fh", Asked()),
    (BEFORE, "fh", Asked(year_zero="no")), (BEFORE, "fh", Asked(year_zero="yes")), (ACROSS.replace(b"Length=3\n", b""), "fh", Asked()),
    (ACROSS.replace(b"Length=3\n", b""), "fh", Asked(year_zero="no")), (ACROSS.replace(b"=2\n", b"=0\n"), "fh", Asked(year_zero="no")), (ACROSS.replace(b"=-1\n", b"=0\n"), "fh", Asked(year_zero="no")),
    (ACROSS.replace(b"Length=3", b"Length=4"), "fh", Asked(year_zero="no")), (GOOD.replace(b"Unit=1/100 mm\n", b""), "fh", Asked(unit="thousandths")), (GOOD, "fh", Asked(unit="mm")), (GOOD, "fh", Asked(unit="hundredths")),
    (GOOD + GOOD, "fh", Asked()), (GOOD + GOOD + GOOD.replace(b"OAK1", b"OAK1-CORE-A"), "fh", Asked(rename=True)), (GOOD.replace(b"   119", b"  1.19"), "fh", Asked(rounds=True)),
    (TEN + b"1.2345\n" * 12, "fh", Asked(rounds=True)), (TEN + b"1.2\n" * 11, "fh", Asked()), (b"", "fh", Asked()), (b"\n\n", "fh", Asked()),
    (b"year,A\n-1,1\n1,1\n", "csv", Asked(year_zero="no")), (b"year,A\n0,1\n1,1\n", "csv", Asked(year_zero="no")), (b"year,A\n-1,1\n0,1\n", "csv", Asked(year_zero="yes")),
    (b"year,A\n1998,123\n", "csv", Asked(unit="hundredths")), (b"year,A\n1998,123\n", "csv", Asked(unit="thousandths")), (b"year,A\n1998,12.3\n", "csv", Asked(unit="tenths")),
    (b"year,A\n1998,12.3\n", "csv", Asked(unit="thousandths")), (b"year,A\n1998,1.2345\n1999,1.2344\n", "csv", Asked(rounds=True)), (b"year,A\n1998,0.9995\n", "csv", Asked(rounds=True)),
    (b"year,A,A,A1\n1998,1,2,3\n", "csv", Asked(rename=True)), (b"year,ABCDEFGHI,ABCDEFGHJ\n1998,1,2\n", "csv", Asked(rename=True)),
]


def random_series(draw):
    found, about = {}, draw.choice([-12, 1, 990, 1890])
    for _ in range(draw.randint(1, 3)):
        name = "".join(draw.choice("ABc0 -.,;=\"'") for _ in range(draw.randint(1, 8))).strip() or "A"
        found[name] = Series(name, about + draw.randint(0, 9), [draw.choice([0, draw.randint(1, 99_999)]) for _ in range(draw.choice([1, 2, 9, 10, 11]))])
    return list(found.values())


def laboratory(draw):
    """A strict text in one dialect or more, and perhaps damaged."""
    series = {each.name: each for each in random_series(draw)}
    text = tucson.write(list(series.values()))
    if draw.random() < 0.3:
        text = text.replace(b"-9999", draw.choice([b"  999", b" -999"]))
    for old, new in ((b"\n", b"\r\n"), (b"\n", b" \n"), (b"        ", b"\t"), (b"\n", b"\n\n")):
        if draw.random() < 0.25:
            text = text.replace(old, new)
    if draw.random() < 0.2:
        text = HEADER + text
    if draw.random() < 0.1:
        text = text[:-1]
    if draw.random() < 0.1:
        text = text.replace(b"A", draw.choice([b"\xc3\xa4", b"\xe4"]))
    asked = {name: value for name, value in {"unit": draw.choice(["hundredths", "thousandths"]), "header": draw.choice([0, 1, 3])}.items() if draw.random() < 0.15}
    return (damaged(draw, text, PUT_IN)[0] if draw.random() < 0.6 else text), asked


def files():
    """Texts with their form and what is asked."""
    yield from ((text, "rwl", asked) for text, asked in LABORATORIES)
    lots = random.Random(f"{SEED} laboratories")
    for _ in range(DIALECTS):
        text, asked = laboratory(lots)
        yield text, "rwl", asked
    yield from ((GOOD.replace(*each), "fh", Asked()) for each in CHANGED)
    yield from ((text, "csv", Asked()) for text in TABLES)
    yield from OPTIONS
    draw = random.Random(SEED)
    for number in range(DAMAGED):
        form = "fh" if number % 2 else "csv"
        series = random_series(draw)
        text = widths.text_of(series, form, "\t" if number % 4 == 0 and not any(";" in each.name for each in series) else ",")
        yield (text if number % 5 == 0 else damaged(draw, text, PUT_IN)[0]), form, Asked()


def in_r(sentence):
    for option, argument in {**OF_WORDS, **ARGUMENTS}.items():
        sentence = sentence.replace(option, argument)
    if re.search(r"(^|[ (])--[a-z]{2}", sentence):
        raise SystemExit(f"words that R has none for: {sentence}")
    return sentence


def asked_words(asked):
    said = asked if isinstance(asked, dict) else {"first": asked.first, "year_zero": asked.year_zero, "unit": asked.unit, "rename": asked.rename or None, "round": asked.rounds or None}
    return [f"{name}={value}" for name, value in said.items() if value is not None]


def outcome(text, form, asked):
    """What Python makes of a text, in words of the form name=entries; texts are in hexadecimal digits."""
    try:
        if form == "rwl":
            made = tucson.clean(text, **asked)
            told = notes.sentences(made.notes)
        else:
            made = widths.read(text, form, asked)
            told = made.changes
    except widths.Unreadable as error:
        return [f"line={error.line}", f"words={in_r(error.words).encode().hex()}", f"remedy={in_r(error.remedy).encode().hex()}"]
    except Refused as error:
        return [f"reply={error.number},{error.place}", f"words={in_r(error.words).encode().hex()}", f"remedy={in_r(error.remedy).encode().hex()}"]
    listed = "".join(f"{each}\n" for each in told)
    return [f"made={made.text.hex()}", f"notes={in_r(listed).encode().hex()}"]


def text():
    lines = [" ".join([f"form={form}", f"text={given.hex()}", *asked_words(asked), *outcome(given, form, asked)]) for given, form, asked in files()]
    return "".join(f"{line}\n" for line in lines)


if __name__ == "__main__":
    sys.exit(in_step(KEPT, text(), Path(__file__).name))
