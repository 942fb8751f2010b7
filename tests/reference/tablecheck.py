"""Checks the model of the table and of the program rings against what § 17 and § 18 state.

Lines and inputs with what must come of them, then random ones: Python's reader
of tables finds in the lines what was given, refusals keep every lent cell, each
series of an input is told as if it stood there alone, and equal pairs give the
same bytes for both woods.
"""

import csv
import re
from decimal import Decimal
from fractions import Fraction
from itertools import groupby
from math import floor
from random import Random

from indices import WOOD_PARTS
from limits import NAME_COLUMNS, PARTS
from random_table import random_input, random_lines
from table import FRONT_LINES, TABLE_HEAD, ring_line, ring_lines, rings
from tucson import is_name, split_lines

LINES = {
    (b"OAK01   ", 1900, 1204, 256000, 1204): b"OAK01,1900,1.204,1.000000,1204\n",
    (b" A,\"B\"  ", -1, 0, -1, -1): b"\"A,\"\"B\"\"\",-1,0.000,-0.000004,\n",
    (b"=1+1    ", 2 ** 31, -5, 16, 0): b"=1+1,2147483648,-0.005,0.000063,0\n",
    (b"       \"", 0, -1000, -16, -2): b"\"\"\"\",0,-1.000,-0.000062,-2\n",
    (b"A B C   ", -999, 99999, 256 * 10 ** 6, 2 ** 63 - 1): b"A B C,-999,99.999,1000.000000,9223372036854775807\n",
    (b"A       ", 7, -2 ** 31, -2 ** 31, -2 ** 63): b"A,7,-2147483.648,-8388.608000,-9223372036854775808\n",
}
FRONT = b"wood=earlywood\nbreaks=0,3,5\ndegrees=1,1\norders=-1\ncoefs=100:0,100:0,1:100,-1:100\nat=9999999,-9999999\n"
PAIR = re.compile(rb"(-?[0-9]+):-?[0-9]+")
OAK, ELM, ASH = b"OAK,    ", b"ELM     ", b"ASH     "
FIRST, THIRD = OAK + b"   0    10     0     5   999\n", ASH + b"   3    50 -9999\n"
FIRST_LINES = b"\"OAK,\",0,0.100,0.100000,1000\n\"OAK,\",1,0.000,0.100000,\n\"OAK,\",2,0.050,0.100000,500\n"
THIRD_LINES = b"ASH,3,0.050,0.100000,500\n"
SECOND = {ELM + b"   4     0     7   999\n": b"ELM,5,,,no=14\n", ELM + b"   5     0     0   999\n": b"ELM,6,,,no=7\n",
          ELM + b"  -2     0   999\n": b"ELM,-2,,,no=7\n", ELM + b"2000   999\n": b""}
REFUSED = {
    b"": (10, 1), b"wood=earlywood": (10, 1), b"wood=Latewood\n" + FRONT: (10, 1), b"wood=latewood\n": (10, 2),
    b"wood=latewood\n" + FRONT: (10, 2), FRONT[:-1]: (10, 6), FRONT.replace(b"-1\n", b"--1\n", 1): (10, 4),
    FRONT.replace(b"at=", b"at=x"): (10, 6), b"wood=latewood\n" + b"x" * 65_537: (10, 0),
    b"wood=latewood\n" + b"x" * 65_536: (10, 2), FRONT + b"\n": (11, 7), FRONT + FIRST + b"x": (11, 8),
    FRONT + FIRST.replace(b"999", b"998"): (13, 7), FRONT.replace(b"0,3,5", b"0,3") + b"x\n": (11, 7),
    FRONT + OAK + b"   9     7\n" + OAK + b"  20   999\n": (12, 8),
    FRONT.replace(b"0,3,5", b"0,3"): (2, 0), FRONT.replace(b"0,3,5", b"0,3,2004") + FIRST: (3, 2),
    FRONT.replace(b"0,3,5", b"0,3,3"): (3, 2), FRONT.replace(b"=1,1", b"=1,6"): (4, 1),
    FRONT.replace(b"=-1", b"=1"): (5, 0), FRONT.replace(b",-1:100", b""): (6, 2 ** 32 - 1),
    FRONT.replace(b"100:0,", b"100:1000001,", 1): (6, 1), FRONT.ljust(1_048_577): (1, 0), FRONT.ljust(1_048_576): (11, 7),
    b" " * 1_048_577: (1, 0),
}


def check_stated(tally):
    for given, line in LINES.items():
        tally.check(ring_line(*given) == line, "table line", given, ring_line(*given))
    for second, line in SECOND.items():
        printed = rings(FRONT + FIRST + second + THIRD)
        tally.check(printed == TABLE_HEAD + FIRST_LINES + line + THIRD_LINES, "rings", second, printed)
    for data, (number, place) in REFUSED.items():
        tally.check(rings(data) == b"no=%d,%d\n" % (number, place), "rings", data[:99], number, rings(data)[:60])
    tally.check(rings(FRONT) == TABLE_HEAD, "rings without series")
    long_series(tally)


def long_series(tally):
    """4,096 rings are read, one more is told with its year."""
    coefs = b",".join([b"0:1000"] * 6)
    front = b"wood=latewood\nbreaks=-10,1990,3990,5990\ndegrees=1,1,1\norders=-1,-1\ncoefs=%b\nat=\n" % coefs
    whole = b"".join(b"OAK     %4d%b\n" % (year, b"  1000" * 10) for year in range(0, 4090, 10))
    most = whole + b"OAK     4090" + b"     0" * 6
    printed = rings(front + most + b" -9999\n").splitlines()
    ends = [b"OAK,0,1.000,1.000000,1000", b"OAK,4095,0.000,1.000000,"]
    tally.check(len(printed) == 4097 and printed[1::4095] == ends, "4,096 rings", printed[-1])
    printed = rings(front + most + b"     7 -9999\n" + THIRD)
    tally.check(printed == TABLE_HEAD + b"OAK,4096,,,no=2\nASH,3,0.050,1.000000,50\n", "4,097 rings", printed)


# Random lines, by Python's reader of tables.

def row_of(row):
    name, year, width, curve, index = row
    return name.encode("ascii"), int(year), Decimal(width) * 1000, Decimal(curve) * 10 ** 6, int(index or -1)


def rows_given(wood, name, first, widths, values, indices):
    """What the reader must find."""
    own = values[WOOD_PARTS.index(wood)::PARTS]
    curve = [floor(Fraction(125 * value, 32) + Fraction(1, 2)) for value in own]
    years = range(first, first + len(widths))
    return [(name.strip(b" "), *row) for row in zip(years, widths, curve, indices, strict=True)]


def check_lines(tally, wood, name, first, widths, values, indices):
    lent = bytes(range(256)) * (1 + len(widths))
    reply, out = ring_lines(wood, name, first, widths, values, indices, lent)
    fit = len(name) == NAME_COLUMNS and len(values) == PARTS * len(widths) and len(indices) == len(widths)
    number = 2 if not fit else 0 if is_name(name) else 11
    tally.check(reply.number == number, "ring lines", name, reply)
    if reply.number:
        tally.check(out == lent and reply.count == 0, "ring lines refusal writes", name)
        return
    text, rest = out[:reply.count], out[reply.count:]
    rows = [row_of(row) for row in csv.reader(text.decode("ascii").splitlines())]
    given = rows_given(wood, name, first, widths, values, indices)
    tally.check(rows == given and rest == lent[reply.count:], "rows", name, first)
    short = lent[:reply.count - 1]
    if text:
        refused = ring_lines(wood, name, first, widths, values, indices, short)
        tally.check(refused == ((0, 1, 0), short), "ring lines short", name)


# Random inputs.

def told_alone(front, lines):
    """What is printed of each series of these lines by itself, in order."""
    by_name = [b"".join(own) for _, own in groupby(lines, key=lambda line: line[:NAME_COLUMNS])]
    return b"".join(rings(front + text).removeprefix(TABLE_HEAD) for text in by_name)


def check_input(tally, data):
    """A refusal is one line; else each series is told as if it stood alone, and equal pairs give both woods the same."""
    printed = rings(data)
    if printed.startswith(b"no="):
        tally.check(printed.count(b"\n") == 1 and printed.endswith(b"\n"), "a refusal prints one line", data)
        return
    lines = split_lines(data)
    front, text = lines[:FRONT_LINES], lines[FRONT_LINES:]
    tally.check(printed == TABLE_HEAD + told_alone(b"".join(front), text), "each series alone", data)
    alike = PAIR.sub(rb"\1:\1", b"".join(front[1:])) + b"".join(text)
    early, late = (rings(b"wood=%b\n" % wood + alike) for wood in (b"earlywood", b"latewood"))
    tally.check(early == late, "equal pairs", data)


def check_table(tally, seed, count):
    rng = Random(seed)
    check_stated(tally)
    for _ in range(count):
        check_lines(tally, rng.choice(WOOD_PARTS), *random_lines(rng))
    for _ in range(count // 10):
        check_input(tally, random_input(rng))
