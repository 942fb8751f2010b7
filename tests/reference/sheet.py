"""The sheet program's text, by § 13 and § 13, § 8.

`sheet` takes everything on standard input and gives everything printed. Each
coefficient is a pair earlywood:latewood, and so is each position's value. The
low lines come by rising position, a repeated one as often as it was listed.
"""

import re

from calls import curve_outcome
from limits import (CELLS, MOST_DIGITS, MOST_LIST_ENTRIES, MOST_POSITIONS,
                    MOST_SHEET_BYTES, PARTS)
from space import BAD_TEXT, Refusal

LINE_END = b"\n"
NUMBER = b"(?:0|-?[1-9][0-9]{0,%d})" % (MOST_DIGITS - 1)
PAIR = b"%b:%b" % (NUMBER, NUMBER)
LINES = ((b"breaks", NUMBER), (b"degrees", NUMBER), (b"orders", NUMBER), (b"coefs", PAIR),
         (b"at", NUMBER))
SEPARATOR = re.compile(b"[,:]")


def read_list(text, entry, line_number):
    """The numbers of one line after its equals sign, those of a pair side by side."""
    if not text:
        return []
    if not re.fullmatch(b"%b(?:,%b)*" % (entry, entry), text):
        raise Refusal(BAD_TEXT, line_number)
    if len(text.split(b",")) > MOST_LIST_ENTRIES:
        raise Refusal(BAD_TEXT, line_number)
    return [int(number) for number in SEPARATOR.split(text)]


def read_sheet(data):
    """The five lists in order, or number 10."""
    if len(data) > MOST_SHEET_BYTES:
        raise Refusal(BAD_TEXT, 0)
    lists = []
    rest = data
    for line_number, (name, entry) in enumerate(LINES, start=1):
        line, end, rest = rest.partition(LINE_END)
        head = name + b"="
        if not end or not line.startswith(head):
            raise Refusal(BAD_TEXT, line_number)
        lists.append(read_list(line[len(head):], entry, line_number))
    if rest:
        raise Refusal(BAD_TEXT, len(LINES) + 1)
    return lists


def weight_lines(rows):
    return [f"w={place},{column},{weight.numerator}/{weight.denominator}"
            for place, row in enumerate(rows) for column, weight in row.items()]


def value_lines(positions, values):
    lines = [f"v={position},{pair.earlywood}:{pair.latewood}"
             for position, pair in zip(positions, values)]
    low = sorted(position for position, pair in zip(positions, values) if min(pair) <= 0)
    return lines + [f"low={position}" for position in low]


def refusal_lines(number, place):
    return [f"no={number},{place}"]


def sheet_lines(data):
    try:
        lists = read_sheet(data)
    except Refusal as refusal:
        return refusal_lines(refusal.number, refusal.place)
    outcome = curve_outcome(*lists, CELLS, CELLS, PARTS * MOST_POSITIONS)
    if outcome.reply.number:
        return refusal_lines(outcome.reply.number, outcome.reply.place)
    positions = lists[-1]
    return ([f"n={len(outcome.rows)}"] + weight_lines(outcome.rows)
            + value_lines(positions, outcome.values))


def sheet(data):
    """All bytes the program prints for the bytes it reads."""
    return "".join(line + "\n" for line in sheet_lines(data)).encode("ascii")
