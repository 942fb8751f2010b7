"""The table of indices and the program rings, by § 17 and § 18.

`ring_line` is one line of the table, `ring_lines` the public call with every
lent cell, `rings` everything that the program prints for everything it reads.
The sheet, the Tucson text and the index call are those of the other modules.
"""

from calls import Reply, curve_outcome
from indices import WOOD_PARTS, indices_outcome
from limits import (ABSENT_INDEX, CELLS, CURVE_DECIMALS, MILLIONTHS_OF_VALUE, MOST_POSITIONS, MOST_TUCSON_BYTES,
                    NAME_COLUMNS, PARTS, WIDTH_DECIMALS)
from reading import rounded, side_by_side
from sheet import LINES, read_sheet
from space import BAD_LENGTHS, BAD_TEXT, SHORT_BUFFER, Refusal
from tucson import BAD_LINE, LINE_END, is_name, over, read_tucson

TABLE_HEAD = b"series,year,width_mm,curve_mm,index\n"
WOOD_LINES = {b"wood=%b" % wood.encode(): wood for wood in WOOD_PARTS}
SHEET_LINES = len(LINES)
FRONT_LINES = 1 + SHEET_LINES        # the wood and the sheet
QUOTE, COMMA = b'"', b","


# Lines.

def quoted(name):
    """A name without its outer blanks, in quotation marks where a comma or one of its own asks for them."""
    name = name.strip(b" ")
    if QUOTE not in name and COMMA not in name:
        return name
    return QUOTE + name.replace(QUOTE, 2 * QUOTE) + QUOTE


def with_point(number, decimals):
    """A whole number of units, so many decimals behind the point."""
    digits = b"%0*d" % (decimals + 1, abs(number))
    return (b"-" if number < 0 else b"") + digits[:-decimals] + b"." + digits[-decimals:]


def millionths(value):
    """A value of the curve in millionths of a millimetre."""
    return rounded(value * MILLIONTHS_OF_VALUE.numerator, MILLIONTHS_OF_VALUE.denominator)


def ring_line(name, year, width, value, index):
    words = (quoted(name), b"%d" % year, with_point(width, WIDTH_DECIMALS), with_point(millionths(value), CURVE_DECIMALS),
             b"" if index == ABSENT_INDEX else b"%d" % index)
    return COMMA.join(words) + LINE_END


def all_lines(wood, name, first, widths, values, indices):
    """The lines of all rings; the values of both woods stand side by side."""
    wood_values = values[WOOD_PARTS.index(wood)::PARTS]
    return b"".join(ring_line(name, first + ring, *entry)
                    for ring, entry in enumerate(zip(widths, wood_values, indices, strict=True)))


# The call.

def check_lists(name, widths, values, indices):
    if len(name) != NAME_COLUMNS or len(indices) != len(widths) or len(values) != PARTS * len(widths):
        raise Refusal(BAD_LENGTHS, 0)
    if not is_name(name):
        raise Refusal(BAD_LINE, 0)


def ring_lines(wood, name, first, widths, values, indices, out):
    """The reply and the buffer after a call."""
    try:
        check_lists(name, widths, values, indices)
        text = all_lines(wood, name, first, widths, values, indices)
        if len(out) < len(text):
            raise Refusal(SHORT_BUFFER, 0)
    except Refusal as refusal:
        return Reply(0, refusal.number, refusal.place), out
    return Reply(len(text), 0, 0), over(text, out)


# The program.

def wood_of(data):
    """The wood that the first line names, and what stands behind it."""
    line, end, rest = data.partition(LINE_END)
    if not end or line not in WOOD_LINES:
        raise Refusal(BAD_TEXT, 1)
    return WOOD_LINES[line], rest


def sheet_of(rest):
    """The lists of the sheet in the next five lines, and what stands behind them."""
    parts = rest.split(LINE_END, SHEET_LINES)
    behind = parts[SHEET_LINES] if len(parts) > SHEET_LINES else b""
    try:
        return read_sheet(rest[:len(rest) - len(behind)]), behind
    except Refusal as refusal:
        raise Refusal(refusal.number, refusal.place + 1 if refusal.place else 0) from refusal


def series_of(text):
    """The series of the Tucson text behind the sheet; lines are those of the whole input."""
    try:
        return read_tucson(text)
    except Refusal as refusal:
        raise Refusal(refusal.number, FRONT_LINES + refusal.place) from refusal


def check_curve(space_lists, coefs):
    """What the curve call says of the sheet without positions."""
    reply = curve_outcome(*space_lists, coefs, [], CELLS, CELLS, 0).reply
    if reply.number:
        raise Refusal(reply.number, reply.place)


def refused_series(series, number, place):
    """The one line of a series that the index call refuses, with the year of its first ring at fault."""
    ring = MOST_POSITIONS if number == BAD_LENGTHS else place
    return b"%b,%d,,,no=%d\n" % (quoted(series.name), series.first_year + ring, number)


def series_lines(wood, space_lists, coefs, series):
    count = len(series.widths)
    outcome = indices_outcome(wood, space_lists, coefs, series.first_year, series.widths, CELLS, CELLS, PARTS * count, count)
    reply = outcome.curve.reply
    if reply.number:
        return refused_series(series, reply.number, reply.place)
    return all_lines(wood, series.name, series.first_year, series.widths, side_by_side(outcome.curve.values),
                     outcome.indices)


def table_of(data):
    if len(data) > MOST_TUCSON_BYTES:
        raise Refusal(SHORT_BUFFER, 0)
    wood, rest = wood_of(data)
    (*space_lists, coefs, _), text = sheet_of(rest)
    all_series = series_of(text)
    check_curve(space_lists, coefs)
    return TABLE_HEAD + b"".join(series_lines(wood, space_lists, coefs, series) for series in all_series)


def rings(data):
    """All bytes the program prints for the bytes it reads."""
    try:
        return table_of(data)
    except Refusal as refusal:
        return b"no=%d,%d\n" % (refusal.number, refusal.place)
