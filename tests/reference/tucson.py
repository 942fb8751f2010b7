"""Tucson decadal files, by § 14.

`read_tucson` gives the series of a text, `write_tucson` the text of a list of
series; both refuse with a number and a place. `tucson_read` and `tucson_write`
are the two public calls with every lent cell, `filtered` is the program. The
model splits the text into lines and each line by a pattern; it shares nothing
with the engine.
"""

import re
from typing import NamedTuple

from calls import Reply
from limits import (DECADE, FIELD_COLUMNS, HUNDREDTHS_CLOSING, LEAST_PRINTABLE, LEAST_YEAR,
                    MOST_FIELDS, MOST_HUNDREDTHS, MOST_PRINTABLE, MOST_THOUSANDTHS,
                    MOST_TUCSON_BYTES, MOST_YEAR, NAME_COLUMNS, THOUSANDTHS_CLOSING, YEAR_COLUMNS)
from space import BAD_LENGTHS, SHORT_BUFFER, Refusal

BAD_LINE, BAD_YEAR, BAD_CLOSING = 11, 12, 13
LINE_END = b"\n"
HEAD = NAME_COLUMNS + YEAR_COLUMNS
NUMBER = re.compile(rb" *(0|-?[1-9][0-9]*)")
TENFOLD = MOST_FIELDS        # hundredths become thousandths


class Series(NamedTuple):
    name: bytes
    first_year: int
    widths: tuple            # in thousandths


class Line(NamedTuple):
    name: bytes
    year: int
    fields: list


# Lines.

def is_name(name):
    return (len(name) == NAME_COLUMNS and name.strip(b" ") != b""
            and all(LEAST_PRINTABLE <= byte <= MOST_PRINTABLE for byte in name))


def number_in(columns):
    """The number right-aligned in its columns, or None."""
    match = NUMBER.fullmatch(columns)
    return int(match.group(1)) if match else None


def split_lines(text):
    """The lines of a text, each with its byte 10; the last may lack it."""
    parts = text.split(LINE_END)
    return [part + LINE_END for part in parts[:-1]] + [part for part in parts[-1:] if part]


def parse_line(raw):
    """The line of these bytes, or None where columns or end are malformed."""
    body = raw[:-1]
    count, spare = divmod(len(body) - HEAD, FIELD_COLUMNS)
    if not raw.endswith(LINE_END) or spare or not 1 <= count <= MOST_FIELDS:
        return None
    numbers = [number_in(body[NAME_COLUMNS:HEAD])]
    numbers += [number_in(body[start:start + FIELD_COLUMNS])
                for start in range(HEAD, len(body), FIELD_COLUMNS)]
    if None in numbers or not is_name(body[:NAME_COLUMNS]):
        return None
    return Line(body[:NAME_COLUMNS], numbers[0], numbers[1:])


def is_width(number):
    return 0 <= number <= MOST_THOUSANDTHS


def fields_allowed(fields, last):
    *front, end = fields
    return all(map(is_width, front)) and (is_width(end) or last and end == THOUSANDTHS_CLOSING)


# Reading.

def last_of_series(lines, place):
    following = lines[place + 1] if place + 1 < len(lines) else b""
    return following[:NAME_COLUMNS] != lines[place][:NAME_COLUMNS]


def closed_widths(fields):
    """The widths in thousandths before the closing field, or None."""
    *widths, closing = fields
    if closing == THOUSANDTHS_CLOSING:
        return tuple(widths)
    if closing == HUNDREDTHS_CLOSING and all(width <= MOST_HUNDREDTHS for width in widths):
        return tuple(TENFOLD * width for width in widths)
    return None


def read_tucson(text):
    """The series of a text; 11, 12 or 13 with the line from 1."""
    lines = split_lines(text)
    series = []
    before, fields = None, []
    for place, raw in enumerate(lines):
        last = last_of_series(lines, place)
        line = parse_line(raw)
        if (line is None or line.year % DECADE + len(line.fields) > DECADE
                or not fields_allowed(line.fields, last)):
            raise Refusal(BAD_LINE, place + 1)
        if before is None or before.name != line.name:
            first, fields = line.year, []
        elif line.year != before.year + len(before.fields) or line.year % DECADE:
            raise Refusal(BAD_YEAR, place + 1)
        fields = fields + line.fields
        if last:
            widths = closed_widths(fields)
            if widths is None:
                raise Refusal(BAD_CLOSING, place + 1)
            series.append(Series(line.name, first, widths))
        before = line
    return series


# Writing.

def decade_lines(series):
    """The lines of a series: to the end of the first decade, then full ones."""
    fields = [*series.widths, THOUSANDTHS_CLOSING]
    year = series.first_year
    while fields:
        room = DECADE - year % DECADE
        yield Line(series.name, year, fields[:room])
        year, fields = year + room, fields[room:]


def line_text(line):
    numbers = b"%*d" % (YEAR_COLUMNS, line.year)
    numbers += b"".join(b"%*d" % (FIELD_COLUMNS, field) for field in line.fields)
    return line.name + numbers + LINE_END


def is_writable(series, name_before):
    return (is_name(series.name) and series.name != name_before
            and all(LEAST_YEAR <= line.year <= MOST_YEAR for line in decade_lines(series))
            and all(map(is_width, series.widths)))


def write_tucson(series_list):
    """The text of the series; 11 with the first that the form does not allow, from 0."""
    name_before = None
    for place, series in enumerate(series_list):
        if not is_writable(series, name_before):
            raise Refusal(BAD_LINE, place)
        name_before = series.name
    return b"".join(line_text(line) for series in series_list for line in decade_lines(series))


# The two calls, with every lent cell.

def over(cells, buffer):
    """A buffer with these cells at its front."""
    return type(buffer)(cells) + buffer[len(cells):]


def tucson_read(text, names, years, counts, widths):
    """The reply and the four buffers after a read call."""
    lent = (names, years, counts, widths)
    try:
        series = read_tucson(text)
        answer = (b"".join(s.name for s in series), [s.first_year for s in series],
                  [len(s.widths) for s in series], [w for s in series for w in s.widths])
        if any(len(buffer) < len(cells) for cells, buffer in zip(answer, lent)):
            raise Refusal(SHORT_BUFFER, 0)
    except Refusal as refusal:
        return Reply(0, refusal.number, refusal.place), *lent
    return Reply(len(series), 0, 0), *(over(cells, buffer) for cells, buffer in zip(answer, lent))


def series_of_lists(names, years, counts, widths):
    if (len(names) != NAME_COLUMNS * len(years) or len(counts) != len(years)
            or sum(counts) != len(widths)):
        raise Refusal(BAD_LENGTHS, 0)
    series, used = [], 0
    for place, (year, count) in enumerate(zip(years, counts)):
        name = names[NAME_COLUMNS * place:NAME_COLUMNS * (place + 1)]
        series.append(Series(name, year, tuple(widths[used:used + count])))
        used += count
    return series


def tucson_write(names, years, counts, widths, text):
    """The reply and the text buffer after a write call."""
    try:
        written = write_tucson(series_of_lists(names, years, counts, widths))
        if len(text) < len(written):
            raise Refusal(SHORT_BUFFER, 0)
    except Refusal as refusal:
        return Reply(0, refusal.number, refusal.place), text
    return Reply(len(written), 0, 0), over(written, text)


# The program.

def filtered(text):
    """The same series in thousandths, or the line of a refusal."""
    try:
        if len(text) > MOST_TUCSON_BYTES:
            raise Refusal(SHORT_BUFFER, 0)
        return write_tucson(read_tucson(text))
    except Refusal as refusal:
        return b"no=%d,%d\n" % (refusal.number, refusal.place)
