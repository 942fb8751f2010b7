"""A laboratory's file brought into the strict form, by § 16.

`cleaned` gives the strict text of a file, the file's line for each of its
lines, and the notes, or refuses with a number and a place; `clean` is the public
call with every lent cell. The lines come from shown.py, the strict reader is
that of tucson.py. The model shares nothing with the engine.
"""

import re
from itertools import groupby
from typing import NamedTuple

from limits import (FIELD_COLUMNS, HUNDREDTHS, HUNDREDTHS_CLOSING, LARGEST_PLACE, MOST_FILE_BYTES,
                    NAME_COLUMNS, NO_HEADER, NO_UNIT, THOUSANDTHS, THOUSANDTHS_CLOSING,
                    UNKNOWN_CLOSING)
from shown import (BAD_CHARACTER, BAD_FILE, CLOSING_NOTE, HEADER_NOTE, can_be_strict, shown_lines,
                   strict_line, text_of)
from space import Refusal, check_buffers
from tucson import HEAD, LINE_END, over, parse_line, read_tucson

BAD_NAME, BAD_UNIT, DOUBTFUL_WIDTH, BAD_HEADER = 23, 24, 25, 26
END_REMARK, WIDTH_REMARK, UNIT_REMARK = 12, 13, 14
CLOSINGS = {HUNDREDTHS: HUNDREDTHS_CLOSING, THOUSANDTHS: THOUSANDTHS_CLOSING}
HEADER_LINES = 3
HEADER_NAME = 6                          # columns that the lines of a header share
HEADER_WORDS = re.compile(rb"[A-Za-z\x80-\xff]")
DIGIT_COLUMNS = (12, 18, 24)             # where data would have digits
SHIFTED_DIGITS = re.compile(rb".*[ ?][0-9]+")


class CleanReply(NamedTuple):
    """Number 0 is an answer; a refusal counts nothing."""
    bytes: int
    lines: int
    notes: int
    number: int
    place: int


# The header.

def is_header_line(body, digit, first):
    """Whether a line as it is shown has the form of this line of a header."""
    if body[:NAME_COLUMNS] != b"%b %d" % (first[:HEADER_NAME], digit):
        return False
    words = body[NAME_COLUMNS:]
    return not words or (words.startswith(b" ") and HEADER_WORDS.search(words, 1) is not None
                         and not any(body[column - 1:column].isdigit() for column in DIGIT_COLUMNS))


def guessed_header(lines):
    """The first three lines that are not blank, where they are a header."""
    filled = [line for line in lines if line.body]
    header = filled[:HEADER_LINES]
    fits = (len(filled) > HEADER_LINES and not any(map(can_be_strict, header))
            and all(is_header_line(line.body, digit, header[0].body)
                    for digit, line in enumerate(header, start=1)))
    return header if fits else []


def named_header(lines, count):
    """The lines that are not blank of the first ones; 26 where there are too few or one is data."""
    if len(lines) < count:
        raise Refusal(BAD_HEADER, 0)
    header = [line for line in lines[:count] if line.body]
    for line in header:
        if can_be_strict(line):
            raise Refusal(BAD_HEADER, line.number)
    return header


# The other lines and their series.

def kept_lines(lines, header):
    """The strict lines of those that are neither blank nor header; 11 or 22."""
    left_out = {line.number for line in header}
    kept = []
    for shown in lines:
        if not shown.body or shown.number in left_out:
            continue
        line = strict_line(shown)
        if kept and kept[-1].line.name == line.line.name and kept[-1].shown_name != line.shown_name:
            raise Refusal(BAD_CHARACTER, line.number)
        kept.append(line)
    return kept


def series_of(kept):
    return [list(lines) for _, lines in groupby(kept, key=lambda strict: strict.line.name)]


def shifted(strict):
    """Whether a line that is a series by itself looks like one whose columns moved."""
    name = strict.line.name
    return (name.startswith(b" ") or SHIFTED_DIGITS.fullmatch(name) is not None
            or b" " in name.strip(b" ") and len(strict.line.fields) == 1)


def year_in_name(strict, alone):
    name = strict.line.name
    return (name.endswith((b"-", b"?"))
            or strict.body[NAME_COLUMNS - 1:HEAD].isdigit() and name[-2:-1] in (b"-", b"?", b" ")
            or alone and shifted(strict))


def check_names(series):
    for lines in series:
        for strict in lines:
            if year_in_name(strict, len(lines) == 1):
                raise Refusal(BAD_NAME, strict.number)


# Closings.

def with_closing(strict, closing):
    """The line with another closing in the columns of its last field."""
    body = strict.body[:-FIELD_COLUMNS] + b"%*d" % (FIELD_COLUMNS, closing)
    return strict._replace(body=body, line=parse_line(body + LINE_END),
                           notes=strict.notes + (CLOSING_NOTE,))


def closed(lines, unit):
    """The lines of a series with the closing that is said; 24 and 25."""
    last = lines[-1]
    closing = last.line.fields[-1]
    others = {CLOSINGS[other] for other in CLOSINGS if unit not in (NO_UNIT, other)}
    if closing in others or closing == UNKNOWN_CLOSING and unit == NO_UNIT:
        raise Refusal(BAD_UNIT, last.number)
    if closing == UNKNOWN_CLOSING:
        lines = lines[:-1] + [with_closing(last, CLOSINGS[unit])]
    check_widths(lines)
    return lines


def check_widths(lines):
    """25 for the first line with 999 before a closing of 999."""
    if lines[-1].line.fields[-1] != HUNDREDTHS_CLOSING:
        return
    for strict in lines:
        widths = strict.line.fields[:-1] if strict is lines[-1] else strict.line.fields
        if HUNDREDTHS_CLOSING in widths:
            raise Refusal(DOUBTFUL_WIDTH, strict.number)


# Remarks, as pairs of line and number.

def numbered_widths(lines):
    """The widths of a series as they stand, each with its line."""
    return [(field, strict.number) for strict in lines for field in strict.line.fields][:-1]


def end_remarks(lines):
    widths = numbered_widths(lines)
    if not widths:
        return [(lines[-1].number, END_REMARK)]
    return [(number, END_REMARK) for width, number in (widths[0], widths[-1]) if width == 0]


def width_remarks(lines):
    """Lines of a series in thousandths whose last width is 999."""
    if lines[-1].line.fields[-1] != THOUSANDTHS_CLOSING:
        return []
    last_widths = {number: width for width, number in numbered_widths(lines)}
    return [(number, WIDTH_REMARK) for number, width in last_widths.items()
            if width == HUNDREDTHS_CLOSING]


def remarks(series):
    """What is told of series that the strict reader accepts."""
    noted = []
    for lines in series:
        noted += end_remarks(lines) + width_remarks(lines)
        if lines[-1].line.fields[-1] != series[0][-1].line.fields[-1]:
            noted.append((lines[-1].number, UNIT_REMARK))
    return noted


# The call.

def check_options(file, header, unit):
    if header > NO_HEADER:
        raise Refusal(BAD_HEADER, 0)
    if unit not in (NO_UNIT, *CLOSINGS):
        raise Refusal(BAD_UNIT, 0)
    if len(file) > MOST_FILE_BYTES:
        raise Refusal(BAD_FILE, LARGEST_PLACE)


def check_strict(text, numbers):
    """The strict reader's 11, 12 and 13 at the lines of the file."""
    try:
        read_tucson(text)
    except Refusal as refusal:
        raise Refusal(refusal.number, numbers[refusal.place - 1]) from refusal


def all_notes(text_notes, lines, header, series):
    """All notes as pairs of line and number, each once and in order."""
    kept = [strict for strict_lines in series for strict in strict_lines]
    noted = [(line.number, note) for line in (*lines, *kept) for note in line.notes]
    noted += [(line.number, HEADER_NOTE) for line in header]
    return sorted({*text_notes, *noted, *remarks(series)})


def cleaned(file, header=NO_HEADER, unit=NO_UNIT):
    """The strict text of a file, the line of the file for each of its lines, and the notes as pairs of line and number."""
    check_options(file, header, unit)
    text, text_notes = text_of(file)
    lines = shown_lines(text)
    left_out = guessed_header(lines) if header == NO_HEADER else named_header(lines, header)
    series = series_of(kept_lines(lines, left_out))
    check_names(series)
    series = [closed(strict_lines, unit) for strict_lines in series]
    kept = [strict for strict_lines in series for strict in strict_lines]
    strict_text = b"".join(strict.body + LINE_END for strict in kept)
    numbers = [strict.number for strict in kept]
    check_strict(strict_text, numbers)
    return strict_text, numbers, all_notes(text_notes, lines, left_out, series)


def clean(file, header, unit, out, lines, notes):
    """The reply and the three buffers after a call."""
    lent = (out, lines, notes)
    try:
        text, numbers, noted = cleaned(file, header, unit)
        answer = (text, numbers, [cell for line, note in noted for cell in (note, line)])
        check_buffers([(len(buffer), len(cells)) for cells, buffer in zip(answer, lent)])
    except Refusal as refusal:
        return CleanReply(0, 0, 0, refusal.number, refusal.place), *lent
    reply = CleanReply(len(text), len(numbers), len(noted), 0, 0)
    return reply, *(over(cells, buffer) for cells, buffer in zip(answer, lent))
