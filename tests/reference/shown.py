"""A laboratory's file as it is shown, by § 16: its text, its lines, and what can be read as a strict line.

`text_of` finds the text of a file, `shown_lines` its lines as an editor shows
them, and `strict_line` takes one of these for a strict line or refuses it.
Lines are told by their numbers in the file, and what was changed by notes.
"""

import re
from typing import NamedTuple

from limits import NAME_COLUMNS, TAB_COLUMNS
from space import Refusal
from tucson import BAD_LINE, LINE_END, Line, parse_line, split_lines

BAD_FILE, BAD_CHARACTER = 21, 22
(MARK_NOTE, ENDING_NOTE, RETURN_NOTE, TAB_NOTE, BLANKS_NOTE, BLANK_NOTE, SITE_NOTE, END_NOTE,
 HEADER_NOTE, CHARACTER_NOTE, CLOSING_NOTE) = range(1, 12)

MARK = b"\xef\xbb\xbf"
WIDE_MARKS = (b"\xff\xfe", b"\xfe\xff")
ENDING = b"\x1a"
BEHIND_ENDING = ENDING + b" \t\n\r"
FAULT = re.compile(rb"\x00|\xef\xbb\xbf|\r(?!\n)")
RETURN, TAB, BLANK, UNKNOWN = b"\r", b"\t", b" ", b"?"
SITE_NAME = re.compile(rb"(.{72}) +[A-Za-z]{2,4}[0-9]{3}[A-Za-z]?", re.DOTALL)
HIGH_BYTE = re.compile(rb"[\x80-\xff]")
HIGH_CHARACTER = re.compile(r"[^\x00-\x7f]")


class Shown(NamedTuple):
    """A line of the text as it is shown, without its end; a blank one has no bytes."""
    number: int
    body: bytes
    had_tab: bool
    notes: tuple


class Strict(NamedTuple):
    """A strict line of the file, with the bytes that are shown in its columns of name."""
    number: int
    body: bytes
    line: Line
    shown_name: bytes
    notes: tuple


# The text.

def line_at(file, place):
    """The line of a byte of the file."""
    return file.count(LINE_END, 0, place) + 1


def first_fault(file):
    """The place of the first byte at fault, or None."""
    if file.startswith(WIDE_MARKS):
        return 0
    front, _, behind = file.partition(ENDING)
    fault = FAULT.search(front, len(MARK) if file.startswith(MARK) else 0)
    if fault:
        return fault.start()
    return len(front) if behind.strip(BEHIND_ENDING) else None


def text_of(file):
    """The text of a file and its notes, as pairs of line and number; 21 with the line at fault."""
    fault = first_fault(file)
    if fault is not None:
        raise Refusal(BAD_FILE, line_at(file, fault))
    text, ending, _ = file.partition(ENDING)
    notes = [(line_at(file, len(text)), ENDING_NOTE)] if ending else []
    if text.startswith(MARK):
        notes.append((1, MARK_NOTE))
    return text.removeprefix(MARK), notes


# A line as it is shown.

def spread_tabs(body):
    """Each tab as blanks up to the next multiple of eight columns."""
    first, *others = body.split(TAB)
    columns = first
    for part in others:
        columns += BLANK * (TAB_COLUMNS - len(columns) % TAB_COLUMNS) + part
    return columns


def shown_line(number, raw):
    """A line of the text, with its end if it has one, as it is shown."""
    plain = raw.removesuffix(LINE_END).removesuffix(RETURN)
    spread = spread_tabs(plain)
    body = spread.rstrip(BLANK)
    noted = {RETURN_NOTE: raw.endswith(RETURN + LINE_END), TAB_NOTE: TAB in raw,
             BLANKS_NOTE: body and body != spread, BLANK_NOTE: not body,
             END_NOTE: body and not raw.endswith(LINE_END)}
    return Shown(number, body, TAB in raw, tuple(note for note, holds in noted.items() if holds))


def shown_lines(text):
    return [shown_line(number, raw) for number, raw in enumerate(split_lines(text), start=1)]


# A strict line.

def without_site_name(body):
    found = SITE_NAME.fullmatch(body)
    return found.group(1).rstrip(BLANK) if found else body


def readings(body):
    """The line with ? for each high byte and, where it is UTF-8, for each high character, each with what is shown as its name."""
    yield HIGH_BYTE.sub(UNKNOWN, body), body[:NAME_COLUMNS]
    try:
        characters = body.decode("utf-8")
    except UnicodeDecodeError:
        return
    yield HIGH_CHARACTER.sub("?", characters).encode("ascii"), characters[:NAME_COLUMNS].encode("utf-8")


def strict_readings(body):
    """Those of the readings that are strict lines, with their numbers."""
    parsed = [(read, parse_line(read + LINE_END), name) for read, name in readings(body)]
    return [entry for entry in parsed if entry[1] is not None]


def strict_line(shown):
    """The strict line of what is shown; 11 or 22 with its number."""
    body = without_site_name(shown.body)
    site = (SITE_NOTE,) if body != shown.body else ()
    if not HIGH_BYTE.search(body):
        line = parse_line(body + LINE_END)
        if line is None:
            raise Refusal(BAD_LINE, shown.number)
        return Strict(shown.number, body, line, body[:NAME_COLUMNS], shown.notes + site)
    found = [] if shown.had_tab else strict_readings(body)
    if len(found) != 1:
        raise Refusal(BAD_CHARACTER, shown.number)
    return Strict(shown.number, *found[0], shown.notes + site + (CHARACTER_NOTE,))


def can_be_strict(shown):
    try:
        strict_line(shown)
    except Refusal:
        return False
    return True
