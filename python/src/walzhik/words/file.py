"""The facts of a laboratory's file that the proved call has refused, for the words: the call names number and line, and what is
shown there is found here. Nothing here decides whether a file is good.
"""

from __future__ import annotations

import re
from collections.abc import Callable, Iterator
from typing import NamedTuple

from .._engine import LARGEST_PLACE
from ..errors import Refused
from ..limits import BAD_LINE, HEAD, HUNDREDTHS, NAME_COLUMNS, TAB, THOUSANDTHS
from .lists import Told
from .numbers import count
from .quoting import SHOWN_LINE, quoted
from .strict import BAD_CLOSING, BAD_YEAR, fields_of, is_strict, number_in, of_closing, of_line, of_year, year_of

MARK, CONTROL_Z, UTF_16 = b"\xef\xbb\xbf", b"\x1a", (b"\xff\xfe", b"\xfe\xff")
UNITS = {HUNDREDTHS: "hundredths", THOUSANDTHS: "thousandths"}
SITE_NAME = re.compile(rb"(.{72}) +[A-Za-z]{2,4}[0-9]{3}[A-Za-z]?", re.DOTALL)
NOT_ASCII = re.compile(rb"[\x80-\xff]")
LETTER = re.compile(rb"[A-Za-z\x80-\xff]")
FIVE_COLUMNS = re.compile(rb".{6}[-? ][0-9]{5}", re.DOTALL)  # of a year, the first of them in column 8
SIGNS = {b"-": "minus", b"?": "?, which stands for what is not ASCII and may be a minus,"}


class Given(NamedTuple):
    """What the call was given: the file, and the header and the unit where they are named."""

    data: bytes
    header: int | None
    unit: str | None


class Shown(NamedTuple):
    """A line as an editor shows it: its number in the file, its bytes there, its columns without a site name, and these with ? for
    what is not ASCII where that is in order."""

    number: int
    raw: bytes
    columns: bytes
    body: bytes

    @property
    def name(self) -> bytes:
        return self.body[:NAME_COLUMNS]

    @property
    def name_bytes(self) -> bytes:
        """What the file has for the name."""
        return self.columns[: len(self.columns) - len(self.body) + NAME_COLUMNS]


def in_columns(raw: bytes) -> bytes:
    r"""The columns of a line as they are shown: no carriage return at its end, tabs as blanks, no trailing blanks.

    Examples
    --------
    >>> in_columns(b"FEW\t1998\t12 \r")
    b'FEW     1998    12'
    """
    return raw.removesuffix(b"\r").expandtabs(TAB).rstrip(b" ")


def ways(body: bytes) -> list[bytes]:
    r"""The line with ? for each byte that is not ASCII and, where it is UTF-8, with ? for each character.

    Examples
    --------
    >>> ways(b"\xc3\xa9"), ways(b"\xe9")
    ([b'??', b'?'], [b'?'])
    """
    made = [NOT_ASCII.sub(b"?", body)]
    try:
        return [*made, body.decode("utf-8").encode("ascii", "replace")]
    except UnicodeDecodeError:
        return made


def shown(number: int, raw: bytes) -> Shown:
    """A line of a file as it is shown."""
    columns = in_columns(raw)
    found = SITE_NAME.fullmatch(columns)
    columns = found[1].rstrip(b" ") if found else columns
    body = next((way for way in ways(columns) if not columns.isascii() and is_strict(way)), columns)
    return Shown(number, raw, columns, body)


def text_of(data: bytes) -> bytes:
    """The text of a file: without a mark at its start, up to the first Ctrl-Z."""
    return data.removeprefix(MARK).partition(CONTROL_Z)[0]


def line_at(data: bytes, place: int) -> Shown | None:
    """The line at a place, or None where there is none."""
    lines = text_of(data).split(b"\n")
    return shown(place, lines[place - 1]) if 1 <= place <= len(lines) else None


def neighbours(data: bytes, place: int, step: int) -> Iterator[Shown]:
    """The lines that are not blank, from a place on, upwards or downwards."""
    lines = text_of(data).split(b"\n")
    for number in range(place + step, len(lines) + 1 if step > 0 else 0, step):
        line = shown(number, lines[number - 1])
        if line.body:
            yield line


def of_text(given: Given, place: int) -> Told | None:
    """21: the two bytes of UTF-16, or the first byte at fault of the line."""
    told: Told = dict.fromkeys(("bytes", "byte", "column", "follows"))
    if place == LARGEST_PLACE:
        return told
    if given.data.startswith(UTF_16):
        return told | {"bytes": given.data[:2].hex(" ").upper()}
    lines = given.data.removeprefix(MARK).split(b"\n")
    if not 1 <= place <= len(lines):
        return None
    body, is_ended = lines[place - 1], place < len(lines)
    kept = body[:-1] if is_ended and body.endswith(b"\r") else body
    columns = [body.find(b"\0"), body.find(MARK), kept.find(b"\r"), body.find(CONTROL_Z)]
    at = min((column for column in columns if column >= 0), default=None)
    if at is None:
        return told
    told |= {"byte": body[at], "column": at + 1}
    if not body.startswith(CONTROL_Z, at):
        return told
    behind = b"\n".join([body[at + 1 :], *lines[place:]]).lstrip(CONTROL_Z + b" \t\r\n")
    return told | {"follows": quoted(behind.partition(b"\n")[0])}


def of_header(given: Given, place: int) -> Told:
    """26: how many lines of a header are named, how many the file has, and the line at the place."""
    line, lines = line_at(given.data, place), text_of(given.data).split(b"\n")
    told: Told = {"named": given.header, "header": None if given.header is None else count(given.header, "line")}
    told |= {"lines": count(len(lines) - (not lines[-1]), "line")}
    return told | {"text": quoted(line.body, SHOWN_LINE) if line else None}


def of_shown(given: Given, place: int) -> Told | None:
    """11: a line's columns and fields, and how it is shown."""
    line, following = line_at(given.data, place), next(neighbours(given.data, place, 1), None)
    if line is None:
        return None
    rest = line.body[NAME_COLUMNS:]
    is_year = number_in(rest[: HEAD - NAME_COLUMNS]) is not None
    told: Told = {"text": quoted(line.body, SHOWN_LINE), "has_tab": b"\t" in line.raw.rstrip(b" \t\r")}
    told |= {"is_prose": not rest or LETTER.search(rest) is not None and not is_year}
    return told | of_line(line.body, True, following is None or following.name != line.name)


def of_bytes(given: Given, place: int) -> Told | None:
    """22: the first byte that is not ASCII, in how many ways the line is in order with ? for such bytes, and the line before
    it where that shows the same name."""
    line, before = line_at(given.data, place), next(neighbours(given.data, place, -1), None)
    if line is None:
        return None
    fitting = [way for way in ways(line.columns) if is_strict(way)]
    told: Told = {"is_ascii": line.columns.isascii(), "has_tab": b"\t" in line.raw, "ways": len(fitting)}
    told |= {"text": quoted(line.columns, SHOWN_LINE), "name": quoted(line.name), "name_text": quoted(line.name_bytes)}
    is_same = before is not None and before.name == line.name
    told |= (
        {"line": before.number, "other": quoted(before.name_bytes)}
        if before and is_same
        else {"line": None, "other": None}
    )
    found = NOT_ASCII.search(line.columns) or (NOT_ASCII.search(before.name_bytes) if before and is_same else None)
    told |= {"byte": f"{found[0][0]} ({found[0].hex().upper()})" if found else None}
    return told | {"column": found.start() + 1 if found else None}


def series_up_to(data: bytes, place: int) -> list[Shown]:
    """The lines of a series, from its first to the one at a place; none where that has not the columns of one."""
    line = line_at(data, place)
    if line is None or not is_strict(line.body):
        return []
    made = [line]
    for before in neighbours(data, place, -1):
        if not is_strict(before.body) or before.name != line.name:
            break
        made.insert(0, before)
    return made


def of_series_line(given: Given, place: int) -> Told | None:
    """23, 24, 25: name and year of a line, what runs into the year, its closing, and the year that has 999."""
    line = line_at(given.data, place)
    if line is None or not is_strict(line.body):
        return None
    fields, first = fields_of(line.body), year_of(line.body)
    told: Told = {"shown": quoted(line.body[:HEAD]), "first": first, "name": quoted(line.name)}
    told |= {"sign": SIGNS.get(line.body[NAME_COLUMNS - 1 : NAME_COLUMNS])}
    told |= {"has_five": FIVE_COLUMNS.fullmatch(line.body[:HEAD]) is not None}
    told |= {"closing": fields[-1], "closed": UNITS.get(fields[-1], ""), "said": given.unit}
    return told | {"year": first + fields.index(HUNDREDTHS) if HUNDREDTHS in fields else None}


def of_years(given: Given, place: int) -> Told | None:
    """12: the year of a line, and that after the line before it."""
    lines = series_up_to(given.data, place)
    return of_year(lines[-2].body, lines[-1].body, lines[-2].number) if len(lines) > 1 else None


def of_end(given: Given, place: int) -> Told | None:
    """13: the end of a series, and the line behind it."""
    lines = series_up_to(given.data, place)
    after = next(neighbours(given.data, place, 1), Shown(0, b"", b"", b""))
    return of_closing([line.body for line in lines], after.body, after.number) if lines else None


FACTS: dict[int, Callable[[Given, int], Told | None]] = {
    BAD_LINE: of_shown,
    BAD_YEAR: of_years,
    BAD_CLOSING: of_end,
    21: of_text,
    22: of_bytes,
    23: of_series_line,
    24: of_series_line,
    25: of_series_line,
    26: of_header,
}


def refused(given: Given, number: int, place: int) -> Refused:
    """The refusal of a laboratory's file, with its words.

    Examples
    --------
    >>> print(refused(Given(b"FEW     1998    12     9\\nFEW     2010     7 -9999\\n", None, None), 12, 2))
    no=12,2: Line 2 starts in 2010, but the next year of series 'FEW     ' is 2000: it has no widths for 2000 to 2009.
    """
    facts = FACTS[number](given, place) if number in FACTS else None
    return Refused.by_facts(number, place, "file", facts)
