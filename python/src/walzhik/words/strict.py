"""The facts of a strict Tucson text that the proved reader has refused, for the words: the reader names the line, and what is wrong
in it is found here. Nothing here decides whether a text is good.
"""

from __future__ import annotations

import re
from collections.abc import Sequence

from ..errors import Refused
from ..limits import (
    BAD_LINE,
    DECADE,
    FIELD_COLUMNS,
    HEAD,
    HUNDREDTHS,
    MOST_FIELDS,
    MOST_HUNDREDTHS,
    MOST_WIDTH,
    NAME_COLUMNS,
    THOUSANDTHS,
)
from .lists import Told
from .quoting import quoted

BAD_YEAR, BAD_CLOSING = 12, 13
NUMBER = re.compile(rb" *(0|-?[1-9][0-9]*)")
NAME = re.compile(rb"(?=.*[^ ])[ -~]{8}")


def is_name(columns: bytes) -> bool:
    """Whether the columns are a name: eight, printable ASCII, not all blank."""
    return NAME.fullmatch(columns) is not None


def number_in(columns: bytes) -> int | None:
    """The number at the right of columns, or None.

    Examples
    --------
    >>> number_in(b"    12"), number_in(b"   1.2")
    (12, None)
    """
    return int(columns) if NUMBER.fullmatch(columns) else None


def texts_of(body: bytes) -> list[bytes]:
    """The fields of a line as they stand."""
    return [body[start : start + FIELD_COLUMNS] for start in range(HEAD, len(body), FIELD_COLUMNS)]


def year_of(body: bytes) -> int:
    return int(body[NAME_COLUMNS:HEAD])


def fields_of(body: bytes) -> list[int]:
    return [int(text) for text in texts_of(body)]


def is_strict(body: bytes) -> bool:
    """Whether the columns are those of a line of widths."""
    fields, spare = divmod(len(body) - HEAD, FIELD_COLUMNS)
    if spare or not 1 <= fields <= MOST_FIELDS or not is_name(body[:NAME_COLUMNS]):
        return False
    return None not in map(number_in, (body[NAME_COLUMNS:HEAD], *texts_of(body)))


def of_line(body: bytes, is_ended: bool, is_last: bool) -> Told:
    """11: the columns of a line, and its fields where the columns are in order. Of the fields the first that is no width
    is told; the closing of a series is none where the line is its last."""
    fields, spare = divmod(len(body) - HEAD, FIELD_COLUMNS)
    told: Told = {"is_ended": is_ended, "has_return": body.endswith(b"\r"), "columns": len(body)}
    told |= {"fields": 0 if spare or fields < 0 else fields, "is_strict": is_strict(body)}
    told |= {"is_name": is_name(body[:NAME_COLUMNS]), "name_text": quoted(body[:NAME_COLUMNS])}
    told |= {"first": number_in(body[NAME_COLUMNS:HEAD]), "year_text": quoted(body[NAME_COLUMNS:HEAD])}
    bad = next((at for at, text in enumerate(texts_of(body)) if number_in(text) is None), None)
    start = HEAD + FIELD_COLUMNS * (bad or 0)
    told |= {"bad_field": bad, "field_text": quoted(body[start : start + FIELD_COLUMNS])}
    told |= {"start": start + 1, "end": start + FIELD_COLUMNS}
    return told | (of_fields(body, is_last) if is_strict(body) else NO_FIELDS)


NO_FIELDS: Told = dict.fromkeys(("most", "decade_end", "before", "width", "year"))


def of_fields(body: bytes, is_last: bool) -> Told:
    """How many fields a line's decade has room for, and its first field that is no width."""
    year, fields = year_of(body), fields_of(body)
    room = DECADE - year % DECADE
    closing = len(fields) - 1 if is_last and fields[-1] == THOUSANDTHS else None
    bad = next((at for at, width in enumerate(fields) if at != closing and not 0 <= width <= MOST_WIDTH), None)
    told: Told = {"most": room, "decade_end": year + room - 1, "before": bad}
    return told | {"width": None if bad is None else fields[bad], "year": None if bad is None else year + bad}


def of_year(before: bytes, body: bytes, number_before: int) -> Told:
    """12: the year of a later line, and that after the line before it."""
    year, fields = year_of(body), fields_of(before)
    following = year_of(before) + len(fields)
    missing = str(following) if year - 1 == following else f"{following} to {year - 1}"
    told: Told = {"year": year, "next": following, "name": quoted(body[:NAME_COLUMNS]), "field": fields[-1]}
    return told | {"missing": missing, "line": number_before}


def of_closing(bodies: Sequence[bytes], after: bytes, number_after: int) -> Told:
    """13: the last field of a series, its first width that is too large for hundredths, and the line behind the series,
    which is the damaged one where it has the next year under another name."""
    first, fields = year_of(bodies[0]), [field for body in bodies for field in fields_of(body)]
    told: Told = {"name": quoted(bodies[0][:NAME_COLUMNS]), "field": fields[-1], "next": first + len(fields)}
    told |= {"year_after": number_in(after[NAME_COLUMNS:HEAD]), "other": quoted(after[:NAME_COLUMNS])}
    over = next((at for at, width in enumerate(fields[:-1]) if width > MOST_HUNDREDTHS), None)
    told |= {"width": None if over is None else fields[over], "year": None if over is None else first + over}
    return told | {"line": number_after}


def refused(text: bytes, number: int, place: int) -> Refused:
    """The refusal of a Tucson text, with its words.

    Examples
    --------
    >>> print(refused(b"FEW     1998    12     9\\n", 13, 1))
    no=13,1: Line 1 ends series 'FEW     ' with 9: its last field must be 999 or -9999.
    """
    return Refused.by_facts(number, place, "text", facts_of(text, number, place))


def facts_of(text: bytes, number: int, place: int) -> Told | None:
    """What is told of the line at a place, or None where there is no such line, or its columns are not in order."""
    pieces = text.split(b"\n")
    lines = pieces if pieces[-1] else pieces[:-1]
    if not 1 <= place <= len(lines):
        return None
    body, after = lines[place - 1], lines[place] if place < len(lines) else b""
    if number == BAD_LINE:
        return of_line(body, place < len(pieces), after[:NAME_COLUMNS] != body[:NAME_COLUMNS])
    first = place
    while first > 1 and lines[first - 2][:NAME_COLUMNS] == body[:NAME_COLUMNS]:
        first -= 1
    series = lines[first - 1 : place]
    if not all(map(is_strict, series)):
        return None
    if number == BAD_YEAR and len(series) > 1:
        return of_year(series[-2], body, place - 1)
    return of_closing(series, after, place + 1) if number == BAD_CLOSING else None


def closings(text: bytes) -> list[int]:
    """The closing field of each series of a text that the reader has accepted."""
    lines = text.split(b"\n")[:-1]
    following = [line[:NAME_COLUMNS] for line in lines[1:]] + [None]
    return [int(line[-FIELD_COLUMNS:]) for line, after in zip(lines, following) if line[:NAME_COLUMNS] != after]
