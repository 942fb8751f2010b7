"""Which format a file has: as it is said, else by its name's ending in any case, else, for an input, by its content.
Apart because all commands must take a file for the same.
"""

from __future__ import annotations

import re
from collections.abc import Sequence
from pathlib import PurePath
from typing import Literal

Form = Literal["tucson", "fh", "csv"]  # of measured widths
Kind = Literal["sheet", "tucson", "fh", "csv"]
KINDS: tuple[str, ...] = ("sheet", "tucson", "rwl", "fh", "csv")  # as they are said; rwl is tucson
FORMS: dict[str, Form] = {"rwl": "tucson", "fh": "fh", "csv": "csv"}
FORM_ENDINGS: dict[str, Form] = {**FORMS, "tsv": "csv"}
BY_ENDING: dict[str, Kind] = {"sheet": "sheet", **FORM_ENDINGS}
LOOKED_AT = 4_096  # bytes at a file's start
SHEET_LINE = re.compile(rb"^[ \t]*(breaks|degrees|orders|coefs|at)[ \t]*=", re.MULTILINE)
# A name in eight columns, a year in four or five, and widths: what no line of a sheet can be.
TUCSON_LINE = re.compile(rb"^[^=\r\n]{7,8}[ -]?[ 0-9]{0,4}[0-9]([ \t]+-?[0-9]+){1,11}[ \t]*\r?$", re.MULTILINE)
HEIDELBERG_START = re.compile(rb"(\xef\xbb\xbf)?\s*HEADER:", re.IGNORECASE)
TABLE_START = re.compile(rb'(\xef\xbb\xbf)?\s*"?year"?[,;\t]', re.IGNORECASE)


class UnknownEnding(ValueError):
    """No format has the ending of an output; the message lists those that there are."""


def ending(name: str) -> str:
    """The ending of a file's name in small letters, without its point.

    Examples
    --------
    >>> ending("A.RWL"), ending("-"), ending("a.b/c")
    ('rwl', '', '')
    """
    return PurePath(name).suffix[1:].lower()


def kind_of(name: str, text: bytes) -> Kind:
    """What an input is, by its ending, else by its content; a text that is neither is taken for a sheet.

    Examples
    --------
    >>> kind_of("A.RWL", b""), kind_of("a.txt", b"FEW     1998    12     9\\n"), kind_of("a", b"breaks=0,1\\n")
    ('tucson', 'tucson', 'sheet')
    """
    known = BY_ENDING.get(ending(name))
    if known is not None:
        return known
    head = text[:LOOKED_AT]
    if HEIDELBERG_START.match(head) or TABLE_START.match(head):
        return form_of(name, text)
    return "tucson" if TUCSON_LINE.search(head) and not SHEET_LINE.search(head) else "sheet"


def form_of(name: str, text: bytes) -> Form:
    """The form of measured widths, by the ending, else by the content; what is no other is taken for a Tucson text.

    Examples
    --------
    >>> form_of("a.FH", b""), form_of("a.tsv", b""), form_of("-", b"HEADER:\\n"), form_of("a.txt", b"year,A\\n1998,1\\n")
    ('fh', 'csv', 'fh', 'csv')
    """
    known = FORM_ENDINGS.get(ending(name))
    if known is not None:
        return known
    head = text[:LOOKED_AT]
    return "fh" if HEIDELBERG_START.match(head) else "csv" if TABLE_START.match(head) else "tucson"


def format_of(output: str, asked: str | None, formats: Sequence[str]) -> str:
    """The format to write: as it is asked, else by the output's ending; the first one without an ending.

    Raises
    ------
    UnknownEnding
        If none of the formats has the ending.

    Examples
    --------
    >>> format_of("-", None, ("csv", "rwl")), format_of("A.RWL", None, ("csv", "rwl"))
    ('csv', 'rwl')
    >>> format_of("a.crn", None, ("csv", "rwl"))
    Traceback (most recent call last):
    ...
    walzhik.formats.UnknownEnding: a.crn: nothing here is written as .crn, but as .csv or .rwl. --format says otherwise.
    """
    found = asked or ending(output) or formats[0]
    if found in formats:
        return found
    listed = " or ".join(f".{each}" for each in formats)
    raise UnknownEnding(f"{output}: nothing here is written as .{found}, but as {listed}. --format says otherwise.")
