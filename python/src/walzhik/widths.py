"""Measured widths in any of the forms that laboratories hold: Tucson (rwl), Heidelberg (fh) and tables (csv, tsv).

The fronts that read Heidelberg files and tables are not proved. What they make of a text is written by the engine's proved writer and
read back by its proved reader, and only that is used; what is written in these forms is read back by the front and must be the same.
Apart because no command may read or write such a file in a way of its own.
"""

from __future__ import annotations

from collections import Counter
from collections.abc import Sequence
from typing import NamedTuple

from . import heidelberg, tables, tucson
from ._changes import Change, Unreadable as Unreadable
from ._front_parts import Asked, Drawn
from .errors import Refused
from .formats import Form
from .tucson import Series
from .words.quoting import quoted

__all__ = ["Asked", "Read", "UNIT_OF_TABLES", "Unwritable", "read", "text_of"]
UNIT_OF_TABLES = "--hundredths and --thousandths are for Tucson files. --unit says what the widths of a table are."


class Read(NamedTuple):
    """What a text comes to: the strict Tucson text of the engine, its series, and what the front changed."""

    text: bytes
    series: list[Series]
    changes: list[Change]


class Unwritable(Exception):
    """Series that a form can't hold; the message says why and what to do."""


def read(text: bytes, form: Form, asked: Asked = Asked()) -> Read:
    r"""The series of a Heidelberg text (``fh``) or of a table (``csv``), as the engine reads them back.

    Raises
    ------
    Unreadable
        If the front can't place something.
    Refused
        If the engine can't hold a series: its words begin with the line.

    Examples
    --------
    >>> read(b"year,FEW\n1998,0.012\n1999,0.009\n", "csv").text
    b'FEW     1998    12     9\nFEW     2000 -9999\n'
    """
    drawn = heidelberg.draw(text, asked) if form == "fh" else tables.draw(text, asked)
    if not drawn.series:
        raise Unreadable(1, "the file holds no series.", "See that it is the right file, and whole.")
    made = _written(drawn)
    series = tucson.read_strict(made)
    if series != drawn.series:
        raise Unreadable(1, "the engine reads other series than the front.", "Send the file to the maintainers.")
    return Read(made, series, drawn.changes)


def _written(drawn: Drawn) -> bytes:
    """The series by the proved writer; a refusal is told by the line of the file."""
    try:
        return tucson.write(drawn.series)
    except Refused as error:
        line = drawn.lines[error.place] if error.place < len(drawn.lines) else 1
        raise Refused(error.number, error.place, f"Line {line}: {error.words}", error.remedy) from None


def text_of(series: Sequence[Series], form: Form, separator: str = ",") -> bytes:
    """Series in a form: ``rwl`` by the proved writer, ``fh`` and ``csv`` by writers that are not proved, whose text is read back
    and must give the same series.

    Raises
    ------
    Unwritable
        If the form can't hold them.
    Refused
        If the engine refuses them.

    Examples
    --------
    >>> print(text_of([Series("FEW", 1998, [12, 9])], "csv").decode(), end="")
    year,FEW
    1998,0.012
    1999,0.009
    """
    if not series:
        raise Unwritable("There are no series to write.")
    strict = tucson.write(series)
    if form == "tucson":
        return strict
    for each in series:
        if not len(each):
            raise Unwritable(f"Series {each.name} has no widths. Take it out.")
    for name, times in Counter(each.name for each in series).items():
        shown = quoted(name.encode("ascii"))
        if times > 1:
            raise Unwritable(f"{times} series are named {shown}. Give each its own name.")
        if name != name.strip(" "):
            raise Unwritable(
                f"The name {shown} begins with a blank, which is lost there. Give the series another name."
            )
    text = heidelberg.text_of(series) if form == "fh" else tables.text_of(series, separator)
    if read(text, form).text != strict:
        raise Unwritable("What was written reads back as other series. Send the file to the maintainers.")
    return text
