"""A sheet that is opened in the page: read as the commands read it, each change told, and put to the proved program; its
lists become the design.
"""

from __future__ import annotations

from typing import Any

from ..sheet_front import read_tidied, tidied
from .design import Design, Malformed


def text_of(sent: object) -> bytes:
    """The bytes of a file, which come as a text with a character a byte."""
    if not isinstance(sent, str):
        raise Malformed("A sheet's text is needed.")
    try:
        return sent.encode("latin-1")
    except UnicodeEncodeError as error:
        raise Malformed("A sheet's text has a character that is no byte.") from error


def opened(design: Design, text: bytes) -> dict[str, Any]:
    """The design with the lists of a sheet, beside the series that are chosen.

    Raises
    ------
    Refused
        If the program refuses the sheet.
    """
    tidy = tidied(text)
    read = read_tidied(tidy)
    is_whole_ring = design.is_whole_ring and all(early == late for early, late in read.pairs)
    made = Design(list(read.breaks), list(read.degrees), list(read.orders), list(read.pairs), is_whole_ring)
    made.series, made.positions = design.series, list(read.at)
    made.first, made.earliest = design.first, design.earliest
    made.at = "given" if read.at else "none"
    return {"refusal": None, "design": made.as_json(), "words": " ".join(tidy.changes)}
