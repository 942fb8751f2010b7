"""The text of a Heidelberg file or a table before its front looks at it: without marks at its ends, and its lines without line ends
and trailing blanks. Nothing here is proved. It stands apart because both fronts must take the same bytes for a text.
"""

from __future__ import annotations

from typing import NamedTuple

from ._changes import Changes, Unreadable

BYTE_ORDER_MARK = b"\xef\xbb\xbf"
UTF_16_MARKS = (b"\xff\xfe", b"\xfe\xff")
CONTROL_Z = b"\x1a"
BLANKS = b" \t"


class Line(NamedTuple):
    """A line without its line end, and its number in the file, from 1."""

    number: int
    body: bytes


def _line_of(data: bytes, position: int) -> int:
    return data.count(b"\n", 0, position) + 1


def without_marks(data: bytes, changes: Changes) -> bytes:
    """The text without a byte order mark at its start and Ctrl-Z at its end."""
    if data.startswith(UTF_16_MARKS):
        raise Unreadable(1, "the file is written in UTF-16.", "Save it as plain text (ASCII or UTF-8).")
    if data.startswith(BYTE_ORDER_MARK):
        changes.add(1, "a byte order mark was taken off")
        data = data[len(BYTE_ORDER_MARK) :]
    for found, what in ((b"\0", "a zero byte"), (BYTE_ORDER_MARK, "a byte order mark within the text")):
        if found in data:
            line = _line_of(data, data.index(found))
            raise Unreadable(line, f"it holds {what}.", "Save the file as plain text, one file at a time.")
    end = data.find(CONTROL_Z)
    if end < 0:
        return data
    line = _line_of(data, end)
    if data[end:].strip(CONTROL_Z + BLANKS + b"\r\n"):
        raise Unreadable(
            line, "Ctrl-Z (byte 26) ends the file here, but more text follows.", "Take out one of the two."
        )
    changes.add(line, "Ctrl-Z (byte 26) at the end was taken off")
    return data[:end]


def text_lines(data: bytes, changes: Changes) -> list[Line]:
    """The lines that are not blank, without line ends and trailing blanks."""
    *ended, rest = data.split(b"\n")
    lines = []
    for number, body in enumerate([*ended, rest] if rest else ended, start=1):
        if body.endswith(b"\r"):
            body = _without_carriage(number, body, number <= len(ended))
            changes.add(number, "the line end of Windows became a plain one")
        stripped = body.rstrip(BLANKS)
        if not stripped:
            changes.add(number, "a blank line was taken out")
            continue
        if len(stripped) < len(body):
            changes.add(number, "trailing blanks were taken off")
        lines.append(Line(number, stripped))
    for line in lines if b"\r" in data else ():
        _without_carriage(line.number, line.body, False)
    if lines and lines[-1].number > len(ended):
        changes.add(lines[-1].number, "a line end was put behind the last line")
    return lines


def _without_carriage(number: int, body: bytes, is_ended: bool) -> bytes:
    """The line without the carriage return of a line end of Windows; it may hold no other."""
    kept = body[:-1] if is_ended else body
    if b"\r" in kept:
        words = "it holds a carriage return (byte 13) without a line feed."
        raise Unreadable(number, words, "Save the file with plain line ends.")
    return kept
