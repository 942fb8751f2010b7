"""Bytes of a text as a message quotes them. Apart because messages about sheets, Tucson files and the fronts of other forms
quote alike."""

from __future__ import annotations

import codecs
import io
from typing import IO, Any

SHOWN = 40  # bytes of a text that a message quotes at most
SHOWN_LINE = 80  # of a line of widths, which has 72 columns at most
FIRST_PRINTABLE, LAST_PRINTABLE, BACKSLASH = 32, 126, 92
FIRST_BYTE, LAST_BYTE, OF_BYTES = (
    0xDC80,
    0xDCFF,
    0xDC00,
)  # how Python holds the bytes of a file's name that are no UTF-8
ESCAPED = "walzhik.escaped"  # the name of the way in which `escaped` writes


def quoted(text: bytes, most: int = SHOWN) -> str:
    r"""Bytes between quotation marks in ASCII, cut where they are long.

    Examples
    --------
    >>> print(quoted(b"a\t1"), quoted(b"x" * 50))
    'a\x091' 'xxxxxxxxxxxxxxxxxxxxxxxxxxxxxxxxxxxxxxxx...'
    """
    shown = "".join(
        chr(byte) if FIRST_PRINTABLE <= byte <= LAST_PRINTABLE and byte != BACKSLASH else f"\\x{byte:02x}"
        for byte in text[:most]
    )
    return f"'{shown}" + ("...'" if len(text) > most else "'")


def escaped(error: UnicodeError) -> tuple[str, int]:
    r"""What a stream can't write, for it to write instead: a byte of a file's name as the byte that it is.

    Examples
    --------
    >>> "oak\udcff.rwl".encode("utf-8", ESCAPED)
    b'oak\\xff.rwl'
    """
    if not isinstance(error, UnicodeEncodeError):
        raise error
    signs = error.object[error.start : error.end]
    made = (
        f"\\x{ord(sign) - OF_BYTES:02x}"
        if FIRST_BYTE <= ord(sign) <= LAST_BYTE
        else sign.encode("ascii", "backslashreplace").decode("ascii")
        for sign in signs
    )
    return "".join(made), error.end


codecs.register_error(ESCAPED, escaped)


def escape_names(*streams: IO[Any]) -> None:
    """Let streams write the bytes of files' names as `escaped` has them."""
    for stream in streams:
        if isinstance(stream, io.TextIOWrapper):
            stream.reconfigure(errors=ESCAPED)
