"""A sheet as people's editors save it, in the strict form that the proved program takes: lines with the ends of Windows,
blanks around numbers, comment lines and a missing at= line. Each change is told; what is left is the program's to
accept or to refuse. This front is tested, not proved.
"""

from __future__ import annotations

import re
from typing import NamedTuple

from .errors import Refused
from .sheet import Sheet, read
from .words.sheet import BAD_TEXT, NAMES

MARK = b"\xef\xbb\xbf"
AROUND = re.compile(rb"[ \t]*([=,:])[ \t]*")


class Tidied(NamedTuple):
    """A sheet's text in the strict form.

    Attributes
    ----------
    text : bytes
    changes : tuple of str
        What was changed, a line each; nothing where the text was strict already.
    lines : tuple of int
        For each line of the text its line in the text as it was, counted from 1.
    """

    text: bytes
    changes: tuple[str, ...]
    lines: tuple[int, ...]


def tidied(text: bytes) -> Tidied:
    """A sheet's text in the strict form, with the list of what was changed.

    Examples
    --------
    >>> made = tidied(b"# a beam\\r\\nbreaks = 0, 60\\r\\ndegrees=1\\r\\norders=\\r\\ncoefs=2400:700,900:300\\r\\n")
    >>> print(made.text.decode() + "\\n".join(made.changes))
    breaks=0,60
    degrees=1
    orders=
    coefs=2400:700,900:300
    at=
    Line 1: a comment was left out.
    Lines 1 to 5: the line end of Windows became a plain one.
    Line 2: blanks were taken out.
    Line 6: at= was missing and was put in, without positions.
    """
    told: dict[str, list[int]] = {}
    kept: list[tuple[int, bytes]] = []
    body = text.removeprefix(MARK)
    if body != text:
        told["the byte order mark was taken off"] = [1]
    *ended, rest = body.split(b"\n")
    for number, line in enumerate([*ended, *([rest] if rest else [])], start=1):
        plain = _plain(line, number, told)
        if plain is not None:
            kept.append((number, plain))
    if rest and kept:
        told.setdefault("the last line end was missing and was put in", []).append(len(ended) + 1)
    names = [line.partition(b"=")[0].decode("ascii", "replace") for _, line in kept]
    if names == list(NAMES[:-1]):
        after = len(ended) + bool(rest) + 1
        told[f"{NAMES[-1]}= was missing and was put in, without positions"] = [after]
        kept.append((after, f"{NAMES[-1]}=".encode("ascii")))
    changes = tuple(f"{_lines(numbers)}: {words}." for words, numbers in told.items())
    return Tidied(b"".join(line + b"\n" for _, line in kept), changes, tuple(number for number, _ in kept))


def _plain(line: bytes, number: int, told: dict[str, list[int]]) -> bytes | None:
    """A line in the strict form, or None for a comment; what was changed is noted."""
    plain = line.removesuffix(b"\r")
    if plain.lstrip(b" \t").startswith(b"#"):
        told.setdefault("a comment was left out", []).append(number)
        if plain != line:
            told.setdefault("the line end of Windows became a plain one", []).append(number)
        return None
    if plain != line:
        told.setdefault("the line end of Windows became a plain one", []).append(number)
    without = AROUND.sub(rb"\1", plain.strip(b" \t"))
    if without != plain:
        told.setdefault("blanks were taken out", []).append(number)
    return without


def _lines(numbers: list[int]) -> str:
    """The lines that a change is about.

    >>> _lines([2]), _lines([1, 2, 3]), _lines([1, 3])
    ('Line 2', 'Lines 1 to 3', 'Lines 1, 3')
    """
    if len(numbers) == 1:
        return f"Line {numbers[0]}"
    if numbers[-1] - numbers[0] == len(numbers) - 1:
        return f"Lines {numbers[0]} to {numbers[-1]}"
    return f"Lines {', '.join(map(str, numbers))}"


def as_before(error: Refused, lines: tuple[int, ...]) -> Refused:
    """A refusal of a text that was tidied, with the line of the text as it was before."""
    if error.number != BAD_TEXT or not error.place:
        return error
    known = error.place <= len(lines)
    line = lines[error.place - 1] if known else (lines[-1] if lines else 0) + error.place - len(lines)
    words = re.sub(rf"^Line {error.place}\b", f"Line {line}", error.words)
    return Refused(error.number, line, words, error.remedy)


def read_tidied(made: Tidied) -> Sheet:
    """The lists of a sheet that was tidied, if the proved program accepts it; a refusal names the line as it was before.

    Raises
    ------
    Refused
        With the program's number, and its place or the line.
    """
    try:
        return read(made.text)
    except Refused as error:
        raise as_before(error, made.lines) from None
