"""What the fronts for Heidelberg files and tables share: what may be asked of them, what they hand out, names, numbers and years.
Nothing here is proved. Apart because both must place, name and round in the same way, and refuse in the same words.
"""

from __future__ import annotations

import re
from collections import Counter
from collections.abc import Sequence
from typing import Literal, NamedTuple

import numpy as np

from ._changes import Change, Changes, Unreadable
from .limits import NAME_COLUMNS
from .tucson import Series
from .words.quoting import quoted

Scale = Literal["mm", "tenths", "hundredths", "thousandths"]
YearZero = Literal["yes", "no"]
DECIMALS: dict[Scale, int] = {"mm": 3, "tenths": 2, "hundredths": 1, "thousandths": 0}  # that a thousandth has
MOST_DIGITS = 9  # of a year: so that it fits the engine's numbers, which then refuses
MOST_WIDTH_DIGITS = 6  # before the point: so that thousandths of them fit too
WIDTH = re.compile(r"([0-9]+)(?:\.([0-9]+))?", re.ASCII)
YEAR = re.compile(rf"-?[0-9]{{1,{MOST_DIGITS}}}", re.ASCII)


class Asked(NamedTuple):
    """What may be asked of a front.

    Attributes
    ----------
    first : int or None
        The first year of series that have none.
    year_zero : {"yes", "no"} or None
        Whether the file counts a year 0.
    unit : {"mm", "tenths", "hundredths", "thousandths"} or None
        What widths are, where the file does not say so.
    rename : bool
        Whether names that do not fit, or come twice, are numbered.
    rounds : bool
        Whether widths finer than thousandths are rounded.
    """

    first: int | None = None
    year_zero: YearZero | None = None
    unit: Scale | None = None
    rename: bool = False
    rounds: bool = False


class Drawn(NamedTuple):
    """What a front makes of a text: its series, the line of each, and what was changed. Not proved: the engine has to write
    and to read the series before they are used."""

    series: list[Series]
    lines: list[int]
    changes: list[Change]


class Found(NamedTuple):
    """A series as it is found: its line, its name as bytes, its first year and its widths."""

    line: int
    name: bytes
    first: int
    widths: list[int]


def drawn(found: Sequence[Found], asked: Asked, changes: Changes) -> Drawn:
    """The series with names that the engine takes."""
    names = fitting_names([(each.line, each.name) for each in found], asked.rename, changes)
    series = [
        Series(name, each.first, np.array(each.widths, dtype=np.int32)) for name, each in zip(names, found, strict=True)
    ]
    return Drawn(series, [each.line for each in found], changes.listed())


def thousandths(text: str, unit: Scale, asked: Asked, line: int, changes: Changes) -> int:
    """A width in thousandths of a millimetre.

    Raises
    ------
    Unreadable
        If it is no number, negative, or finer than a thousandth and not to be rounded.

    Examples
    --------
    >>> thousandths("1.23", "mm", Asked(), 2, Changes()), thousandths("123", "hundredths", Asked(), 2, Changes())
    (1230, 1230)
    """
    shown = quoted(text.encode("utf-8", "backslashreplace"))
    if text.startswith("-"):
        raise Unreadable(line, f"the width {shown} is below 0.", "Put in the width, or 0 for an absent ring.")
    found = WIDTH.fullmatch(text)
    if found is None or len(found[1]) > MOST_WIDTH_DIGITS:
        raise Unreadable(
            line, f"{shown} is no width.", "Write it with the digits 0 to 9, and a point where it has one."
        )
    room, part = DECIMALS[unit], found[2] or ""
    whole: int = int(found[1]) * 10**room + int((part[:room] or "0").ljust(room, "0"))
    if len(part) <= room:
        return whole
    if not asked.rounds:
        words = f"the width {shown} is finer than a thousandth of a millimetre."
        raise Unreadable(line, words, "Give --round, or write it in whole thousandths.")
    changes.add(line, "a width was rounded to a whole thousandth of a millimetre, halves upwards")
    return whole + (part[room] >= "5")


def year_of(text: str, what: str, line: int) -> int:
    """A year, or another whole number of a header."""
    if not YEAR.fullmatch(text):
        shown = quoted(text.encode("utf-8", "backslashreplace"))
        raise Unreadable(line, f"{what} is {shown}, which is no whole number.", "Write it with the digits 0 to 9.")
    return int(text)


def placed(year: int, asked: Asked, line: int, changes: Changes) -> int:
    """A year as the engine counts it, with a year 0. Below 1 it is told how it was taken."""
    if year >= 1:
        return year
    if asked.year_zero != "no":
        if asked.year_zero is None:
            changes.add(
                line, "a year below 1 was taken as it stands, with a year 0 after -1 (--year-zero no if there is none)"
            )
        return year
    if year == 0:
        raise Unreadable(
            line, "it has the year 0, but --year-zero no says that there is none.", "Give --year-zero yes."
        )
    changes.add(line, "a year below 1 became one later, as --year-zero no asks: the year before 1 is 0 from here on")
    return year + 1


def plain(name: bytes) -> str:
    """A name in ASCII without outer blanks, ? for each character that is not ASCII; byte by byte where it is no UTF-8.

    Examples
    --------
    >>> plain("Höhe 1 ".encode()), plain(b"H\\xf6he")
    ('H?he 1', 'H?he')
    """
    try:
        text = name.decode("utf-8")
    except UnicodeDecodeError:
        text = name.decode("latin-1")
    return text.strip(" \t").encode("ascii", "replace").decode("ascii")


def fitting_names(found: Sequence[tuple[int, bytes]], is_renamed: bool, changes: Changes) -> list[str]:
    """The names in eight columns, all different; numbered where they are not and it is asked for."""
    names = [plain(name) for _, name in found]
    for (line, raw), name in zip(found, names):
        if not raw.isascii():
            changes.add(line, "a character of a name that is not ASCII became ?")
        if not name or not name.isprintable():
            words = f"the name {quoted(raw)} is empty, or holds what can't be printed."
            raise Unreadable(line, words, "Give the series a name of letters and digits.")
    times = Counter(names)
    kept = {name for name in names if times[name] == 1 and len(name) <= NAME_COLUMNS}
    taken = set(kept)
    return [
        name if name in kept else _numbered(line, name, taken, is_renamed, changes)
        for (line, _), name in zip(found, names)
    ]


def _numbered(line: int, name: str, taken: set[str], is_renamed: bool, changes: Changes) -> str:
    """A name that is not kept, cut and numbered; `taken` takes it in."""
    shown = quoted(name.encode("ascii"))
    if not is_renamed:
        why = f"is longer than {NAME_COLUMNS} columns" if len(name) > NAME_COLUMNS else "comes more than once"
        raise Unreadable(
            line, f"the name {shown} {why}.", "Give the series another name, or let it be numbered (--rename)."
        )
    number, made = 0, ""
    while not made or made in taken:
        number += 1
        made = name[: NAME_COLUMNS - len(str(number))].rstrip(" ") + str(number)
    taken.add(made)
    changes.add(line, f"the name {shown} became {quoted(made.encode('ascii'))}")
    return made
