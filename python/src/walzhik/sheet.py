"""Sheets: the five lines breaks=, degrees=, orders=, coefs= and at=. The verdict on a sheet's text is the proved
program's (`sheet`); its lists are read here only once the program has accepted them, or for the words of a refusal.
"""

from __future__ import annotations

import re
import subprocess
from collections.abc import Sequence
from dataclasses import dataclass
from typing import NamedTuple

from ._engine import program
from .curve import Curve
from .errors import Refused
from .space import Space
from .words import sheet as sheet_words
from .words.lists import Lists, refusal
from .words.sheet import BAD_TEXT, NAMES


class Printout(NamedTuple):
    """What the program printed for a sheet.

    Attributes
    ----------
    refusal : tuple of int, or None
        Number and place.
    rows : int
    weights : list of (row, column, numerator, denominator)
    values : list of (position, earlywood, latewood)
    low : list of int
    """

    refusal: tuple[int, int] | None
    rows: int
    weights: list[tuple[int, ...]]
    values: list[tuple[int, ...]]
    low: list[int]


@dataclass
class Sheet:
    """The lists of a sheet that the program has accepted.

    Attributes
    ----------
    breaks, degrees, orders : sequence of int
    pairs : sequence of (int, int)
        Earlywood and latewood coefficient of each row, in thousandths of a millimetre.
    at : sequence of int
        Positions in 256ths of a ring.
    """

    breaks: Sequence[int]
    degrees: Sequence[int]
    orders: Sequence[int]
    pairs: Sequence[tuple[int, int]]
    at: Sequence[int] = ()

    def curve(self) -> Curve:
        """The sheet's curves."""
        pairs = [list(pair) for pair in self.pairs]
        return Curve(Space(self.breaks, self.degrees, self.orders), pairs)

    def text(self) -> bytes:
        """The sheet's five lines.

        Examples
        --------
        >>> print(Sheet([0, 60], [1], [], [(2400, 700), (900, 300)]).text().decode(), end="")
        breaks=0,60
        degrees=1
        orders=
        coefs=2400:700,900:300
        at=
        """
        pairs = [f"{earlywood}:{latewood}" for earlywood, latewood in self.pairs]
        lists: tuple[Sequence[object], ...] = (self.breaks, self.degrees, self.orders, pairs, self.at)
        lines = [f"{name}={','.join(map(str, entries))}\n" for name, entries in zip(NAMES, lists)]
        return "".join(lines).encode("ascii")


def sheet_of(curve: Curve) -> Sheet:
    """The sheet of a curve, without positions.

    Examples
    --------
    >>> sheet_of(Curve(Space([0, 2], [1], []), [1000, 3000])).pairs
    [(1000, 1000), (3000, 3000)]
    """
    lists = curve.space.lists()
    pairs = [(early, late) for early, late in curve.coefficients.tolist()]
    return Sheet(lists.breaks, lists.degrees, lists.orders, pairs)


class NoPrintout(Exception):
    """The program `sheet` has printed nothing that is a printout."""


def printed(text: bytes) -> bytes:
    """What the proved program prints for a sheet's text.

    Examples
    --------
    >>> printed(b"breaks=0,1\\n").decode()
    'no=10,2\\n'
    """
    return subprocess.run([str(program("sheet"))], input=text, stdout=subprocess.PIPE, check=False).stdout


def read_printout(text: bytes) -> Printout:
    """A printout's lines as numbers.

    Raises
    ------
    NoPrintout
        If the text is no printout.

    Examples
    --------
    >>> read_printout(b"no=5,0\\n").refusal
    (5, 0)
    """
    made = Printout(None, 0, [], [], [])
    for line in text.decode("ascii", "replace").splitlines():
        key, _, body = line.partition("=")
        if not re.fullmatch(r"-?[0-9]+([,:/]-?[0-9]+)*", body, re.ASCII):
            raise NoPrintout(f"{line!r} is no line of a printout.")
        numbers = tuple(int(number) for number in re.split("[,:/]", body))
        made = with_line(made, key, numbers)
    if not made.refusal and not made.rows:
        raise NoPrintout("The program sheet printed nothing.")
    return made


def with_line(made: Printout, key: str, numbers: tuple[int, ...]) -> Printout:
    """A printout with one line more."""
    if key == "no":
        return made._replace(refusal=(numbers[0], numbers[1]))
    if key == "n":
        return made._replace(rows=numbers[0])
    kept = {"w": made.weights, "v": made.values}.get(key)
    if kept is not None:
        kept.append(numbers)
    elif key == "low":
        made.low.append(numbers[0])
    else:
        raise NoPrintout(f"{key!r} begins no line of a printout.")
    return made


def lists_of(text: bytes) -> Sheet | None:
    """The lists of a sheet's text, or None where it has no such lists; whether they are good ones is not asked."""
    lines = text.decode("ascii", "replace").split("\n")
    found: dict[str, list[str]] = {}
    for name, line in zip(NAMES, lines):
        entry = r"-?[0-9]+:-?[0-9]+" if name == "coefs" else r"-?[0-9]+"
        if not re.fullmatch(f"{name}=({entry}(,{entry})*)?", line, re.ASCII):
            return None
        body = line.partition("=")[2]
        found[name] = body.split(",") if body else []
    if len(found) != len(NAMES):
        return None
    breaks, degrees, orders, at = ([int(number) for number in found[name]] for name in NAMES if name != "coefs")
    sides = [pair.split(":") for pair in found["coefs"]]
    return Sheet(breaks, degrees, orders, [(int(early), int(late)) for early, late in sides], at)


def refused(text: bytes, number: int, place: int) -> Refused:
    """A refusal of the program, with its words from the sheet's text."""
    if number == BAD_TEXT:
        return sheet_words.refused(text, place)
    lists = lists_of(text)
    if lists is None:
        return Refused.without_words(number, place)
    given = Lists(lists.breaks, lists.degrees, lists.orders, pairs=lists.pairs, positions=lists.at)
    return refusal(given, number, place)


def read(text: bytes) -> Sheet:
    """A sheet's lists, if the proved program accepts its text.

    Raises
    ------
    Refused
        With the program's number and place.

    Examples
    --------
    >>> read(b"breaks=0,60\\ndegrees=1\\norders=\\ncoefs=2400:700,900:300\\nat=\\n").breaks
    [0, 60]
    >>> read(b"breaks=0,60\\n")
    Traceback (most recent call last):
    ...
    walzhik.errors.Refused: no=10,2: Line 2 is missing: it starts with degrees=.
    """
    verdict = read_printout(printed(text)).refusal
    if verdict:
        raise refused(text, *verdict)
    lists = lists_of(text)
    if lists is None:
        raise NoPrintout("The program sheet has accepted a text that is no sheet.")
    return lists
