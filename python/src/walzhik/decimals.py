"""Numbers as people type them: ASCII decimals of bounded length, exactly. Apart because Python's own `int` and
`Fraction` also take underscores, the digits of other scripts and exponents that fill the memory; every number that a
command is given goes through `exact`.
"""

from __future__ import annotations

import re
from fractions import Fraction

from .words.quoting import quoted

MOST_CHARACTERS = 40
BLANKS = " \t"
DECIMAL = re.compile(r"[+-]?([0-9]+\.?[0-9]*|\.[0-9]+)([eE][+-]?[0-9]{1,2})?", re.ASCII)


class NoNumber(ValueError):
    """A text is no number; the message says why, without the text's place."""


def exact(text: str) -> Fraction:
    """A decimal as the exact number that it stands for; blanks around it are left out.

    It has digits 0 to 9, a sign, a point and an exponent of at most two digits, and at most 40 characters, so that no
    text makes a number that takes long to work out.

    Raises
    ------
    NoNumber
        If it is no such decimal.

    Examples
    --------
    >>> exact("-2.50"), exact("1e-3")
    (Fraction(-5, 2), Fraction(1, 1000))
    >>> exact("1_0")
    Traceback (most recent call last):
    ...
    walzhik.decimals.NoNumber: '1_0' is no number
    >>> exact("1" * 5000)
    Traceback (most recent call last):
    ...
    walzhik.decimals.NoNumber: a number of 5,000 characters is too long: at most 40
    """
    typed = text.strip(BLANKS)
    if len(typed) > MOST_CHARACTERS:
        raise NoNumber(f"a number of {len(typed):,} characters is too long: at most {MOST_CHARACTERS}")
    if not DECIMAL.fullmatch(typed):
        raise NoNumber(f"{quoted(typed.encode('utf-8', 'backslashreplace'))} is no number")
    return Fraction(typed)


def whole(text: str) -> int:
    """A whole number, without point or exponent.

    Examples
    --------
    >>> whole(" -12")
    -12
    >>> whole("2.0")
    Traceback (most recent call last):
    ...
    walzhik.decimals.NoNumber: '2.0' is no whole number
    """
    number = exact(text)
    if re.search("[.eE]", text):
        raise NoNumber(f"{quoted(text.encode('ascii'))} is no whole number")
    return int(number)
