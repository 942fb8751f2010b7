"""Series divided by curves, and their indices as a table or a Tucson text. Apart because the command `indices`, the data
bank and the screen must give the same bytes. Every line of the table is printed by the engine's proved calls.
"""

from __future__ import annotations

from collections.abc import Iterable, Iterator
from typing import NamedTuple

import numpy as np

from . import tucson
from ._engine import lent, library, listed, pointer, whole
from .curve import Curve, Divided, Wood
from .errors import Refused
from .failures import Refusal, telling
from .limits import BAD_LINE, NAME_COLUMNS
from .tucson import Series
from .words.quoting import quoted

HEADER = b"series,year,width_mm,curve_mm,index\n"
MOST_LINE = 87  # bytes of a ring's line, as include/walzhik_indices.h says
COMPUTED = "=+-@"  # what a formula of a spreadsheet begins with


class Indexed(NamedTuple):
    """A series with its values and indices."""

    series: Series
    rings: Divided


def divided(series: Series, curve: Curve, first: int, wood: Wood | None = None) -> Indexed:
    """A series' values and indices by a curve; `first` is the ring of its first width."""
    with telling(f"Series {series.name}"):
        return Indexed(series, curve.divided(series.widths, first, wood))


def as_tucson(done: Iterable[Indexed]) -> bytes:
    """The indices as a Tucson text: 0 for an absent ring, so no other ring may have 0."""
    made = []
    for series, rings in done:
        for place in np.flatnonzero(rings.indices == 0).tolist():
            year = series.first + place
            raise Refusal(
                f"Series {series.name}, {year}: the index is 0, which a Tucson text has for an absent ring. "
                "Write CSV instead."
            )
        made.append(Series(series.name, series.first, np.maximum(rings.indices, 0)))
    with telling("The indices as a Tucson text"):
        return tucson.write(made)


def ring_lines(series: Series, rings: Divided) -> bytes:
    """The lines ``series,year,width_mm,curve_mm,index`` of a series, by the proved call of its wood part; the index of an
    absent ring is empty.

    Raises
    ------
    Refused
        If a Tucson file can't hold the name.

    Examples
    --------
    >>> from walzhik import Curve, Space
    >>> series, curve = Series("A", 1998, [900, 0]), Curve(Space([1998, 1999], [1], []), [1000, 1000])
    >>> print(ring_lines(series, curve.divided(series.widths, 1998)).decode(), end="")
    A,1998,0.900,1.000000,900
    A,1999,0.000,1.000000,
    """
    name, widths = series.columns, listed(series.widths, "widths")
    room = lent.room(MOST_LINE * widths.size)
    call = library.walzhik_latewood_ring_lines if rings.side else library.walzhik_earlywood_ring_lines
    reply = call(
        name,
        len(name),
        whole(series.first, "first"),
        pointer(widths),
        widths.size,
        pointer(rings.pairs),
        rings.pairs.size,
        pointer(rings.indices, "int64_t[]"),
        rings.indices.size,
        pointer(room, "uint8_t[]"),
        room.size,
    )
    if reply.number == BAD_LINE or (reply.number and len(name) != NAME_COLUMNS):
        raise Refused.because(BAD_LINE, 0, "series-name", name=quoted(name))
    if reply.number:
        raise Refused.without_words(reply.number, reply.place)
    return room[: reply.count].tobytes()


def table_pieces(done: Iterable[Indexed]) -> Iterator[bytes]:
    """The indices as CSV, piece by piece: the header, then a series at a time."""
    yield HEADER
    for series, rings in done:
        with telling(f"Series {series.name}"):
            piece = ring_lines(series, rings)
        yield piece


def as_table(done: Iterable[Indexed]) -> bytes:
    """The indices as CSV, all at once."""
    return b"".join(table_pieces(done))


def computed_words(name: str) -> str | None:
    """What to say of a series' name that a spreadsheet would compute; None for any other.

    Examples
    --------
    >>> computed_words("=A1+A2")
    'Series =A1+A2 begins with =, and a spreadsheet would compute such a name. Give it another one before its table goes there.'
    >>> computed_words("ROOF04E")
    """
    if not name.startswith(tuple(COMPUTED)):
        return None
    return (
        f"Series {name} begins with {name[0]}, and a spreadsheet would compute such a name. "
        "Give it another one before its table goes there."
    )
