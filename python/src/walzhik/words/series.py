"""The facts of series that the proved writer has refused, for the words."""

from __future__ import annotations

from collections.abc import Sequence
from typing import Any, Protocol

from ..errors import Refused
from ..limits import BAD_LINE, MOST_WIDTH
from .lists import Told
from .quoting import quoted
from .strict import is_name


class Named(Protocol):
    """A series, as far as its refusal needs it."""

    first: int

    @property
    def columns(self) -> bytes:
        ...

    @property
    def widths(self) -> Any:
        ...


def refused(series: Sequence[Named], number: int, place: int) -> Refused:
    """The refusal of series to be written, with its words."""
    return Refused.by_facts(number, place, "series", of_series(series, place) if number == BAD_LINE else {})


def of_series(series: Sequence[Named], place: int) -> Told:
    """What is told of the series at a place, counted from 0."""
    one = series[place]
    closing = one.first + len(one.widths)  # its year, behind that of the last width
    told: Told = {"name": quoted(one.columns), "is_name": is_name(one.columns), "first": one.first}
    told |= {"is_same": place > 0 and one.columns == series[place - 1].columns, "last": closing - 1, "closing": closing}
    over = next((at for at, width in enumerate(one.widths) if not 0 <= width <= MOST_WIDTH), None)
    if over is None:
        return told | {"width": None, "year": None}
    return told | {"width": int(one.widths[over]), "year": one.first + over}
