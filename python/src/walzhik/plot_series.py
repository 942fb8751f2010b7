"""Which series a picture shows beside which curve, and the ring of each first width. Apart because the command `plot` and
the screen must draw the same.
"""

from __future__ import annotations

from collections.abc import Sequence
from typing import get_args

from .choosing import fitting, listed
from .counting import Counting
from .curve import Curve, Wood
from .failures import Unusable
from .plot import MOST_SERIES, Measured
from .tucson import Series


def parts_of(curve: Curve, wood: str, names: dict[Wood, tuple[str, ...]]) -> list[Wood | None]:
    """The curves to draw: the whole ring's, the named part's, those whose series are named, or both."""
    if wood != "both":
        return [part for part in get_args(Wood) if part == wood]
    if curve.is_whole_ring:
        return [None]
    return [part for part in names if names[part]] or list(names)


def measured_series(
    series: list[Series], curve: Curve, names: dict[Wood, tuple[str, ...]], others: Sequence[str]
) -> list[tuple[Series, Wood | None]]:
    """The series to draw, each with the wood part whose curve divides it."""
    parts: list[tuple[Series, Wood | None]] = [
        (each, None if curve.is_whole_ring else part)
        for part in names
        for name in names[part]
        for each in fitting(series, name)
    ]
    if others and not curve.is_whole_ring:
        raise Unusable("The sheet has a curve for each wood part: name the series with --earlywood or --latewood.")
    parts += [(each, None) for name in others for each in fitting(series, name)]
    if not parts and not curve.is_whole_ring:
        told = "The sheet has a curve for each wood part: name the series of each, with --earlywood NAME and --latewood NAME."
        raise Unusable(f"{told} There are {listed(series) or 'none'}.")
    chosen = parts or [(each, None) for each in series]
    if len(chosen) > MOST_SERIES:
        raise Unusable(f"{len(chosen):,} series can't be told apart: name at most {MOST_SERIES} with --series.")
    return chosen


def counted(chosen: list[tuple[Series, Wood | None]], counting: Counting) -> list[Measured]:
    """The series to draw, with the ring of each first width."""
    starts = counting.starts([each for each, _ in chosen])
    return [Measured(each.name, start, each.widths, part) for (each, part), start in zip(chosen, starts)]
