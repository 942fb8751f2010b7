"""Fits of series as they are asked for: over a space for all or a template for each, in a shape, with scars, and why there
is none. Apart because the commands, the data bank and the screen must fit alike.
"""

from __future__ import annotations

from collections.abc import Sequence
from typing import NamedTuple

from .choosing import listed
from .failures import Refusal, telling
from .fit import Closeness, Fit, Shape, Unfittable, fit, fit_within, template
from .fit_scar import Hint, hint
from .space import Space
from .tucson import Series


class Asked(NamedTuple):
    """What is asked of fits: a space for all, or a template for each with scars; and the shape."""

    space: Space | None
    shape: Shape = "auto"
    scars: tuple[int, ...] = ()


class Fitted(NamedTuple):
    """A series with its fit, how close that is, and where it lacks a scar."""

    series: Series
    fit: Fit
    close: Closeness
    hint: Hint | None


def template_over(chosen: Sequence[Series], starts: Sequence[int], scars: Sequence[int] = ()) -> Space:
    """The template over all rings of the series that share a sheet, by the ring that each starts with."""
    begin = min(starts)
    end = max(start + len(series) for series, start in zip(chosen, starts))
    try:
        return template(end - begin, begin, scars)
    except Unfittable as error:
        raise Refusal(f"Series {listed(chosen)}: no template. {error}") from error


def fitted_series(series: Series, space: Space, first: int, shape: Shape = "auto", *, is_own: bool = False) -> Fit:
    """A series' fit, or why there is none; with `is_own` the space is a template over the rings of this series."""
    with telling(f"Series {series.name}"):
        try:
            return (fit_within if is_own else fit)(space, series.widths, first, shape)
        except Unfittable as error:
            raise Refusal(f"Series {series.name}: no fit. {error}") from error


def own_fit(series: Series, start: int, asked: Asked) -> Fit:
    """A series' fit over a template of its own or the given space; scars outside its rings are not its own."""
    inside = [ring for ring in asked.scars if start < ring < start + len(series) - 1]
    if asked.space is not None:
        return fitted_series(series, asked.space, start, asked.shape)
    return fitted_series(series, template_over([series], [start], inside), start, asked.shape, is_own=True)


def fitted_one(series: Series, start: int, asked: Asked) -> Fitted:
    """A series' own fit with what is said of it."""
    return described(series, own_fit(series, start, asked), asked)


def described(series: Series, made: Fit, asked: Asked) -> Fitted:
    """A fit with what is said of it; scars are hinted at where a template without any was taken."""
    wanted = asked.space is None and not asked.scars and asked.shape != "free"
    return Fitted(series, made, made.closeness(), hint(made) if wanted else None)
