"""Pictures that need no sheet: of series with a curve that is fitted to them, and of widths alone."""

from __future__ import annotations

from collections.abc import Sequence
from typing import TYPE_CHECKING, NamedTuple

import click

from .. import plot
from ..choosing import listed, named
from ..counting import Counting
from ..curve import Curve, Wood
from ..failures import Unusable, telling
from ..fit_series import Asked, described, fitted_series, template_over
from ..plot import MOST_SERIES, Measured
from ..plot_widths import widths_picture
from ..tucson import Series
from ._fits import say_fits, say_space
from .fit import chosen_series

if TYPE_CHECKING:
    from matplotlib.figure import Figure


class Looks(NamedTuple):
    """How a picture looks: its title, how its rings are counted, and its width."""

    title: str
    counting: Counting
    is_narrow: bool

    @property
    def rings(self) -> str:
        return "year" if self.counting.is_by_years else "ring"


def one_of(names: Sequence[str], option: str) -> str | None:
    """The one name of an option that may come again; a curve that is fitted has one series, or one of each wood part."""
    if len(names) > 1:
        raise Unusable(f"{option}: one fitted curve has one series, but {len(names)} are named.")
    return names[0] if names else None


def fitted_picture(
    series: list[Series], names: dict[Wood, tuple[str, ...]], others: Sequence[str], asked: Asked, looks: Looks
) -> Figure:
    """One series, or those of the two wood parts, with the curve that `fit` gives them."""
    woods = [one_of(names[part], f"--{part}") for part in names]
    chosen = chosen_series(series, one_of(others, "--series"), *woods)
    starts = looks.counting.starts(chosen)
    space = asked.space or template_over(chosen, starts, asked.scars)
    say_space(space)
    click.echo(looks.counting.words(chosen), err=True)
    fits = [
        described(each, fitted_series(each, space, start, asked.shape), asked) for each, start in zip(chosen, starts)
    ]
    say_fits(fits)
    curve = Curve(space, list(zip(*(fits[side].fit.coefficients.tolist() for side in (0, -1)))))
    parts: list[Wood | None] = [None] if curve.is_whole_ring else list(names)
    measured = [Measured(each.name, start, each.widths, part) for each, start, part in zip(chosen, starts, parts)]
    with telling(f"Series {listed(chosen)}"):
        return plot.picture(
            curve, measured, parts=parts, title=looks.title, rings=looks.rings, is_narrow=looks.is_narrow
        )


def measured_picture(
    series: list[Series], names: dict[Wood, tuple[str, ...]], others: Sequence[str], looks: Looks
) -> Figure:
    """The widths of the named series, or of all."""
    chosen: list[tuple[Series, Wood | None]] = [(named(series, name), part) for part in names for name in names[part]]
    chosen += [(named(series, name), None) for name in others]
    chosen = chosen or [(each, None) for each in series]
    if not chosen:
        raise Unusable("There are no series.")
    if len(chosen) > MOST_SERIES:
        raise Unusable(f"{len(chosen):,} series can't be told apart: name at most {MOST_SERIES} with --series.")
    taken = [each for each, _ in chosen]
    click.echo(looks.counting.words(taken), err=True)
    starts = looks.counting.starts(taken)
    measured = [Measured(each.name, start, each.widths, part) for (each, part), start in zip(chosen, starts)]
    return widths_picture(measured, title=looks.title, rings=looks.rings, is_narrow=looks.is_narrow)
