"""A picture of measured widths alone, without a curve: what was measured, before anything is chosen."""

from __future__ import annotations

from collections.abc import Sequence
from types import SimpleNamespace
from typing import TYPE_CHECKING, cast

import numpy as np

from .limits import PER_MM
from .plot import (
    CURVE_HEIGHT,
    HEADROOM,
    NARROW,
    NARROW_HEIGHT,
    PAD,
    PALE,
    THIN,
    WIDE,
    Measured,
    _Legend,
    _draw_widths,
    _label,
    _series_colours,
    _style,
)

if TYPE_CHECKING:
    from matplotlib.figure import Figure

    from .curve import Curve


def _frame(measured: Sequence[Measured]) -> Curve:
    """The span of the rings, in the place of a curve without joins."""
    first = min(each.first for each in measured)
    last = max(each.first + len(each.widths) - 1 for each in measured)
    breaks, orders = np.array([first, max(last, first + 1)]), np.array([], dtype=np.int64)
    return cast("Curve", SimpleNamespace(space=SimpleNamespace(breaks=breaks, orders=orders)))


def widths_picture(
    measured: Sequence[Measured], *, title: str = "", rings: str = "ring", is_narrow: bool = False
) -> Figure:
    """Draw measured widths.

    Parameters
    ----------
    measured : sequence of Measured
        At least one.
    title : str
    rings : str
        What the rings are called: ``"ring"`` or ``"year"``.
    is_narrow : bool
        Half the width, to stand beside another picture.

    Examples
    --------
    >>> [panel.get_ylabel() for panel in widths_picture([Measured("OAK", 0, [2500, 0, 2300])]).axes]
    ['width, mm']
    """
    from matplotlib.figure import Figure

    frame, legend = _frame(measured), _Legend()
    with _style():
        size = (NARROW, NARROW_HEIGHT) if is_narrow else (WIDE, CURVE_HEIGHT)
        made = Figure(figsize=size, layout="constrained")
        made.get_layout_engine().set(w_pad=PAD, h_pad=PAD)
        panel = made.subplots()
        panel.grid(axis="y", color=PALE, linewidth=THIN)
        panel.set_axisbelow(True)
        _draw_widths(panel, frame, measured, _series_colours(measured), legend)
        widest = max(max(each.widths, default=0) for each in measured) / PER_MM
        panel.set_ylim(0, widest * HEADROOM or 1.0)
        legend.draw(panel, is_narrow)
        _label(made, [panel], frame, title, rings, is_narrow)
    return made
