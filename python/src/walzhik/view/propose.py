"""The page's button "fit": coefficients for the chosen series, over the design's own space or over a template, by the same
fit as the command's and told in the same words. A fit is a choice in floating point and is not proved.
"""

from __future__ import annotations

from collections.abc import Mapping
from typing import Any

from ..fit import Fit, Shape, Unfittable, fit
from ..fit_scar import hint
from ..limits import WOOD
from ..tucson import Series
from ..words.fits import CHOICE, figures, least_words, promise, shape_words
from .carry import carried
from .design import RING, Design
from .given import fitted
from .shown import with_pairs


def proposed(
    design: Design,
    series: Mapping[str, Series],
    is_template: bool,
    before: Design | None = None,
    shape: Shape = "auto",
) -> dict[str, Any]:
    """A design with fitted coefficients, and how close they are.

    A wood part without a series keeps its curve, carried over to the template where there is one.

    Parameters
    ----------
    design : Design
    series : mapping
        The series that were given, by name.
    is_template : bool
        Whether the breakpoints are proposed too.
    before : Design, optional
        As in `shown`.
    shape : {"auto", "falling", "hump", "free"}
        The shape of the fit.

    Raises
    ------
    Unfittable
        If no series is chosen, or the widths don't determine the curve.
    Refused
        If the engine refuses the space, the coefficients that are there, or a ring.
    """
    chosen = {wood: design.series[wood] for wood in design.woods if wood in design.series}
    if not chosen:
        raise Unfittable("No series is chosen: a fit needs measured widths.")
    design, curve = with_pairs(design, before)
    if is_template:
        begun = fitted(series, chosen, design.origin)
        design.breaks, design.degrees, design.orders = begun.lists
        design.pairs = carried(curve, begun.space())
    space = design.space()
    columns = [list(column) for column in zip(*design.pairs)]
    said: list[str] = []
    fits: list[Fit] = []
    for wood, name in chosen.items():
        each = series[name]
        made = fit(space, each.widths, design.origin.ring_of(each), shape)
        fits.append(made)
        said.append(f"Series {name}: {figures(made.closeness())}, {shape_words(made.shapes)}.")
        lacking = hint(made) if is_template else None
        said += [words for words in (least_words(made), lacking.sentence() if lacking else "") if words]
        for side in (0, 1) if wood == RING else (WOOD.index(wood),):
            columns[side] = made.coefficients.tolist()
    design.pairs = [(early, late) for early, late in zip(*columns)]
    return {
        "refusal": None,
        "design": design.as_json(),
        "words": " ".join([*said, CHOICE, promise(fits)]).rstrip(),
    }
