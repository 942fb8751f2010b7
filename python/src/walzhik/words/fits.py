"""What is said of fits, by the command and on the screen: how close a curve is, its shape, and what of it is proved."""

from __future__ import annotations

from collections.abc import Sequence
from math import sqrt

from ..fit import LEAST_COEFFICIENT, Closeness, Fit, Shape
from ..limits import PER_MM

PER_CENT = 100
CHOICE = "A fit is a choice, and is not proved."


def figures(close: Closeness) -> str:
    """How close a curve is to the widths.

    Examples
    --------
    >>> figures(Closeness(0.0625, 0.87))
    'root mean square 0.250 mm, 87.0 % of the variance explained'
    >>> figures(Closeness(0.0625, -2e-16))
    'root mean square 0.250 mm, 0.0 % of the variance explained'
    """
    share = close.share_explained
    explained = "all widths are equal" if share is None else f"{PER_CENT * share:z.1f} % of the variance explained"
    return f"root mean square {sqrt(close.mean_square):.3f} mm, {explained}"


def shape_words(shapes: Sequence[Shape]) -> str:
    """The shape of a curve, or of each part between scars.

    Examples
    --------
    >>> shape_words(["falling"]), shape_words(["falling", "hump"])
    ('falling', 'part 0 falling, part 1 hump')
    """
    if len(shapes) == 1:
        return shapes[0]
    return ", ".join(f"part {part} {shape}" for part, shape in enumerate(shapes))


def least_words(made: Fit) -> str:
    """What is told of coefficients at the least that is allowed, or an empty text where there are none.

    Examples
    --------
    >>> from walzhik.fit import fit, template
    >>> least_words(fit(template(2), [900, 1], 0))
    'Coefficient 1 is at the least allowed, 0.001 mm: the widths ask for less there.'
    """
    rows = made.least_rows
    if not rows:
        return ""
    noun, verb = ("Coefficient", "is") if len(rows) == 1 else ("Coefficients", "are")
    listed, least = ",".join(map(str, rows)), LEAST_COEFFICIENT / PER_MM
    return f"{noun} {listed} {verb} at the least allowed, {least} mm: the widths ask for less there."


def promise(fits: Sequence[Fit]) -> str:
    """What is proved of the shape of fits, or an empty text.

    Examples
    --------
    >>> from walzhik.fit import fit, template
    >>> promise([fit(template(2), [900, 800], 0)])
    'By proof this curve never rises and stays above zero.'
    """
    proved = [each for each in fits if each.never_rises]
    if not proved:
        return ""
    parts = " (in each part)" if any(len(each.shapes) > 1 for each in proved) else ""
    if len(fits) == 1:
        return f"By proof this curve never rises{parts} and stays above zero."
    ending = "s" if len(proved) == 1 else ""
    some = f"{len(proved):,} of these {len(fits):,} curves never rise{ending}"
    held = "these curves never rise" if len(proved) == len(fits) else some
    return f"By proof {held}{parts}, and all stay above zero."
