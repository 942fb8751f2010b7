"""The space that stands in where no breakpoints are given: its stretches by the number of rings, and one such space after
the other where scars are named.
"""

from __future__ import annotations

from collections.abc import Sequence

from .limits import MOST_SPAN, SCAR
from .space import Space
from .words.numbers import count

MOST_TEMPLATE_RINGS = MOST_SPAN + 1  # with the rings at both ends of the span
# Where the stretches of a template start, counted from the first ring, and their degrees, by the least number of rings.
# docs/src/benchmark_fit.py chose them.
TEMPLATES = (
    (450, (0, 30, 90, 170, 330), (3, 2, 2, 2, 2)),
    (220, (0, 30, 90, 170), (3, 2, 2, 2)),
    (125, (0, 30, 90), (3, 2, 2)),
    (50, (0, 30), (3, 2)),
    (6, (0,), (2,)),
    (2, (0,), (1,)),
)
SMOOTH = 1  # the order of a template's joins: the slope goes on, and no such space is ever refused


class Unfittable(ValueError):
    """The widths don't determine a curve; the message says why and what to do."""


def template(rings: int, first: int = 0, scars: Sequence[int] = ()) -> Space:
    """A space for a series of so many rings: one long cubic stretch in young wood, then longer ones of degree 2, with slopes
    that go on; the same anew after each scar.

    Parameters
    ----------
    rings : int
        How many rings the series has: 2 to 2001, and so in each part between scars.
    first : int
        The number of its first ring.
    scars : sequence of int, optional
        The last ring before each scar, rising.

    Raises
    ------
    Unfittable
        If there are fewer or more.

    Examples
    --------
    >>> template(100, 1703)
    Space([1703, 1733, 1802], [3, 2], [1])
    >>> template(100, 1703, [1742])
    Space([1703, 1742, 1772, 1802], [2, 3, 2], [-1, 1])
    """
    ends = [*scars, first + rings - 1]
    breaks: list[int] = [first]
    degrees: list[int] = []
    orders: list[int] = []
    for before, end in zip([first - 1, *scars], ends):
        starts, held = stretches(end - before, len(ends) > 1)
        breaks += [breaks[-1] + start for start in starts[1:]] + [end]
        degrees += held
        orders += [SMOOTH] * (len(held) - 1) + [SCAR]
    return Space(breaks, degrees, orders[:-1])


def stretches(rings: int, is_part: bool = False) -> tuple[tuple[int, ...], tuple[int, ...]]:
    """Where the stretches of so many rings start, and their degrees."""
    whose = "A part between scars" if is_part else "It"
    if rings > MOST_TEMPLATE_RINGS:
        raise Unfittable(
            f"{whose} has {count(rings, 'ring')}, and a curve has at most {MOST_TEMPLATE_RINGS:,} without a scar: give breakpoints, "
            f"degrees and orders, with a scar (order {SCAR}) where the wood has one."
        )
    for least, starts, degrees in TEMPLATES:
        if rings >= least:
            return starts, degrees
    held = count(max(rings, 0), "ring")
    raise Unfittable(f"{whose} has {held}: a curve needs at least {TEMPLATES[-1][0]}.")
