"""What the engine promises of a curve, in sentences for the page: the count of coefficients, the limits and how near
they are, which spaces are never refused, when the curve stays above zero, and what `explain` says of the sheet. The theorems
stand in docs/THEOREMS.md.
"""

from __future__ import annotations

from typing import TYPE_CHECKING, NamedTuple

import numpy as np

from ..limits import MOST_PART_STRETCHES, MOST_SPAN, MOST_STRETCHES
from ..promises import shape_lines, wood_lines
from ..words.lists import parts, rows_sum
from ..words.numbers import count

if TYPE_CHECKING:
    from numpy.typing import NDArray

    from ..curve import Curve
    from .design import Design

NEVER_REFUSED_ORDER = 1


class Promise(NamedTuple):
    """A sentence, and whether what it promises holds here."""

    words: str
    holds: bool


def rows_promise(curve: Curve) -> Promise:
    """How many coefficients there are, and why."""
    rows, added = rows_sum(curve.space.lists())
    return Promise(f"n = {rows} coefficients for each curve: {added}.", True)


def limits_promise(curve: Curve) -> Promise:
    """How near the limits the space is."""
    lists = curve.space.lists()
    longest = max(end - first for first, end in parts(lists))
    widest = max(lists.breaks[end] - lists.breaks[first] for first, end in parts(lists))
    words = (
        f"{count(len(lists.degrees), 'stretch')} of at most {MOST_STRETCHES}; without a scar at most {longest} of "
        f"{MOST_PART_STRETCHES} stretches and {widest:,} of {MOST_SPAN:,} rings follow each other."
    )
    return Promise(words, True)


def size_promise(curve: Curve) -> Promise:
    """Whether the space is one of those that are never refused for their size."""
    high = np.flatnonzero(curve.space.orders > NEVER_REFUSED_ORDER).tolist()
    if not high:
        return Promise("All orders are at most 1: such lists, within the limits, are never refused.", True)
    joins = ", ".join(map(str, high))
    words = f"Order 2 at join {joins}: other breakpoints there can be refused (no=8)."
    return Promise(f"{words} With orders up to 1 lists are never refused.", False)


def above_zero_promise(design: Design, curve: Curve) -> Promise:
    """Whether the coefficients keep the curve above zero."""
    for row, pair in enumerate(curve.coefficients.tolist()):
        for wood, coefficient in zip(design.woods, pair):
            if coefficient <= 0:
                part = "" if design.is_whole_ring else f" ({wood})"
                words = f"Coefficient {row}{part} is {coefficient}"
                return Promise(f"{words}: only coefficients above zero promise a curve above zero.", False)
    return Promise("All coefficients are above zero, so the curve is above zero everywhere.", True)


def low_promise(values: NDArray[np.int32]) -> Promise:
    """At how many positions a curve is low."""
    low, looked = int((values <= 0).any(axis=1).sum()), len(values)
    if low:
        return Promise(
            f"Low (zero or less) at {low:,} of {looked:,} positions looked at: marked below the curve.", False
        )
    return Promise(f"Low (zero or less) at none of {looked:,} positions looked at.", True)


def promises(design: Design, curve: Curve, values: NDArray[np.int32]) -> list[dict[str, object]]:
    """All sentences for a curve, with its values at the positions looked at."""
    lists = design.sheet(())
    made = [
        rows_promise(curve),
        limits_promise(curve),
        size_promise(curve),
        above_zero_promise(design, curve),
        low_promise(values),
        *(Promise(words, True) for words in [*shape_lines(lists), *wood_lines(lists)]),
    ]
    return [promise._asdict() for promise in made]
