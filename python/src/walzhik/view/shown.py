"""What the page draws of a design, in one answer: the pieces of each curve, low places, values at rings, the measured
rings beside them, and what the engine promises of it. All numbers are from the proved calls; floats here are whole
256ths of a thousandth and hence exact.
"""

from __future__ import annotations

from collections.abc import Mapping, Sequence
from typing import TYPE_CHECKING, Any

import numpy as np

from .._engine import MOST_POSITIONS
from ..errors import Refused
from ..limits import SCAR, UNIT, WOOD
from ..tucson import Series
from ..words.lists import Lists, rows_sum
from .carry import carried, handle_places
from .design import Design, wood_of
from .faults import control, told
from .measured import measured
from .promises import promises

if TYPE_CHECKING:
    from numpy.typing import NDArray

    from ..curve import Curve

MOST_PIECE_DEGREE = 3
STEPS = 256  # of a segment of degree 4 or 5: chords that are no pixel away from it
MOST_LOOKED_AT = 4_000  # positions at which a curve is looked at for low places, with the breakpoints


def piece(curve: Curve, segment: int, side: int) -> dict[str, Any]:
    """A segment as points over rings, in thousandths: Bezier points for degrees 1 to 3, else points of the curve.

    At a discontinuity the breakpoint is read from the segment that ends there, so that values of the one that starts
    there begin a 256th of a ring after it.
    """
    degree = int(curve.space.degrees[segment])
    is_apart = segment == 0 or int(curve.space.orders[segment - 1]) == SCAR
    if degree <= MOST_PIECE_DEGREE:
        found = curve.piece(segment, wood_of(WOOD[side]))
        step = (found.end - found.start) / degree
        points = [[found.start + place * step, ordinate] for place, ordinate in enumerate(found.ordinates)]
        points[-1][0] = found.end
    else:
        start, end = curve.space.breaks[segment : segment + 2].tolist()
        positions = np.arange(UNIT * start, UNIT * end + 1, (end - start) * UNIT // STEPS, dtype=np.int32)
        positions[0] += is_apart and segment > 0
        points = (np.stack([positions, curve.values(positions)[:, side]], axis=1) / UNIT).tolist()
    return {"degree": degree, "is_apart": is_apart, "points": points}


def looked_at(curve: Curve) -> NDArray[np.int32]:
    """Positions all over the span: every 256th of a ring, or wider apart where it is long, and every breakpoint."""
    first, last = (UNIT * int(end) for end in curve.space.breaks[[0, -1]])
    step = 1 + (last - first) // MOST_LOOKED_AT
    positions = np.concatenate([np.arange(first, last + 1, step), UNIT * curve.space.breaks])
    return np.asarray(np.unique(positions), dtype=np.int32)


def low_places(positions: NDArray[np.int32], values: NDArray[np.int32]) -> list[list[float]]:
    """The first and the last ring of each run of positions whose value is zero or less.

    Examples
    --------
    >>> low_places(np.array([0, 256, 512, 768]), np.array([-1, 0, 5, 0]))
    [[0.0, 1.0], [3.0, 3.0]]
    """
    low = np.concatenate([[False], values <= 0, [False]]).astype(np.int8)
    starts, ends = np.flatnonzero(np.diff(low) == 1), np.flatnonzero(np.diff(low) == -1) - 1
    return [[start / UNIT, end / UNIT] for start, end in zip(positions[starts].tolist(), positions[ends].tolist())]


def part_rows(curve: Curve) -> list[int]:
    """How many coefficients each part between discontinuities has."""
    lists = curve.space.lists()
    return [
        rows_sum(Lists(lists.breaks[first : end + 1], lists.degrees[first:end], lists.orders[first : end - 1]))[0]
        for first, end in curve.space.parts
    ]


def ring_values(curve: Curve) -> NDArray[np.int32]:
    """Both curves at each whole ring of the span, in 256ths of a thousandth; none where it has more than one call takes."""
    first, last = (int(end) for end in curve.space.breaks[[0, -1]])
    if last - first >= MOST_POSITIONS:
        return np.zeros((0, len(WOOD)), dtype=np.int32)
    return curve.values(UNIT * np.arange(first, last + 1, dtype=np.int32))


def with_pairs(design: Design, before: Design | None) -> tuple[Design, Curve]:
    """The design with its curve.

    Parameters
    ----------
    design : Design
    before : Design, optional
        The lists that the design's coefficients were made for. Where these are other ones than the design's own, the
        curve over them is carried over, also if the number of coefficients happens to be the same.
    """
    space = design.space()
    if before is not None and before.lists != design.lists:
        design.pairs = carried(before.curve(), space)
    return design, design.curve(space)


def shown(
    design: Design, before: Design | None, series: Mapping[str, Series], at: Sequence[int] = ()
) -> dict[str, Any]:
    """What the page draws of a design.

    Parameters
    ----------
    design : Design
    before : Design, optional
        The one whose coefficients it has, where its own lists are other ones.
    series : mapping
        The series that were given, by name.
    at : sequence of int
        The positions of the sheet that was given.
    """
    try:
        design, curve = with_pairs(design, before)
    except Refused as error:
        return {"refusal": told(error, control(error, design)), "series": measured(design, None, series)}
    positions = looked_at(curve)
    values = curve.values(positions)
    at_rings = ring_values(curve)
    curves = []
    for wood in design.woods:
        side = curve.side(wood_of(wood))
        pieces = [piece(curve, segment, side) for segment in range(len(design.degrees))]
        low = low_places(positions, values[:, side])
        curves.append({"wood": wood, "pieces": pieces, "low": low, "values": at_rings[:, side].tolist()})
    return {
        "refusal": None,
        "n": curve.space.n,
        "pairs": [list(pair) for pair in design.pairs],
        "places": handle_places(curve.space),
        "rows": part_rows(curve),
        "curves": curves,
        "extent": [int(values.min()) / UNIT, int(values.max()) / UNIT],
        "series": measured(design, curve, series),
        "promises": promises(design, curve, values),
        "sheet": design.sheet(at).text().decode("ascii"),
    }
