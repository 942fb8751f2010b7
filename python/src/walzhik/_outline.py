"""A curve as an outline for drawing: exact Bezier pieces where its degree is 1, 2 or 3, else through the engine's values. Apart from the
pictures because it is what a picture must get right, and needs no matplotlib.
"""

from __future__ import annotations

from typing import TYPE_CHECKING, NamedTuple

import numpy as np

from .limits import PER_MM, SCAR, UNIT, WOOD

if TYPE_CHECKING:
    from numpy.typing import NDArray

    from .curve import Curve, Wood

MOVE, LINE, QUADRATIC, CUBIC = 1, 2, 3, 4  # matplotlib's codes of a path
CODES = {1: LINE, 2: QUADRATIC, 3: CUBIC}  # by degree
STEPS = 256  # of a segment of degree 4 or 5: chords that are no pixel away from it
SCALE_STEPS = 64  # of any segment, for the least and the greatest value


class Outline(NamedTuple):
    """A path: a code and a point for each vertex, the rings across and millimetres upwards."""

    codes: list[int]
    points: list[tuple[float, float]]


def outline(curve: Curve, wood: Wood | None) -> Outline:
    """The curve of a wood part, lifted at discontinuities.

    Examples
    --------
    >>> from walzhik import Curve, Space
    >>> outline(Curve(Space([0, 2], [2], []), [1000, 3000, 2000]), None)
    Outline(codes=[1, 3, 3], points=[(0.0, 1.0), (1.0, 3.0), (2.0, 2.0)])
    """
    made = Outline([], [])
    for segment, degree in enumerate(curve.space.degrees.tolist()):
        is_apart = segment == 0 or curve.space.orders[segment - 1] == SCAR
        points = bezier(curve, segment, wood) if degree in CODES else through_values(curve, segment, wood, is_apart)
        code = CODES.get(degree, LINE)
        if is_apart:
            made.codes.append(MOVE)
            made.points.append(points[0])
        made.codes.extend([code] * (len(points) - 1))
        made.points.extend(points[1:])
    return made


def bezier(curve: Curve, segment: int, wood: Wood | None) -> list[tuple[float, float]]:
    """The ordinates of a segment at equal distances over it."""
    piece = curve.piece(segment, wood)
    step = (piece.end - piece.start) / piece.degree
    return [(piece.start + place * step, ordinate / PER_MM) for place, ordinate in enumerate(piece.ordinates)]


def through_values(curve: Curve, segment: int, wood: Wood | None, is_apart: bool) -> list[tuple[float, float]]:
    """Values along a segment. The breakpoint of a discontinuity itself is read from the segment that ends there, so that the one that
    starts there is drawn from a 256th of a ring after it."""
    start, end = curve.space.breaks[segment : segment + 2].tolist()
    positions = np.arange(UNIT * start, UNIT * end + 1, (end - start) * UNIT // STEPS, dtype=np.int32)
    if is_apart and segment:
        positions[0] += 1
    heights = millimetres(curve, positions)[:, curve.side(wood)]
    return list(zip((positions / UNIT).tolist(), heights.tolist()))


def millimetres(curve: Curve, positions: NDArray[np.int32]) -> NDArray[np.float64]:
    """The engine's values at positions, in millimetres, a column a wood part."""
    return curve.values(positions) / (UNIT * PER_MM)


def extent(curve: Curve, wood: Wood | None) -> tuple[float, float]:
    """About the least and the greatest value of the curve, in millimetres, close enough for a scale."""
    found: list[float] = []
    for start, end in zip(curve.space.breaks.tolist(), curve.space.breaks[1:].tolist()):
        positions = np.linspace(UNIT * start, UNIT * end, SCALE_STEPS + 1).astype(np.int32)
        positions[0] += start != curve.space.breaks[0]
        found.extend(millimetres(curve, positions)[:, curve.side(wood)].tolist())
    return min(found), max(found)


def drawn_parts(curve: Curve) -> list[Wood | None]:
    """The wood parts to draw where none is named: the whole ring, or both."""
    return [None] if curve.is_whole_ring else ["earlywood", "latewood"]


def part_name(wood: Wood | None) -> str:
    """The word for a part in a legend.

    >>> part_name(None), part_name("latewood")
    ('whole ring', 'latewood')
    """
    return "whole ring" if wood is None else WOOD[WOOD.index(wood)]
